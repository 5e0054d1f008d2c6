// The validity of a part of a slice as UTF-8.
use crate::{agree, Call, compare, inputs, Random};

extern "C" {
    fn bench_utf8_valid(s: *const u8, length: usize, from: usize, n: usize) -> bool;
}

// A slice, a position and a length.
type Input = (Vec<u8>, usize, usize);

fn rattle((s, from, n): &Input) -> bool {
    unsafe { bench_utf8_valid(s.as_ptr(), s.len(), *from, *n) }
}

#[inline(never)]
fn library(s: &[u8], from: usize, n: usize) -> bool {
    std::str::from_utf8(&s[from..from + n]).is_ok()
}

#[inline(never)]
fn by_hand(s: &[u8], from: usize, n: usize) -> bool {
    let s = &s[from..from + n];
    let tail = |b: u8| (0x80..=0xbf).contains(&b);
    let mut i = 0;
    while i < s.len() {
        let (size, low, high) = match s[i] {
            0..=0x7f => {
                i += 1;
                continue;
            }
            0xc2..=0xdf => (2, 0x80, 0xbf),
            0xe0 => (3, 0xa0, 0xbf),
            0xe1..=0xec | 0xee..=0xef => (3, 0x80, 0xbf),
            0xed => (3, 0x80, 0x9f),
            0xf0 => (4, 0x90, 0xbf),
            0xf1..=0xf3 => (4, 0x80, 0xbf),
            0xf4 => (4, 0x80, 0x8f),
            _ => return false,
        };
        if s.len() - i < size || s[i + 1] < low || high < s[i + 1] {
            return false;
        }
        if 2 < size && !tail(s[i + 2]) || 3 < size && !tail(s[i + 3]) {
            return false;
        }
        i += size;
    }
    true
}

const CALLS: [Call<Input, bool>; 3] = [("rattle", rattle), ("std", |(s, from, n)| library(s, *from, *n)), ("by hand", |(s, from, n)| by_hand(s, *from, *n))];

fn same(bytes: &[u8]) {
    agree(&(bytes.to_vec(), 0, bytes.len()), &CALLS);
}

fn character(random: &mut Random) -> char {
    loop {
        let bits = [7, 11, 16, 21][random.below(4)];
        if let Some(c) = char::from_u32((random.next() % (1 << bits)) as u32) {
            return c;
        }
    }
}

// The answers on every input of one and two bytes, at the ends of each range, and on random texts, whole and damaged.
fn check() {
    for a in 0..=255 {
        same(&[a]);
        for b in 0..=255 {
            same(&[a, b]);
        }
    }
    let edges = [0x00, 0x7f, 0x80, 0x8f, 0x90, 0x9f, 0xa0, 0xbf, 0xc0, 0xc1, 0xc2, 0xdf, 0xe0, 0xe1, 0xec, 0xed, 0xee, 0xef, 0xf0, 0xf1, 0xf3, 0xf4, 0xf5, 0xff];
    for a in edges {
        for b in edges {
            for c in edges {
                same(&[a, b, c]);
                for d in edges {
                    same(&[a, b, c, d]);
                    same(&[a, b, c, d, 0x61]);
                }
            }
        }
    }
    for c in [0x7f, 0x80, 0x7ff, 0x800, 0xd7ff, 0xe000, 0xffff, 0x10000, 0x10ffff] {
        same(char::from_u32(c).unwrap().to_string().as_bytes());
    }
    let mut random = Random::new();
    for _ in 0..300_000 {
        let plain = random.below(12);
        let characters = random.below(80);
        let mut s: Vec<u8> = (0..characters)
            .map(|_| if random.below(12) < plain { (random.below(96) + 32) as u8 as char } else { character(&mut random) })
            .collect::<String>()
            .into_bytes();
        for _ in 0..random.below(3) {
            if !s.is_empty() {
                let at = random.below(s.len());
                s[at] = random.next() as u8;
            }
        }
        let from = random.below(s.len() + 1);
        let n = random.below(s.len() - from + 1);
        agree(&(s.clone(), from, n), &CALLS);
        same(&s);
        let outside = (s.clone(), from, s.len() - from + 1);
        assert!(!rattle(&outside), "a range outside the slice is accepted: {outside:02x?}");
    }
    assert!(!rattle(&(vec![0x61], usize::MAX, 2)), "a range whose end wraps is accepted");
}

fn plain(n: usize, random: &mut Random) -> Vec<u8> {
    (0..n).map(|_| b"abcdefghijklmnopqrstuvwxyz-.0123456789ABCXYZ"[random.below(44)]).collect()
}

// Characters of one range, with a space for each sixth or none, and spaces up to n bytes.
fn letters(n: usize, first: u32, count: usize, spaces: bool, random: &mut Random) -> Vec<u8> {
    let mut s = String::new();
    loop {
        let c = if spaces && random.below(6) == 0 { ' ' } else { char::from_u32(first + random.below(count) as u32).unwrap() };
        if n < s.len() + c.len_utf8() {
            break;
        }
        s.push(c);
    }
    s.extend(std::iter::repeat_n(' ', n - s.len()));
    s.into_bytes()
}

fn with(mut s: Vec<u8>, at: usize, c: &[u8]) -> Vec<u8> {
    s[at..at + c.len()].copy_from_slice(c);
    s
}

pub fn measure() {
    check();
    println!("utf8: the answers agree");
    let texts: [(&str, fn(usize, &mut Random) -> Vec<u8>); 6] = [
        ("ASCII", plain),
        ("Greek", |n, r| letters(n, 0x3b1, 24, true, r)),
        ("3 bytes each", |n, r| letters(n, 0x4e00, 5000, false, r)),
        ("one at the end", |n, r| with(plain(n, r), n - 2, &[0xc3, 0xa9])),
        ("one in the middle", |n, r| with(plain(n, r), n / 2, &[0xc3, 0xa9])),
        ("cut at the end", |n, r| with(plain(n, r), n - 1, &[0xc3])),
    ];
    for (name, text) in texts {
        // each text after up to 7 other bytes
        let made = |n: usize| {
            let mut random = Random::new();
            (0..inputs())
                .map(|_| {
                    let from = random.below(8);
                    let mut s = plain(from, &mut random);
                    s.extend(text(n, &mut random));
                    (s, from, n)
                })
                .collect::<Vec<Input>>()
        };
        compare(name, &[4, 8, 12, 16, 24, 31, 32, 48, 64, 100, 128, 200, 255], made, &CALLS);
    }
}
