// Items one after the other: the position after so many of them, or a refusal's number.
use crate::{agree, Call, compare, inputs, Random};

#[repr(C)]
#[derive(Clone, Copy, PartialEq, Debug)]
pub struct Answer {
    number: u64,
    next: usize,
}

extern "C" {
    fn bench_texts(s: *const u8, length: usize, count: usize) -> Answer;
    fn bench_labels(s: *const u8, length: usize, count: usize) -> Answer;
}

// The bytes, and how many items to read.
type Input = (Vec<u8>, usize);

#[derive(PartialEq)]
enum Kind {
    Number,
    Negative,
    Bytes,
    Text,
    Array,
    True,
    Null,
}

fn kind(b: u8) -> Option<Kind> {
    match b {
        0..=0x1f => Some(Kind::Number),
        0x20..=0x3f => Some(Kind::Negative),
        0x40..=0x5f => Some(Kind::Bytes),
        0x60..=0x7f => Some(Kind::Text),
        0x80..=0x9f => Some(Kind::Array),
        0xf5 => Some(Kind::True),
        0xf6 => Some(Kind::Null),
        _ => None,
    }
}

struct Head {
    kind: Kind,
    value: u64,
    next: usize,
}

fn head(s: &[u8], at: usize, allowed: impl Fn(&Kind) -> bool) -> Result<Head, u64> {
    let &b = s.get(at).ok_or(1u64)?;
    let kind = kind(b).filter(allowed).ok_or(2u64)?;
    let from = at + 1;
    let (value, width, least) = match b & 31 {
        info @ 0..=23 => (info as u64, 0, 0),
        24 => (*s.get(from).ok_or(1u64)? as u64, 1, 24),
        25 => (u16::from_be_bytes(s.get(from..from + 2).ok_or(1u64)?.try_into().unwrap()) as u64, 2, 1 << 8),
        26 => (u32::from_be_bytes(s.get(from..from + 4).ok_or(1u64)?.try_into().unwrap()) as u64, 4, 1 << 16),
        27 => (u64::from_be_bytes(s.get(from..from + 8).ok_or(1u64)?.try_into().unwrap()), 8, 1 << 32),
        _ => return Err(3),
    };
    if value < least {
        return Err(3);
    }
    Ok(Head { kind, value, next: from + width })
}

fn items(s: &[u8], count: usize, allowed: impl Fn(&Kind) -> bool) -> Result<usize, u64> {
    let mut at = 0;
    for _ in 0..count {
        let head = head(s, at, &allowed)?;
        at = head.next;
        if head.kind == Kind::Text {
            if ((s.len() - at) as u64) < head.value {
                return Err(1);
            }
            at += head.value as usize;
        }
    }
    Ok(at)
}

fn answer(result: Result<usize, u64>) -> Answer {
    match result {
        Ok(next) => Answer { number: 0, next },
        Err(number) => Answer { number, next: 0 },
    }
}

#[inline(never)]
fn texts_rust(s: &[u8], count: usize) -> Answer {
    answer(items(s, count, |k| *k == Kind::Text))
}

#[inline(never)]
fn labels_rust(s: &[u8], count: usize) -> Answer {
    answer(items(s, count, |k| *k == Kind::Text || *k == Kind::Number))
}

const TEXTS: [Call<Input, Answer>; 2] = [("rattle", |(s, n)| unsafe { bench_texts(s.as_ptr(), s.len(), *n) }), ("rust", |(s, n)| texts_rust(s, *n))];
const LABELS: [Call<Input, Answer>; 2] = [("rattle", |(s, n)| unsafe { bench_labels(s.as_ptr(), s.len(), *n) }), ("rust", |(s, n)| labels_rust(s, *n))];

// The shortest head of a major type and a number.
fn put(s: &mut Vec<u8>, major: u8, v: u64) {
    let first = major << 5;
    match v {
        0..=23 => s.push(first | v as u8),
        24..=0xff => s.extend([first | 24, v as u8]),
        0x100..=0xffff => {
            s.push(first | 25);
            s.extend((v as u16).to_be_bytes());
        }
        0x10000..=0xffff_ffff => {
            s.push(first | 26);
            s.extend((v as u32).to_be_bytes());
        }
        _ => {
            s.push(first | 27);
            s.extend(v.to_be_bytes());
        }
    }
}

fn put_text(s: &mut Vec<u8>, n: usize) {
    put(s, 3, n as u64);
    s.extend(std::iter::repeat_n(b'a', n));
}

// Texts of up to 12 bytes and, for so many of a hundred items, numbers of up to so many bits, up to n bytes.
fn mixed(n: usize, numbers: usize, bits: u32, random: &mut Random) -> Input {
    let mut s = Vec::new();
    let mut count = 0;
    while s.len() < n {
        if random.below(100) < numbers {
            put(&mut s, 0, random.next() >> (64 - 1 - random.below(bits as usize) as u32));
        } else {
            let left = n - 1 - s.len();
            put_text(&mut s, random.below(13).min(left));
        }
        count += 1;
    }
    (s, count)
}

// The answers on short inputs, on every first byte with cut and long heads, and on items whole and damaged.
fn check() {
    let same = |s: &[u8], count: usize| {
        agree(&(s.to_vec(), count), &TEXTS);
        agree(&(s.to_vec(), count), &LABELS);
    };
    same(&[], 0);
    same(&[], 1);
    for a in 0..=255 {
        for b in 0..=255 {
            same(&[a, b], 1);
            same(&[a, b], 2);
        }
        for tail in [[0; 8], [0xff; 8], [0, 0, 0, 0, 1, 0, 0, 0], [0, 0, 0, 1, 0, 0, 0, 0], [0, 0, 1, 0, 0, 0, 0, 0], [0, 0xff, 0, 0, 0, 0, 0, 0], [1, 0, 0, 0, 0, 0, 0, 0]] {
            for cut in 0..=8 {
                let mut s = vec![a];
                s.extend(&tail[..cut]);
                same(&s, 1);
            }
        }
    }
    let mut random = Random::new();
    for _ in 0..100_000 {
        let n = random.below(60);
        let (mut s, count) = mixed(n, 30, 64, &mut random);
        for _ in 0..random.below(3) {
            if !s.is_empty() {
                let at = random.below(s.len());
                s[at] = random.next() as u8;
            }
        }
        same(&s, count);
    }
}

pub fn measure() {
    check();
    println!("items: the answers agree");
    let sizes = [8, 16, 32, 64, 100, 128, 200, 255];
    let kinds: [(&str, usize, u32, &[Call<Input, Answer>]); 5] = [
        ("texts", 0, 1, &TEXTS),
        ("texts, by kinds", 0, 1, &LABELS),
        ("texts and ports", 30, 16, &LABELS),
        ("16-bit numbers", 100, 16, &LABELS),
        ("64-bit numbers", 100, 64, &LABELS),
    ];
    for (name, numbers, bits, calls) in kinds {
        let made = |n: usize| {
            let mut random = Random::new();
            (0..inputs()).map(|_| mixed(n, numbers, bits, &mut random)).collect::<Vec<Input>>()
        };
        compare(name, &sizes, made, calls);
    }
}
