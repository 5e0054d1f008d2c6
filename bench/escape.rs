// Texts escaped into a room: measured, compared with the room, and written.
use crate::{Call, compare, inputs, Random, room};

extern "C" {
    fn bench_put_escaped(room: *mut u8, room_length: usize, src: *const u8, length: usize, class: u8) -> usize;
}

// A text and its class: 0 label, 1 segment, 2 parameter, 3 fragment.
type Input = (Vec<u8>, u8);

fn rattle((src, class): &Input) -> usize {
    let room = room();
    unsafe { bench_put_escaped(room.as_mut_ptr(), room.len(), src.as_ptr(), src.len(), *class) }
}

const fn classes(b: u8) -> u8 {
    let plain = b.is_ascii_alphanumeric() || matches!(b, b'-' | b'.' | b'_' | b'~' | b'!' | b'$' | b'&' | b'\'' | b'(' | b')' | b'*' | b'+' | b',' | b';' | b'=');
    let segment = plain || b == b':' || b == b'@';
    let fragment = segment || b == b'/' || b == b'?';
    plain as u8 | (segment as u8) << 1 | ((fragment && b != b'&') as u8) << 2 | (fragment as u8) << 3
}

// For each byte a bit for each class that it stands bare in.
static BARE: [u8; 256] = {
    let mut table = [0; 256];
    let mut b = 0;
    while b < 256 {
        table[b] = classes(b as u8);
        b += 1;
    }
    table
};

static DIGITS: &[u8; 16] = b"0123456789ABCDEF";

fn length(src: &[u8], bit: u8) -> usize {
    src.iter().map(|&b| if BARE[b as usize] & bit != 0 { 1 } else { 3 }).sum()
}

fn put(room: &mut [u8], src: &[u8], bit: u8) -> usize {
    let mut o = 0;
    for &b in src {
        if BARE[b as usize] & bit != 0 {
            room[o] = b;
            o += 1;
        } else {
            room[o] = b'%';
            room[o + 1] = DIGITS[(b >> 4) as usize];
            room[o + 2] = DIGITS[(b & 15) as usize];
            o += 3;
        }
    }
    o
}

#[inline(never)]
fn escape(room: &mut [u8], src: &[u8], class: u8) -> usize {
    let bit = 1 << (class & 3);
    if room.len() < length(src, bit) {
        return 0;
    }
    put(room, src, bit)
}

fn rust((src, class): &Input) -> usize {
    escape(room(), src, *class)
}

const CALLS: [Call<Input, usize>; 2] = [("rattle", rattle), ("rust", rust)];

// The texts that both leave in the room, for every byte and for random texts.
fn check() {
    let mut random = Random::new();
    let mut texts: Vec<Vec<u8>> = (0..=255).map(|b| vec![b]).collect();
    for _ in 0..50_000 {
        texts.push((0..random.below(80)).map(|_| random.next() as u8).collect());
    }
    for text in texts {
        for class in 0..4 {
            let input = (text.clone(), class);
            let written: Vec<Vec<u8>> = CALLS.iter().map(|(_, call)| room_after(*call, &input)).collect();
            assert!(written[0] == written[1], "escaped differently: class {class}, {text:02x?}: {:?} {:?}", written[0], written[1]);
        }
    }
}

fn room_after(call: fn(&Input) -> usize, input: &Input) -> Vec<u8> {
    room().fill(0);
    let n = call(input);
    assert!(room()[n..].iter().all(|&b| b == 0), "bytes after the text are changed");
    room()[..n].to_vec()
}

pub fn measure() {
    check();
    println!("escape: the texts agree");
    for percent in [0, 5, 50, 100] {
        let made = |n: usize| {
            let mut random = Random::new();
            (0..inputs())
                .map(|k| {
                    let text = (0..n).map(|_| if random.below(100) < percent { 0x80 + random.below(128) as u8 } else { b"abcdefghijklmnopqrstuvwxyz-._0123456789ABC"[random.below(42)] }).collect();
                    (text, k as u8 % 4)
                })
                .collect::<Vec<Input>>()
        };
        compare(&format!("{percent} % escaped"), &[8, 16, 32, 64, 100, 128, 200, 255], made, &CALLS);
    }
}
