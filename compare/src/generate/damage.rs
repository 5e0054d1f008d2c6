//! Damages encodings.

use super::item::{head, head_length, head_of, Encoded};
use super::random::Random;

/// Makes one to three faults, most of them at heads.
pub fn damage(random: &mut Random, encoded: &mut Encoded) {
    let Encoded { bytes, heads } = encoded;
    let count = random.pick(&[1, 1, 1, 2, 3]);
    let mut places: Vec<usize> = (0..count).map(|_| random.pick(heads)).collect();
    // From the last to the first, so that most places are still those of heads.
    places.sort_unstable_by(|a, b| b.cmp(a));
    for place in places {
        if random.chance(65) {
            damage_head(random, bytes, place);
        } else {
            damage_bytes(random, bytes, place);
        }
    }
}

/// Makes one fault of a head, at one of the first items or anywhere.
pub fn damage_one_head(random: &mut Random, encoded: &mut Encoded) {
    let Encoded { bytes, heads } = encoded;
    let first = random.index(heads.len().min(5));
    let any = random.index(heads.len());
    let at = heads[random.pick(&[first, any])];
    damage_head_at(random, bytes, at);
}

/// Makes the head at `at` a reserved one or a longer one, or cuts before it, in it or soon after it.
pub fn damage_head_at(random: &mut Random, bytes: &mut Vec<u8>, at: usize) {
    let major = bytes[at] >> 5;
    let end = at + head_length(bytes[at]);
    // How many bytes a number has in a head, and the least number that needs them.
    let (width, least): (_, u64) = random.pick(&[(1, 24), (2, 1 << 8), (4, 1 << 16), (8, 1 << 32)]);
    match random.below(8) {
        0 => drop(bytes.splice(at..end, [(major << 5) | (28 + random.below(4) as u8)])),
        1..4 => {
            let number = random.pick(&[0, least - 1, least]);
            bytes.splice(at..end, head_of(major, number, width));
        }
        4 => bytes.truncate(at),
        5 => bytes.truncate(end + random.index(20)),
        _ => {
            bytes.truncate(at);
            bytes.extend(head_of(major, random.number(), width));
            bytes.truncate(at + 1 + random.index(width));
        }
    }
}

/// Adds bytes at the end.
pub fn append(random: &mut Random, bytes: &mut Vec<u8>) {
    let length = 1 + random.index(20);
    if random.chance(50) {
        bytes.extend(small_item(random));
    } else {
        bytes.extend(random.bytes(length));
    }
}

/// Puts another head in place of the one at `at`, or cuts in it.
fn damage_head(random: &mut Random, bytes: &mut Vec<u8>, at: usize) {
    let Some(&first) = bytes.get(at) else { return };
    let end = (at + head_length(first)).min(bytes.len());
    let (major, info) = (first >> 5, first & 0x1F);
    let argument = match end - at {
        1 => u64::from(info),
        _ => bytes[at + 1..end]
            .iter()
            .fold(0, |sum, &b| (sum << 8) | u64::from(b)),
    };
    let new = match random.below(8) {
        0 => head_of(major, argument, random.pick(&[1, 2, 4, 8])),
        1 => head_of(major, random.number(), random.pick(&[1, 2, 4, 8])),
        2 => vec![(major << 5) | (28 + random.below(4) as u8)],
        3 => head(major, argument.wrapping_add(1)),
        4 => head(major, argument.wrapping_sub(1)),
        5 => head(major, random.number()),
        6 => head(random.below(7) as u8, argument),
        _ => vec![random.pick(&[
            0xE0, 0xF4, 0xF5, 0xF6, 0xF7, 0xF8, 0xF9, 0xFA, 0xFB, 0xFC, 0xFF,
        ])],
    };
    let new_end = at + new.len();
    bytes.splice(at..end, new);
    if random.chance(10) {
        let cut = at + random.index(new_end - at + 2);
        bytes.truncate(cut);
    }
}

/// Changes, cuts, drops or adds bytes, at `at` or anywhere.
fn damage_bytes(random: &mut Random, bytes: &mut Vec<u8>, at: usize) {
    let anywhere = random.index(bytes.len() + 1);
    let place = random.pick(&[at, anywhere]).min(bytes.len());
    let end = (place + random.pick(&[1, 1, 2, 3])).min(bytes.len());
    let length = random.pick(&[1, 1, 2, 5, 20]);
    match random.below(9) {
        0 => bytes[place..end]
            .iter_mut()
            .for_each(|b| *b = random.byte()),
        1 => bytes[place..end]
            .iter_mut()
            .for_each(|b| *b ^= 1 << random.below(8)),
        2 | 3 => bytes.truncate(place),
        4 => drop(bytes.drain(place..end)),
        5 => drop(bytes.splice(place..place, random.bytes(length))),
        6 => drop(bytes.splice(place..place, small_item(random).iter().copied())),
        7 => append(random, bytes),
        _ => {
            bytes.truncate(place);
            bytes.extend(random.bytes(length));
        }
    }
}

fn small_item(random: &mut Random) -> &'static [u8] {
    random.pick(&[
        b"\x00", b"\x20", b"\x40", b"\x60", b"\x61a", b"\x80", b"\x81\x60", b"\xA0", b"\xF5",
        b"\xF6",
    ])
}
