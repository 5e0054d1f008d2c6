//! Makes requests on a base and a reference: to resolve, and to show the authority.

use super::damage::damage;
use super::item::{Encoded, Item};
use super::random::Random;
use super::reference::{self, Maker};
use super::{input, link, room};
use crate::lines::hex;
use crate::reader::{MAX_INPUT, MAX_SEGMENTS};
use crate::resolver::resolve;

/// A request to resolve, with a room around the length of the result.
pub fn resolve_request(random: &mut Random) -> String {
    let Pair { base, reference } = pair(random);
    let length = resolve(&base, &reference, &mut [0; MAX_INPUT]).unwrap_or(reference.len());
    let room = room(random, length);
    format!("resolve {room} {} {}", hex(&base), hex(&reference))
}

pub fn authority_request(random: &mut Random) -> String {
    let Pair { base, reference } = pair(random);
    format!("authority {} {}", hex(&reference), hex(&base))
}

struct Pair {
    base: Vec<u8>,
    reference: Vec<u8>,
}

impl Pair {
    fn of(base: &[Item], reference: &[Item]) -> Self {
        Pair {
            base: Encoded::array(base).bytes,
            reference: Encoded::array(reference).bytes,
        }
    }
}

fn pair(random: &mut Random) -> Pair {
    match random.below(100) {
        0..4 => Pair {
            base: input(random).bytes,
            reference: input(random).bytes,
        },
        4..50 => Pair {
            base: reference::absolute(random, 0).encoded.bytes,
            reference: input(random).bytes,
        },
        50..52 => Pair {
            base: link::around_longest(random),
            ..small(random)
        },
        52..54 => Pair {
            base: input(random).bytes,
            ..small(random)
        },
        54..56 => Pair {
            base: damaged_base(random),
            ..small(random)
        },
        56..69 => discarding(random),
        69..87 => small(random),
        87 => Pair {
            base: reference::bracketed(random).encoded.bytes,
            ..small(random)
        },
        88..95 => around_most_segments(random),
        _ => around_longest(random),
    }
}

fn damaged_base(random: &mut Random) -> Vec<u8> {
    let mut base = reference::absolute(random, 1).encoded;
    if random.chance(70) {
        damage(random, &mut base);
    }
    base.bytes
}

/// A base, and a reference that discards about as many segments as the base has.
fn discarding(random: &mut Random) -> Pair {
    let base = reference::absolute(random, 0);
    let discard = discard(random, base.segments);
    Pair {
        base: base.encoded.bytes,
        reference: reference::discarding(random, discard).encoded.bytes,
    }
}

/// The largest number of a discard.
const MAX_DISCARD: u64 = 127;

fn discard(random: &mut Random, segments: usize) -> Item {
    let segments = segments as u64;
    match random.below(10) {
        0 => Item::True,
        1..4 => Item::Number(0),
        4 => Item::Number(1),
        5 => Item::Number(segments.saturating_sub(1).min(MAX_DISCARD)),
        6 => Item::Number(segments.min(MAX_DISCARD)),
        7 => Item::Number((segments + 1).min(MAX_DISCARD)),
        8 => Item::Number(MAX_DISCARD),
        _ => Item::Number(random.below(MAX_DISCARD + 1)),
    }
}

/// Paths of few short segments, empty ones among them.
const SMALL_PATHS: [&[&str]; 10] = [
    &[],
    &[""],
    &[""],
    &[""],
    &["", ""],
    &["a"],
    &["", "a"],
    &["a", ""],
    &["a", "", "b"],
    &["a", "b", "c"],
];

/// A base and a reference of which each component is set or not, with small paths.
fn small(random: &mut Random) -> Pair {
    let mut maker = Maker::brief(random);
    let scheme = maker.set_scheme();
    let mut base = vec![scheme, maker.authority()];
    let segments = small_rest(&mut maker, &mut base);
    let mut reference = match maker.random.below(10) {
        0 => vec![maker.set_scheme(), maker.authority()],
        1 | 2 => vec![Item::Null, maker.authority()],
        _ => vec![discard(maker.random, segments)],
    };
    small_rest(&mut maker, &mut reference);
    Pair::of(&base, &reference)
}

/// Adds path, query and fragment to an opening, and gives the number of segments.
fn small_rest(maker: &mut Maker, items: &mut Vec<Item>) -> usize {
    let least = items.len();
    let text = |text: &str| Item::Text(text.into());
    let path = maker.random.pick(&SMALL_PATHS);
    items.push(if maker.random.chance(30) {
        Item::Null
    } else {
        Item::Array(path.iter().map(|segment| text(segment)).collect())
    });
    items.push(match maker.random.below(4) {
        0 => Item::Array(vec![text("")]),
        1 => Item::Array(vec![text("q"), text("r")]),
        _ => Item::Null,
    });
    items.push(match maker.random.below(4) {
        0 => text(""),
        1 => text("f"),
        _ => Item::Null,
    });
    maker.leave_off(items, least);
    match items.get(least) {
        Some(Item::Array(_)) => path.len(),
        _ => 0,
    }
}

/// A result with about as many segments as a path may have.
fn around_most_segments(random: &mut Random) -> Pair {
    const MOST: usize = MAX_SEGMENTS;
    let near = [MOST - 1, MOST, MOST, MOST + 1, MOST + 1, MOST + 2];
    let any = random.index(2 * MOST + 1);
    let all = random.pick(&[&near[..], &[any, 2 * MOST]].concat());
    let least = all.saturating_sub(MOST);
    let kept = least + random.index(MOST - least + 1).min(all - least);
    let dropped = random.index((MOST - kept).min(MAX_DISCARD as usize) + 1);
    let mut maker = Maker::brief(random);
    let base = vec![
        maker.set_scheme(),
        maker.authority(),
        maker.segments(kept + dropped),
    ];
    let discard = Item::Number(dropped as u64);
    let reference = vec![discard, maker.segments(all - kept)];
    Pair::of(&base, &reference)
}

/// A result about as long as an encoding may be.
fn around_longest(random: &mut Random) -> Pair {
    let mut maker = Maker::brief(random);
    let opening = [maker.set_scheme(), maker.authority()];
    let (mut path, after) = maker.around_longest(&opening);
    let [scheme, authority] = opening;
    let (base, mut reference) = if maker.random.chance(80) {
        let appended = path.split_off(maker.random.index(path.len() + 1));
        let dropped = maker.random.pick(&[0, 0, 1, 2]);
        path.extend((0..dropped).map(|_| Item::Text(vec![b'd'])));
        let discard = Item::Number(dropped);
        let base = vec![scheme, authority, Item::Array(path)];
        (base, vec![discard, Item::Array(appended)])
    } else {
        // The reference brings all but the scheme.
        let base = vec![scheme, maker.authority()];
        (base, vec![Item::Null, authority, Item::Array(path)])
    };
    reference.extend(after);
    Pair::of(&base, &reference)
}
