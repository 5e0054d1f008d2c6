//! Makes request lines from a seed: references at and around every limit, damaged ones, and lines that are no requests.

mod components;
mod damage;
mod item;
mod link;
mod pairs;
mod printing;
mod random;
mod reference;
mod requests;
mod words;

use crate::lines::{hex, MAX_LINE, MAX_ROOM};
use crate::reader::{MAX_INPUT, MAX_SEGMENTS};
use random::Random;

/// Request lines without their line feeds; the same for the same seed.
#[derive(Clone)]
pub struct Generator {
    random: Random,
}

impl Generator {
    pub fn new(seed: u64) -> Self {
        Generator {
            random: Random::new(seed),
        }
    }

    fn line(&mut self) -> Vec<u8> {
        let random = &mut self.random;
        let line = match random.below(1000) {
            0..20 => no_request(random),
            20..50 => {
                let request = random.pick(&DAMAGED)(random);
                words::damaged(random, &request)
            }
            50..200 => requests::options_request(random),
            200..335 => printing::text_request(random),
            335..415 => printing::same_request(random),
            415..560 => components::request(random),
            560..705 => pairs::resolve_request(random),
            705..765 => pairs::authority_request(random),
            765..840 => segment_request(random),
            _ => format!("read {}", hex(&input(random).bytes)),
        };
        line.into_bytes()
    }
}

/// The requests whose words are damaged.
const DAMAGED: [fn(&mut Random) -> String; 7] = [
    components::request,
    components::request,
    pairs::resolve_request,
    pairs::authority_request,
    printing::text_request,
    printing::same_request,
    requests::options_request,
];

fn segment_request(random: &mut Random) -> String {
    let input = input(random);
    let n = match random.below(10) {
        0..4 => random.below(input.segments as u64 + 1),
        4 => input.segments as u64,
        5 => (input.segments as u64).saturating_sub(1),
        6 => input.segments as u64 + 1,
        7 => random.below(MAX_SEGMENTS as u64 + 8),
        8 => random.number(),
        _ => u64::MAX - random.below(2),
    };
    format!("segment {} {n}", hex(&input.bytes))
}

/// Bytes to read: a reference, one with faults, or no reference at all.
fn input(random: &mut Random) -> Input {
    match random.below(1000) {
        0..300 | 655..670 => Input::of(reference::reference(random, 0)),
        300..330 => {
            let mut made = reference::bracketed(random);
            match random.below(10) {
                0 => damage::damage(random, &mut made.encoded),
                1..3 => damage::damage_one_head(random, &mut made.encoded),
                // Mostly in the authority.
                3..5 => made.encoded.bytes.truncate(random.index(40)),
                _ => {}
            }
            Input::of(made)
        }
        330..630 => {
            let slips = random.pick(&[1, 1, 2]);
            Input::of(reference::reference(random, slips))
        }
        630..655 => Input::of(reference::around_longest(random)),
        670..700 => {
            let mut input = Input::of(reference::reference(random, 0));
            damage::append(random, &mut input.bytes);
            input
        }
        700..830 => {
            let slips = random.pick(&[0, 0, 0, 1]);
            let mut made = reference::reference(random, slips);
            damage::damage(random, &mut made.encoded);
            Input::of(made)
        }
        830..880 => Input::of(reference::not_utf8(random)),
        880..960 => {
            let mut made = reference::reference(random, 0);
            damage::damage_one_head(random, &mut made.encoded);
            Input::of(made)
        }
        960..970 => {
            let (mut made, ninth) = reference::nine_labels(random);
            if random.chance(70) {
                damage::damage_head_at(random, &mut made.encoded.bytes, ninth);
            }
            Input::of(made)
        }
        970..975 => {
            let (mut made, after) = reference::after_port(random);
            if random.chance(80) {
                damage::damage_head_at(random, &mut made.encoded.bytes, after);
            }
            Input::of(made)
        }
        975..978 => Input::of_bytes(long_input(random)),
        _ => {
            let length = random.index(40);
            Input::of_bytes(random.bytes(length))
        }
    }
}

/// A length of the room, for an encoding of this length.
fn room(random: &mut Random, length: usize) -> usize {
    let room = match random.below(12) {
        0..4 => length,
        4 | 5 => length.saturating_sub(1),
        6 => length + 1,
        7 => random.index(length + 1),
        8 => random.pick(&[0, 1]),
        9 => length + random.index(100),
        _ => random.pick(&[MAX_INPUT, MAX_ROOM - 1, MAX_ROOM]),
    };
    room.min(MAX_ROOM)
}

/// A line that begins like a request or not at all, and is none.
fn no_request(random: &mut Random) -> String {
    let bytes = input(random).bytes;
    let word = hex(&bytes);
    let no_word = no_bytes(random, &bytes);
    let n = random.number();
    match random.below(66) {
        0 => String::new(),
        1 => " ".to_string(),
        2 => "read".to_string(),
        3 => "read ".to_string(),
        4 => "segment".to_string(),
        5 => format!("segment {word}"),
        6 => format!("segment {word} "),
        7 => format!("reads {word}"),
        8 => format!("rea {word}"),
        9 => format!("READ {word}"),
        10 => format!(" read {word}"),
        11 => format!("read  {word}"),
        12 => format!("read {word} "),
        13 => format!("read {word} {n}"),
        14..18 => format!("read {no_word}"),
        18 => format!("segment {word} {n} {n}"),
        19 => format!("segment {word} -{n}"),
        20 => format!("segment {word} {}{n:020}", 1 + random.below(99)),
        21 => format!("segment {word} 184467440737095516{}", 16 + random.below(84)),
        22 => {
            let no_number = random.pick(&["-", "+1", "1a", "0x1", "a", "1-", "1,0"]);
            format!("segment {word} {no_number}")
        }
        23 => random
            .pick(&[
                "resolve", "resolve ", "authority", "authority ", "text", "text ", "same", "same ",
                "options", "options ",
            ])
            .to_string(),
        24 => format!("resolve {word} 80"),
        25 => format!("resolve 9 {word}"),
        26 => format!("resolve 9 {word} "),
        27 => format!("resolve 9 80 {word} "),
        28 => format!("resolve 9 {word} 80 80"),
        29 => format!("resolve 9 {no_word} 80"),
        30 => format!("resolve 9 {word} {no_word}"),
        31 => format!("resolve {} {word} 80", 1 + MAX_ROOM as u64 + n / 2),
        32 => format!("authority {word}"),
        33 => format!("authority {word} "),
        34 => format!("authority  {word} 80"),
        35 => format!("authority {word} 80 80"),
        36 => format!("authority {no_word} 80"),
        37 => format!("authority {word} {no_word}"),
        38 => format!("text 9{word}"),
        39 => format!("text 9 {word} "),
        40 => format!("text 9 {word} 80"),
        41 => format!("text 9  {word}"),
        42 => format!("text 9 {no_word}"),
        43 => format!("text {} {word}", 1 + MAX_ROOM as u64 + n / 2),
        44 => format!("same {word}"),
        45 => format!("same {word} "),
        46 => format!("same  {word} 80"),
        47 => format!("same {word} 80 80"),
        48 => format!("same {no_word} 80"),
        49 => format!("same {word} {no_word}"),
        50 => format!("options 9 {word}"),
        51 => format!("options 9 {word} 7f000001"),
        52 => format!("options 9 {word} 7f000001 "),
        53 => format!("options {word} 7f000001 80"),
        54 => format!("options 9 {word}  80"),
        55 => format!("options 9 {word} 80"),
        56 => format!("options 9 {word} 7f000001 80 80"),
        57 => format!("options 9 {word} 7f000001 80 "),
        58 => format!("options 9 {no_word} 7f000001 80"),
        59 => format!("options 9 {word} {no_word} 80"),
        60 => format!("options 9 {word} 7f000001 {}", 65_536 + n / 2),
        61 => {
            let no_port = random.pick(&["65536", "065536", "-", "-1", "+1", "1a", "0x50"]);
            format!("options 9 {word} 7f000001 {no_port}")
        }
        62 => format!("options 9 {word} 7f00000 80"),
        63 => format!("options {} {word} 7f000001 80", 1 + MAX_ROOM as u64 + n / 2),
        _ if random.chance(80) => word,
        _ => {
            let length = (MAX_LINE + 1 - "read ".len()) / 2 + random.index(3);
            format!("read {}", hex(&random.bytes(length)))
        }
    }
}

/// A word that is not how bytes are written.
fn no_bytes(random: &mut Random, bytes: &[u8]) -> String {
    let word = hex(bytes);
    match random.below(4) {
        0 => format!("{word}0-"),
        1 => format!("0{}", hex(&[bytes, &[0x80]].concat())),
        2 => hex(&[bytes, &[0xFA]].concat()).to_uppercase(),
        _ => {
            let end = random.pick(&["g0", "0:", "/0", "0`", "@0", "\t", "\r"]);
            format!("{word}{end}")
        }
    }
}

impl Iterator for Generator {
    type Item = Vec<u8>;

    fn next(&mut self) -> Option<Vec<u8>> {
        Some(self.line())
    }
}

/// Bytes to read, and about how many segments their path has.
struct Input {
    bytes: Vec<u8>,
    segments: usize,
}

impl Input {
    fn of(reference: reference::Made) -> Self {
        Input {
            bytes: reference.encoded.bytes,
            segments: reference.segments,
        }
    }

    fn of_bytes(bytes: Vec<u8>) -> Self {
        Input { bytes, segments: 0 }
    }
}

/// Far over the longest input, up to the longest line that holds one.
fn long_input(random: &mut Random) -> Vec<u8> {
    let longest = (MAX_LINE - "segment  18446744073709551615".len()) / 2;
    let length = random.pick(&[MAX_INPUT + 100, 2 * MAX_INPUT, longest]);
    random.bytes(length)
}
