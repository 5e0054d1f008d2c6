//! Makes requests for the CoAP options of a link.

use super::item::Item;
use super::link::{around_longest, around_mapped, default_port, faulty, ipv4, ipv6, no_paths};
use super::link::{Bytes, Host, Link, Text};
use super::random::Random;
use super::reference::{self, without_dots, Maker, KNOWN_SCHEMES};
use super::{input, room};
use crate::lines::hex;
use crate::options::{options, ENOUGH};
use crate::reader::{self, read, Scheme};

/// A request with a destination near the link's own, and a room around the length of the options.
pub fn options_request(random: &mut Random) -> String {
    let input = asked(random);
    let own = Own::of(&input);
    let address = address(random, own.address);
    let port = port(random, &own);
    let length = options(&input, &address, port, &mut [0; ENOUGH]).unwrap_or(input.len());
    let room = room(random, length);
    format!("options {room} {} {} {port}", hex(&input), hex(&address))
}

fn asked(random: &mut Random) -> Vec<u8> {
    let link = match random.below(100) {
        0..26 => link(random),
        26..50 => sized(random),
        50..60 => few(random),
        60..68 => not_of_coap(random),
        68..70 => Link {
            scheme: Item::Null,
            ..few(random)
        },
        70..72 => return reference::reference(random, 0).encoded.bytes,
        72..77 => return reference::absolute(random, 0).encoded.bytes,
        77..80 => return around_longest(random),
        80..84 => return input(random).bytes,
        _ => return faulty(random),
    };
    link.encoded().bytes
}

/// A link that has options.
fn link(random: &mut Random) -> Link {
    let scheme = Item::Negative(random.pick(&KNOWN_SCHEMES));
    let mut link = Link::new(random, Bytes::Allowed);
    if random.chance(20) {
        link.port = Some(default_port(&scheme));
    }
    Link {
        scheme,
        fragment: None,
        ..link
    }
}

/// A link whose scheme is a text, or which has a fragment.
fn not_of_coap(random: &mut Random) -> Link {
    let mut link = link(random);
    let fragment = random.pick(&[None, Some(vec![]), Some(b"f".to_vec())]);
    if fragment.is_none() || random.chance(20) {
        link.scheme = Item::Text(random.pick(&["http", "coap+", "coapss", "a"]).into());
    }
    Link { fragment, ..link }
}

/// A link with few options, or none.
fn few(random: &mut Random) -> Link {
    let mut link = link(random);
    if random.chance(80) {
        let [short, long] = [ipv4(random), ipv6(random)];
        link.host = Host::Address(random.pick(&[short, long]));
    }
    let texts = |texts: &[&str]| Some(texts.iter().copied().map(Text::from).collect());
    let [none, empty, lone] = no_paths();
    link.path = random.pick(&[none, empty, lone, texts(&["", ""]), texts(&["a"])]);
    link.query = random.pick(&[None, None, texts(&[""]), texts(&["a"]), texts(&["", "a"])]);
    link
}

/// Lengths of a value at which an option or a text grows, and the longest.
const LENGTHS: [usize; 10] = [0, 1, 2, 12, 13, 14, 23, 24, 254, 255];

/// A link with values of such lengths.
fn sized(random: &mut Random) -> Link {
    let mut link = link(random);
    // About how many bytes may still be added.
    let mut left = 900;
    if random.chance(50) {
        let total = random.pick(&LENGTHS).max(1);
        left -= total;
        link.host = Host::Labels(name(random, total));
    }
    let mut texts = |most: &[usize]| {
        let count = random.pick(most);
        let text = |_| {
            let length = random.pick(&LENGTHS).min(left);
            left -= length;
            without_dots(Maker::brief(random).text_of(length))
        };
        (0..count).map(text).collect::<Vec<_>>()
    };
    link.path = Some(texts(&[0, 1, 1, 2, 3]));
    link.query = Some(texts(&[0, 1, 1, 2])).filter(|query| !query.is_empty());
    link
}

/// Labels of `total` bytes together, their dots counted.
fn name(random: &mut Random, total: usize) -> Vec<Text> {
    let least = total / 64 + 1;
    let most = total.div_ceil(2).min(8);
    let count = least + random.index(most - least + 1);
    Maker::brief(random).name(total, count)
}

/// What a link says of its destination, where it is accepted and absolute.
struct Own<'a> {
    /// Empty where there is none.
    address: &'a [u8],
    default: u16,
    port: u16,
}

impl<'a> Own<'a> {
    fn of(input: &'a [u8]) -> Self {
        let mut own = Own {
            address: &[],
            default: 5683,
            port: 5683,
        };
        let Ok(reference) = read(input) else {
            return own;
        };
        if let Some((scheme, authority)) = reference.absolute() {
            if let Scheme::Number(number) = scheme {
                own.default = default_port(&Item::Negative(number.into())) as u16;
            }
            if let reader::Host::Address(address) = authority.host {
                own.address = address;
            }
            own.port = authority.port.unwrap_or(own.default);
        }
        own
    }
}

/// A destination address: the link's own, one that is like it, or one of a length that is none.
fn address(random: &mut Random, own: &[u8]) -> Vec<u8> {
    let mut address = match (own, random.chance(50)) {
        ([], true) => ipv4(random),
        ([], false) => ipv6(random),
        _ => own.to_vec(),
    };
    match random.below(100) {
        0..50 => {}
        50..65 => {
            let place = random.index(address.len());
            address[place] ^= random.pick(&[1, 2, 0x10, 0x80, 0xFF]);
        }
        65..75 => address = embedded(random, &address),
        75..80 => address.resize(20 - address.len(), 0),
        80..90 => address.resize(random.pick(&[0, 0, 1, 3, 3, 5, 5, 15, 15, 17, 17, 32]), 0),
        _ => address = random.bytes(address.len()),
    }
    address
}

/// Of 4 bytes 16 that end in them, around a mapped address; of 16 bytes such others with the same end, or 4 of them.
fn embedded(random: &mut Random, address: &[u8]) -> Vec<u8> {
    let long = around_mapped(random, &address[address.len() - 4..]);
    match address.len() {
        4 => long,
        _ => random
            .pick(&[&long, &address[12..], &address[..4]])
            .to_vec(),
    }
}

fn port(random: &mut Random, own: &Own) -> u16 {
    match random.below(12) {
        0..5 => own.port,
        5 => own.default,
        6 => own.port.wrapping_add(1),
        7 => own.port.wrapping_sub(1),
        8 => own.port ^ random.pick(&[0x100, 0x8000, 0x80]),
        9 => random.pick(&[0, 255, 256, 65535]),
        10 => random.pick(&[80, 443, 5683, 5684]),
        _ => random.next() as u16,
    }
}
