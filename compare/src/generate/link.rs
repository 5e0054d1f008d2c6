//! Makes absolute references by their components.

use super::damage::append;
use super::item::{head_of, Encoded, Item};
use super::random::Random;
use super::reference::{without_dots, Maker, BRACKETS};

pub type Text = Vec<u8>;

/// The components of an absolute reference.
#[derive(Clone)]
pub struct Link {
    pub scheme: Item,
    pub host: Host,
    pub port: Option<u64>,
    pub path: Option<Vec<Text>>,
    pub query: Option<Vec<Text>>,
    pub fragment: Option<Text>,
}

#[derive(Clone)]
pub enum Host {
    Address(Vec<u8>),
    Labels(Vec<Text>),
}

/// The bytes of a text: those that UTF-8 and the rules allow in it, or any.
#[derive(Clone, Copy, PartialEq, Eq)]
pub enum Bytes {
    Allowed,
    Any,
}

/// Ports at which a text or a head grows.
const PORTS: [u64; 16] = [
    0, 1, 9, 10, 23, 24, 80, 99, 100, 255, 256, 999, 1000, 9999, 10_000, 65_535,
];

/// The default port, or for a scheme that has none the first one's.
pub fn default_port(scheme: &Item) -> u64 {
    match scheme {
        Item::Negative(1 | 7) => 5684,
        Item::Negative(8) => 80,
        Item::Negative(9) => 443,
        _ => 5683,
    }
}

/// The paths that count as none.
pub fn no_paths() -> [Option<Vec<Text>>; 3] {
    [None, Some(vec![]), Some(vec![vec![]])]
}

impl Link {
    pub fn new(random: &mut Random, bytes: Bytes) -> Self {
        let scheme = Maker::brief(random).set_scheme();
        let host = match random.below(10) {
            0..2 => Host::Address(ipv4(random)),
            2..5 => Host::Address(ipv6(random)),
            _ => {
                let count = random.pick(&[1, 1, 2, 3, 4]);
                Host::Labels((0..count).map(|_| label(random, bytes)).collect())
            }
        };
        let port = match random.below(10) {
            0..4 => None,
            4..6 => Some(default_port(&scheme)),
            _ => Some(random.pick(&PORTS)),
        };
        let path = match random.below(10) {
            0..3 => random.pick(&no_paths()),
            3 => Some(vec![vec![]; 2]),
            _ => Some(texts(random, segment, bytes)),
        };
        let query = match random.below(10) {
            0..4 => None,
            4 => Some(vec![vec![]]),
            5 => Some(vec![vec![]; 2]),
            _ => Some(texts(random, text, bytes)),
        };
        let fragment = match random.below(10) {
            0..5 => None,
            5 => Some(vec![]),
            _ => Some(text(random, bytes)),
        };
        Link {
            scheme,
            host,
            port,
            path,
            query,
            fragment,
        }
    }

    /// A link with all components, and a path and a query of at least two texts.
    pub fn full(random: &mut Random) -> Self {
        let mut link = Link::new(random, Bytes::Allowed);
        let mut more = |texts: Option<Vec<Text>>| {
            let mut texts = texts.unwrap_or_default();
            let two = random.pick(&[["a", "b"], ["a", "/"], ["&b", "?"]]);
            texts.extend(two.map(Text::from));
            Some(texts)
        };
        link.path = more(link.path);
        link.query = more(link.query);
        link.port = link.port.or(Some(80));
        link.fragment = link.fragment.or(Some(b"/f".to_vec()));
        link
    }

    pub fn items(&self) -> Vec<Item> {
        let array = |texts: &[Text]| texts.iter().cloned().map(Item::Text).collect();
        let list = |texts: &Option<Vec<Text>>| match texts {
            Some(texts) => Item::Array(array(texts)),
            None => Item::Null,
        };
        let mut authority = match &self.host {
            Host::Address(address) => vec![Item::Bytes(address.clone())],
            Host::Labels(labels) => array(labels),
        };
        authority.extend(self.port.map(Item::Number));
        let fragment = self.fragment.clone().map_or(Item::Null, Item::Text);
        let mut items = vec![
            self.scheme.clone(),
            Item::Array(authority),
            list(&self.path),
            list(&self.query),
            fragment,
        ];
        while let Some(Item::Null) = items.last() {
            items.pop();
        }
        items
    }

    pub fn encoded(&self) -> Encoded {
        Encoded::array(&self.items())
    }
}

pub fn ipv4(random: &mut Random) -> Vec<u8> {
    let any = random.byte();
    let octets = [0, 1, 9, 10, 19, 99, 100, 199, 200, 249, 250, 255, any];
    if random.chance(10) {
        return vec![random.pick(&[0, 255, any]); 4];
    }
    (0..4).map(|_| random.pick(&octets)).collect()
}

/// An address that ends in these 4 bytes: IPv4-mapped, or nearly so.
pub fn around_mapped(random: &mut Random, ipv4: &[u8]) -> Vec<u8> {
    let mut start = [0, 0, 0, 0, 0, 0, 0, 0, 0, 0, 0xFF, 0xFF];
    match random.below(12) {
        0..6 => {}
        6..9 => start[random.index(12)] ^= 1 << random.index(8),
        // Eleven zero bytes and FF.
        9 => start[10] = 0,
        // IPv4-compatible.
        10 => start = [0; 12],
        // IPv4-translated: the groups 0 0 0 0 ffff 0.
        _ => start.rotate_left(2),
    }
    [&start, ipv4].concat()
}

/// An address around a mapped one, or one of which any groups are zero, and the others have any number of digits.
pub fn ipv6(random: &mut Random) -> Vec<u8> {
    if random.chance(35) {
        let ipv4 = ipv4(random);
        return around_mapped(random, &ipv4);
    }
    let zeros = match random.below(9) {
        0 => u8::MAX,
        1..3 => {
            let length = 1 + random.index(7);
            run(length) << random.index(9 - length)
        }
        3..6 => {
            let lengths = [2, 3, 1 + random.index(3)];
            let [one, other] = [random.pick(&lengths), random.pick(&lengths)];
            let between = 1 + random.index(8 - one - other);
            (run(other) << (one + between) | run(one)) << random.index(9 - one - between - other)
        }
        _ => random.byte(),
    };
    let group = |place: u8| match zeros >> place & 1 {
        1 => 0,
        _ => {
            let any = random.next() as u16 | 1;
            random.pick(&[1, 0xA, 0xF, 0x10, 0xFF, 0x100, 0xFFF, 0x1000, 0xFFFF, any])
        }
    };
    (0..8).map(group).flat_map(u16::to_be_bytes).collect()
}

/// So many bits, from the lowest on.
fn run(length: usize) -> u8 {
    (1 << length) - 1
}

fn texts(random: &mut Random, text: fn(&mut Random, Bytes) -> Text, bytes: Bytes) -> Vec<Text> {
    let count = random.pick(&[1, 1, 2, 2, 3, 5]);
    (0..count).map(|_| text(random, bytes)).collect()
}

fn label(random: &mut Random, bytes: Bytes) -> Text {
    let mut label = pieces(random, 1, bytes);
    if bytes == Bytes::Allowed {
        label.retain(|byte| !matches!(byte, b'.' | b'A'..=b'Z' | b'[' | b']'));
    }
    if label.is_empty() {
        label.push(b'h');
    }
    label
}

fn segment(random: &mut Random, bytes: Bytes) -> Text {
    match bytes {
        Bytes::Allowed => without_dots(text(random, bytes)),
        Bytes::Any => text(random, bytes),
    }
}

fn text(random: &mut Random, bytes: Bytes) -> Text {
    pieces(random, 0, bytes)
}

/// What has a meaning in some place of a URI, or looks as if it were escaped.
const MARKS: [&str; 30] = [
    "/", "//", "?", "#", "&", "%", "%2F", "%2f", "%3F", "%26", "%25", "%252F", "%41", "%00", ":",
    ":80", "@", "[", "]", "=", "+", " ", ".", "..", "~", "a", "a", "b", "A", "",
];

/// At least `least` pieces of a text, each a mark or a character that has some byte.
fn pieces(random: &mut Random, least: usize, bytes: Bytes) -> Text {
    let count = least + random.index(5);
    let piece = |_| {
        if random.chance(30) {
            random.pick(&MARKS).into()
        } else {
            let byte = random.byte();
            character(random, byte, bytes)
        }
    };
    (0..count).flat_map(piece).collect()
}

/// The bytes that UTF-8 never has.
const NO_UTF8: [u8; 13] = [
    0xC0, 0xC1, 0xF5, 0xF6, 0xF7, 0xF8, 0xF9, 0xFA, 0xFB, 0xFC, 0xFD, 0xFE, 0xFF,
];

/// A character that has this byte. Where UTF-8 has none: nothing, or in a text of any bytes that byte.
fn character(random: &mut Random, byte: u8, bytes: Bytes) -> Text {
    match byte {
        0x80..=0xBF => random.pick(&[
            vec![0xC2, byte],
            vec![0xDF, byte],
            vec![0xE1, byte, 0x80],
            vec![0xEF, 0x80, byte],
            vec![0xF1, byte, 0x80, 0x80],
            vec![0xF3, 0xBF, byte, 0xBF],
            vec![0xF4, 0x80, 0x80, byte],
        ]),
        0xC2..=0xDF => vec![byte, 0x80],
        0xE0 => vec![0xE0, 0xA0, 0x80],
        0xE1..=0xEF => vec![byte, 0x80, 0x80],
        0xF0 => vec![0xF0, 0x90, 0x80, 0x80],
        0xF1..=0xF4 => vec![byte, 0x80, 0x80, 0x80],
        _ if NO_UTF8.contains(&byte) && bytes == Bytes::Allowed => vec![],
        _ => vec![byte],
    }
}

/// An absolute reference of about the largest size, valid but for its length.
pub fn around_longest(random: &mut Random) -> Vec<u8> {
    let mut maker = Maker::brief(random);
    let mut items = vec![maker.set_scheme(), maker.authority()];
    let (path, after) = maker.around_longest(&items);
    items.push(Item::Array(path));
    items.extend(after);
    Encoded::array(&items).bytes
}

/// One to three labels, one of them with a bracket.
fn bracketed(random: &mut Random) -> Vec<Text> {
    let count = random.pick(&[1, 2, 3, 3]);
    let mut labels = vec![b"h".to_vec(); count];
    labels[random.index(count)] = random.pick(&BRACKETS).into();
    labels
}

/// A link with a fault: one for each number from 1 to 8.
pub fn faulty(random: &mut Random) -> Vec<u8> {
    let mut link = Link::new(random, Bytes::Allowed);
    let mut bytes = link.encoded().bytes;
    match random.below(8) {
        0 => bytes.truncate(random.index(bytes.len())),
        1 => {
            let mut items = link.items();
            items.push(Item::Null);
            bytes = Encoded::array(&items).bytes;
        }
        2 => {
            let count = u64::from(bytes[0] & 0x1F);
            let head = head_of(4, count, random.pick(&[1, 2, 4, 8]));
            bytes.splice(..1, head);
        }
        3 => {
            link.port = Some(random.pick(&[65_536, 65_537, u64::MAX]));
            bytes = link.encoded().bytes;
        }
        4 => {
            link.fragment = Some(vec![random.pick(&NO_UTF8)]);
            bytes = link.encoded().bytes;
        }
        5 => {
            match random.below(3) {
                0 => link.scheme = Item::Negative(2),
                1 => link.scheme = Item::Text(b"coap".to_vec()),
                _ => link.host = Host::Labels(bracketed(random)),
            }
            bytes = link.encoded().bytes;
        }
        6 => append(random, &mut bytes),
        _ => {
            link.scheme = Item::Null;
            bytes = link.encoded().bytes;
        }
    }
    bytes
}
