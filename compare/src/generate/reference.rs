//! Makes references: mostly valid ones, with sizes at and around every limit, and with a fault where a slip is allowed.

use super::item::{head, Encoded, Item};
use super::random::Random;
use crate::reader::{MAX_INPUT, MAX_SEGMENTS};
use std::ops::RangeInclusive;

/// A reference, its items, and how many segments its path has.
pub struct Made {
    pub encoded: Encoded,
    pub items: Vec<Item>,
    pub segments: usize,
}

impl Made {
    fn of(items: Vec<Item>, segments: usize) -> Self {
        Made {
            encoded: Encoded::array(&items),
            items,
            segments,
        }
    }
}

/// A reference with at most `slips` faults, each at a random place. Without slips it is refused only where its labels together are too
/// long or look like an IPv4 address; that is seldom.
pub fn reference(random: &mut Random, slips: u64) -> Made {
    let mut maker = Maker::new(random, slips);
    let opening = maker.opening();
    maker.reference(opening)
}

/// The same, with a scheme that is set, and an authority.
pub fn absolute(random: &mut Random, slips: u64) -> Made {
    let mut maker = Maker::new(random, slips);
    let opening = vec![maker.set_scheme(), maker.authority()];
    maker.reference(opening)
}

/// The same, opened by a discard.
pub fn discarding(random: &mut Random, discard: Item) -> Made {
    Maker::new(random, 0).reference(vec![discard])
}

/// A reference of about the largest size, valid but for its length.
pub fn around_longest(random: &mut Random) -> Made {
    let mut maker = Maker::brief(random);
    let mut items = maker.opening();
    let (path, after) = maker.around_longest(&items);
    let segments = path.len();
    items.push(Item::Array(path));
    items.extend(after);
    Made::of(items, segments)
}

/// A reference with a text that is not UTF-8, or without texts.
pub fn not_utf8(random: &mut Random) -> Made {
    let mut made = reference(random, 0);
    let mut texts: Vec<_> = made.items.iter_mut().flat_map(texts_of).collect();
    if !texts.is_empty() {
        let place = random.index(texts.len());
        let length = texts[place].len();
        *texts[place] = Maker::brief(random).broken_text(length);
    }
    Made::of(made.items, made.segments)
}

/// The texts in an item.
fn texts_of(item: &mut Item) -> Vec<&mut Vec<u8>> {
    match item {
        Item::Text(text) => vec![text],
        Item::Array(items) => items.iter_mut().flat_map(texts_of).collect(),
        _ => vec![],
    }
}

/// A reference whose authority has nine labels, and the place of the last one.
pub fn nine_labels(random: &mut Random) -> (Made, usize) {
    let mut maker = Maker::brief(random);
    let mut labels: Vec<_> = (0..9).map(|_| maker.label(true)).collect();
    match maker.random.below(10) {
        0..2 => labels[8] = maker.stranger(),
        2 => maker.bracket(&mut labels[8..]),
        _ => {}
    }
    maker.with_authority(labels)
}

/// A reference whose authority has an item after its port, and the place of that item.
pub fn after_port(random: &mut Random) -> (Made, usize) {
    let mut maker = Maker::brief(random);
    let mut authority = match maker.random.below(4) {
        0 => vec![maker.address(4)],
        1 => vec![maker.address(16)],
        _ => {
            // With the port and the item after it, seven labels are the most that an authority has.
            let count = maker.random.pick(&[1, 1, 2, 7]);
            (0..count).map(|_| maker.label(true)).collect()
        }
    };
    authority.extend([maker.port(), maker.stranger()]);
    maker.with_authority(authority)
}

/// A reference with a bracket in a label, and with other faults or without.
pub fn bracketed(random: &mut Random) -> Made {
    let slips = random.pick(&[0, 0, 1, 2]);
    let mut maker = Maker::new(random, slips);
    let mut authority = match maker.random.below(4) {
        0 => maker.decimals(),
        1 => maker.long_name(),
        _ => maker.labels(),
    };
    maker.bracket(&mut authority);
    if maker.random.chance(40) {
        authority.push(maker.port());
    }
    let opening = vec![maker.scheme(), Item::Array(authority)];
    maker.reference(opening)
}

/// How many segments a path has.
fn segments_of(path: &Item) -> usize {
    match path {
        Item::Array(segments) => segments.len(),
        _ => 0,
    }
}

/// The size of the longest encoded text.
const LONGEST_TEXT: usize = 257;

/// Lengths at which a head grows or a limit lies.
const LENGTHS: [usize; 16] = [
    0, 1, 2, 5, 11, 22, 23, 24, 25, 62, 63, 64, 100, 200, 254, 255,
];

/// Texts that are no IPv4 part, though they look like one.
const NEAR_DECIMALS: [&str; 13] = [
    "256", "260", "300", "999", "1000", "00", "01", "001", "1a", "-1", "+1", "0x1", "2\u{0665}",
];

const DECIMALS: [&str; 12] = [
    "0", "1", "9", "10", "19", "99", "100", "199", "200", "249", "250", "255",
];

pub const KNOWN_SCHEMES: [u64; 6] = [0, 1, 6, 7, 8, 9];

const UNKNOWN_SCHEMES: [u64; 15] = [
    2,
    3,
    4,
    5,
    10,
    11,
    23,
    24,
    255,
    256,
    257,
    65535,
    1 << 32,
    1 << 63,
    u64::MAX,
];

const SCHEME_TEXTS: [&str; 18] = [
    "http", "https", "urn", "a", "z9", "coa", "coapt", "coap+", "coap-tcp", "coapss", "coaps+tc",
    "coaps+tcpp", "coap+wss", "coap+udp", "a.b-c+d", "aaaaaaaaaaaaaaa", "abcdefghijklmnop",
    "coap.ws",
];

const BAD_SCHEME_TEXTS: [&str; 23] = [
    "coap", "coaps", "coap+tcp", "coaps+tcp", "coap+ws", "coaps+ws", "", "abcdefghijklmnopq",
    "Http", "httP", "0a", "+a", ".a", "-a", "a_", "a:", "a/", "a`", "a{", "[a", "a[", "a]",
    "h\u{e9}",
];

/// Labels that are refused for a bracket and for nothing else.
pub const BRACKETS: [&str; 14] = [
    "[", "]", "[]", "][", "[::1]", "[::]", "[::1", "::1]", "[h]", "a[b", "a]b", "1]", "\u{e9}]",
    "[\u{10ffff}",
];

/// UTF-8 of every length, at the ends of its ranges.
const CHARACTERS: [&str; 18] = [
    "\u{80}", "\u{e9}", "\u{7ff}", "\u{800}", "\u{fff}", "\u{1000}", "\u{20ac}", "\u{cfff}",
    "\u{d000}", "\u{d7ff}", "\u{e000}", "\u{ffff}", "\u{10000}", "\u{3ffff}", "\u{40000}",
    "\u{fffff}", "\u{100000}", "\u{10ffff}",
];

/// Bytes that begin no character.
const NO_LEADS: [u8; 9] = [0x80, 0xBF, 0xC0, 0xC1, 0xF5, 0xF8, 0xFC, 0xFE, 0xFF];

/// Lead bytes at the ends of their ranges, the second bytes that are allowed after them, and how long their characters are.
const LEADS: [(u8, RangeInclusive<u8>, usize); 12] = [
    (0xC2, 0x80..=0xBF, 2),
    (0xDF, 0x80..=0xBF, 2),
    (0xE0, 0xA0..=0xBF, 3),
    (0xE1, 0x80..=0xBF, 3),
    (0xEC, 0x80..=0xBF, 3),
    (0xED, 0x80..=0x9F, 3),
    (0xEE, 0x80..=0xBF, 3),
    (0xEF, 0x80..=0xBF, 3),
    (0xF0, 0x90..=0xBF, 4),
    (0xF1, 0x80..=0xBF, 4),
    (0xF3, 0x80..=0xBF, 4),
    (0xF4, 0x80..=0x8F, 4),
];

pub struct Maker<'r> {
    pub random: &'r mut Random,
    /// How many faults may still be made.
    slips: u64,
    /// About how many bytes of text may still be made.
    room: usize,
}

impl<'r> Maker<'r> {
    fn new(random: &'r mut Random, slips: u64) -> Self {
        let room = match random.below(100) {
            0..45 => 40,
            45..97 => 900,
            _ => MAX_INPUT,
        };
        Maker {
            random,
            slips,
            room,
        }
    }

    /// Makes no faults, and short texts.
    pub fn brief(random: &'r mut Random) -> Self {
        Maker {
            random,
            slips: 0,
            room: 100,
        }
    }

    /// Whether to make a fault here.
    fn slip(&mut self) -> bool {
        let slip = self.slips > 0 && self.random.chance(10);
        self.slips -= u64::from(slip);
        slip
    }

    /// A reference with this opening.
    fn reference(&mut self, opening: Vec<Item>) -> Made {
        let mut items = opening;
        let least = items.len();
        let path = self.path();
        let segments = segments_of(&path);
        items.push(path);
        items.push(self.query());
        items.push(self.fragment());
        self.leave_off(&mut items, least);
        if self.slip() {
            let place = self.random.index(items.len() + 1);
            let item = self.stranger();
            items.insert(place, item);
        }
        if self.slip() {
            items.truncate(1);
        }
        Made::of(items, segments)
    }

    /// A reference with this authority, and the place of the authority's last item. The items before that one hold no others.
    fn with_authority(&mut self, authority: Vec<Item>) -> (Made, usize) {
        // The heads of the outer array, of the scheme and of the authority come before those of its items.
        let last = authority.len() + 2;
        let path = self.path();
        let segments = segments_of(&path);
        let mut items = vec![self.scheme(), Item::Array(authority), path];
        self.leave_off(&mut items, 2);
        let made = Made::of(items, segments);
        let place = made.encoded.heads[last];
        (made, place)
    }

    /// Leaves off the nulls at the end and a lone 0, but for a slip.
    pub fn leave_off(&mut self, items: &mut Vec<Item>, least: usize) {
        while items.len() > least && matches!(items.last(), Some(Item::Null)) && !self.slip() {
            items.pop();
        }
        if matches!(items[..], [Item::Number(0)]) && !self.slip() {
            items.pop();
        }
    }

    /// A path, and items after it, that make with this opening an encoding of about the largest size: two bytes less to two more.
    pub fn around_longest(&mut self, opening: &[Item]) -> (Vec<Item>, Vec<Item>) {
        const MOST: usize = MAX_INPUT;
        let near = [MOST - 1, MOST, MOST + 1];
        let length = self
            .random
            .pick(&[&near[..], &near, &[MOST - 2, MOST + 2]].concat());
        let after = match self.random.below(3) {
            0 => vec![],
            1 => vec![Item::Array(vec![Item::Text(vec![b'q'; 3])])],
            _ => vec![Item::Null, Item::Text(vec![b'f'; 9])],
        };
        let others = opening
            .iter()
            .chain(&after)
            .map(|item| item.encoded().bytes.len());
        // Less the head of the outer array.
        let left = length - 1 - others.sum::<usize>();
        (self.filling(left), after)
    }

    /// Texts that make, with the head of their array, `left` bytes: mostly few, some of them as many as a path may have.
    fn filling(&mut self, left: usize) -> Vec<Item> {
        let least = left.div_ceil(LONGEST_TEXT);
        let few = least + self.random.index(24 - least);
        let many = 24 + self.random.index(MAX_SEGMENTS - 23);
        let count = self.random.pick(&[few, few, few, many, MAX_SEGMENTS]);
        let mut left = left - head(4, count as u64).len();
        let mut texts = Vec::new();
        for after in (0..count).rev() {
            let size = self.size(left, after);
            let length = if size <= 24 { size - 1 } else { size - 2 };
            let text = self.text_of(length);
            texts.push(Item::Text(without_dots(text)));
            left -= size;
        }
        texts
    }

    /// The size of an encoded text, where it and the `after` ones after it have `left` bytes together.
    fn size(&mut self, left: usize, after: usize) -> usize {
        let least = left.saturating_sub(after * LONGEST_TEXT).max(1);
        let most = (left - after).min(LONGEST_TEXT);
        // No text has an encoding of 25 bytes.
        let fits = |size: usize| size != 25 && (after != 1 || left - size != 25);
        loop {
            let around = 1 + self.random.index(2 * left / (after + 1));
            let any = least + self.random.index(most - least + 1);
            let size = self.random.pick(&[around, around, any]).clamp(least, most);
            if fits(size) {
                return size;
            }
        }
    }

    fn opening(&mut self) -> Vec<Item> {
        if self.slip() {
            return vec![self.stranger()];
        }
        match self.random.below(10) {
            0..2 => vec![Item::True],
            2..5 => vec![self.discard()],
            _ => vec![self.scheme(), self.authority()],
        }
    }

    fn discard(&mut self) -> Item {
        let over = self.slip();
        Item::Number(if over {
            self.random.pick(&[128, 129, 255, 256, 65536, u64::MAX])
        } else {
            self.random
                .pick(&[0, 0, 0, 1, 2, 22, 23, 24, 25, 63, 126, 127])
        })
    }

    fn scheme(&mut self) -> Item {
        match self.random.below(3) {
            0 => Item::Null,
            _ => self.set_scheme(),
        }
    }

    pub fn set_scheme(&mut self) -> Item {
        let slip = self.slip();
        match (self.random.chance(50), slip) {
            (true, false) => Item::Negative(self.random.pick(&KNOWN_SCHEMES)),
            (true, true) => Item::Negative(self.random.pick(&UNKNOWN_SCHEMES)),
            (false, false) => Item::Text(self.random.pick(&SCHEME_TEXTS).into()),
            (false, true) if self.random.chance(20) => Item::Text(self.broken_text(5)),
            (false, true) => Item::Text(self.random.pick(&BAD_SCHEME_TEXTS).into()),
        }
    }

    pub fn authority(&mut self) -> Item {
        if self.slip() {
            return self.stranger();
        }
        let mut items = match self.random.below(10) {
            0..2 => vec![self.address(4)],
            2..4 => vec![self.address(16)],
            4..7 => self.labels(),
            7 => self.decimals(),
            _ => self.long_name(),
        };
        if self.random.chance(40) {
            items.push(self.port());
        }
        if self.slip() {
            let place = self.random.index(items.len() + 1);
            let item = self.stranger();
            items.insert(place, item);
        }
        Item::Array(items)
    }

    fn address(&mut self, length: usize) -> Item {
        let length = if self.slip() {
            self.random.pick(&[0, 1, 3, 5, 8, 15, 17, 23, 24, 32, 256])
        } else {
            length
        };
        Item::Bytes(self.random.bytes(length))
    }

    fn port(&mut self) -> Item {
        let over = self.slip();
        Item::Number(if over {
            self.random
                .pick(&[65536, 65537, 131_071, 0xFFFF_FFFF, 1 << 32, u64::MAX])
        } else {
            self.random
                .pick(&[0, 1, 23, 24, 80, 255, 256, 443, 5683, 5684, 65534, 65535])
        })
    }

    fn labels(&mut self) -> Vec<Item> {
        let count = if self.slip() {
            self.random.pick(&[0, 9, 9, 10])
        } else {
            self.random.pick(&[1, 1, 2, 3, 4, 5, 7, 8, 8])
        };
        let short = count > 3 || self.random.chance(50);
        (0..count).map(|_| self.label(short)).collect()
    }

    fn label(&mut self, short: bool) -> Item {
        let length = if self.slip() {
            self.random.pick(&[0, 64, 65, 255, 256])
        } else {
            self.length(short).clamp(1, 63)
        };
        let mut label = lower_case(self.text_of(length));
        if self.slip() && length > 0 {
            let place = self.random.index(length);
            label[place] = self.random.pick(b".AZMB[]");
        }
        self.text_item(label)
    }

    /// Puts a bracket into one of the labels: the first, the last or any.
    fn bracket(&mut self, labels: &mut [Item]) {
        if labels.is_empty() {
            return;
        }
        let any = self.random.index(labels.len());
        let place = self.random.pick(&[0, any, labels.len() - 1]);
        if let Item::Text(label) = &mut labels[place] {
            if label.is_empty() || self.random.chance(40) {
                *label = self.random.pick(&BRACKETS).into();
            } else {
                let place = self.random.index(label.len());
                label[place] = self.random.pick(b"[]");
            }
        }
    }

    /// Labels that are, or nearly are, the parts of an IPv4 address.
    fn decimals(&mut self) -> Vec<Item> {
        let count = self.random.pick(&[3, 4, 4, 4, 4, 5]);
        let near = self.random.chance(70).then(|| self.random.index(count));
        (0..count)
            .map(|i| {
                if near == Some(i) {
                    self.random.pick(&NEAR_DECIMALS)
                } else {
                    self.random.pick(&DECIMALS)
                }
            })
            .map(|label| Item::Text(label.into()))
            .collect()
    }

    /// Labels of 253 to 257 bytes together, their dots counted.
    fn long_name(&mut self) -> Vec<Item> {
        let total = self.random.pick(&[253, 254, 254, 255, 255, 255, 256, 257]);
        let count = 5 + self.random.index(4);
        let labels = self.name(total, count);
        labels.into_iter().map(Item::Text).collect()
    }

    /// `count` labels of `total` bytes together, their dots counted, which that number of labels can have.
    pub fn name(&mut self, total: usize, count: usize) -> Vec<Vec<u8>> {
        let mut lengths = vec![1; count];
        let mut left = total - (2 * count - 1);
        while left > 0 {
            let label = self.random.index(count);
            let more = (63 - lengths[label])
                .min(left)
                .min(1 + self.random.index(63));
            lengths[label] += more;
            left -= more;
        }
        lengths
            .into_iter()
            .map(|length| lower_case(self.text_of(length)))
            .collect()
    }

    fn path(&mut self) -> Item {
        if self.random.chance(25) {
            return Item::Null;
        }
        const MOST: usize = MAX_SEGMENTS;
        let count = if self.slip() {
            self.random.pick(&[MOST + 1, MOST + 1, MOST + 2, 2 * MOST])
        } else if self.random.chance(4) {
            let any = self.random.index(MOST + 1);
            self.random.pick(&[MOST - 1, MOST, MOST, any])
        } else {
            self.random
                .pick(&[0, 0, 1, 1, 2, 3, 5, 15, 22, 23, 24, 31, 32])
        };
        let texts = self.texts(count, Self::segment);
        self.array_item(texts)
    }

    /// A path of `count` short segments.
    pub fn segments(&mut self, count: usize) -> Item {
        Item::Array((0..count).map(|_| self.segment(true)).collect())
    }

    fn segment(&mut self, short: bool) -> Item {
        if self.slip() {
            return Item::Text(self.random.pick(&[".", ".."]).into());
        }
        if self.random.chance(5) {
            return Item::Text(
                self.random
                    .pick(&["...", ".a", "a.", "..a", "\u{ff0e}", "%2e"])
                    .into(),
            );
        }
        let segment = without_dots(self.content(short));
        self.text_item(segment)
    }

    fn query(&mut self) -> Item {
        if self.random.chance(50) {
            return Item::Null;
        }
        let count = if self.slip() {
            self.random.pick(&[0, 17, 17, 18, 32])
        } else {
            self.random.pick(&[1, 1, 2, 3, 14, 15, 15, 16, 16])
        };
        let texts = self.texts(count, Self::parameter);
        self.array_item(texts)
    }

    fn parameter(&mut self, short: bool) -> Item {
        let parameter = self.content(short);
        self.text_item(parameter)
    }

    fn fragment(&mut self) -> Item {
        if self.random.chance(60) {
            return Item::Null;
        }
        let fragment = self.content(false);
        self.text_item(fragment)
    }

    /// So many texts; short ones where they are many.
    fn texts(&mut self, count: usize, text: fn(&mut Self, bool) -> Item) -> Vec<Item> {
        let short = count > 5 || self.random.chance(50);
        (0..count).map(|_| text(self, short)).collect()
    }

    /// A segment, parameter or fragment.
    fn content(&mut self, short: bool) -> Vec<u8> {
        let length = if self.slip() {
            self.random.pick(&[256, 256, 257, 511])
        } else {
            self.length(short)
        };
        self.text_of(length)
    }

    fn length(&mut self, short: bool) -> usize {
        let length = if short {
            self.random.pick(&[0, 0, 1, 1, 1, 2, 3, 8, 23, 24])
        } else {
            self.random.pick(&LENGTHS)
        };
        let length = length.min(self.room);
        self.room -= length;
        length
    }

    /// The text, or where there is a slip another item or a text that is not UTF-8.
    fn text_item(&mut self, text: Vec<u8>) -> Item {
        match self.slip() {
            true if self.random.chance(60) => Item::Text(self.broken_text(text.len())),
            true => self.stranger(),
            false => Item::Text(text),
        }
    }

    fn array_item(&mut self, items: Vec<Item>) -> Item {
        if self.slip() {
            self.stranger()
        } else {
            Item::Array(items)
        }
    }

    /// UTF-8 of `length` bytes.
    pub fn text_of(&mut self, length: usize) -> Vec<u8> {
        let ascii = self.random.pick(&[100, 100, 90, 50, 0]);
        let mut text = Vec::with_capacity(length);
        while text.len() < length {
            let character = self.random.pick(&CHARACTERS).as_bytes();
            let fits = text.len() + character.len() <= length;
            if fits && !self.random.chance(ascii) {
                text.extend(character);
            } else {
                text.push(self.ascii());
            }
        }
        text
    }

    fn ascii(&mut self) -> u8 {
        if self.random.chance(80) {
            self.random.pick(b"abcxyz0189-~")
        } else {
            self.random.byte() & 0x7F
        }
    }

    /// A text of about `length` bytes that is not UTF-8.
    fn broken_text(&mut self, length: usize) -> Vec<u8> {
        let broken = self.broken_character();
        let left = length.saturating_sub(broken.len());
        let before = match self.random.below(4) {
            0 => 0,
            1 | 2 => left,
            _ => self.random.index(left + 1),
        };
        let mut text = self.text_of(before);
        text.extend(&broken);
        text.resize(broken.len() + left, b'a');
        text
    }

    /// A character that is cut, or in which one byte is wrong: not UTF-8 whatever plain characters follow.
    fn broken_character(&mut self) -> Vec<u8> {
        if self.random.chance(25) {
            return vec![self.random.pick(&NO_LEADS), 0x80];
        }
        let (lead, seconds, length) = self.random.pick(&LEADS);
        let mut character = vec![lead, self.random.pick(&[*seconds.start(), *seconds.end()])];
        character.resize_with(length, || self.random.pick(&[0x80, 0xBF]));
        let right = self.random.pick(&[1, 1, 2, 3]).min(length - 1);
        let allowed = if right == 1 { seconds } else { 0x80..=0xBF };
        match self.random.below(10) {
            0..3 => character.truncate(right),
            3..6 => character[right] = allowed.start() - 1,
            6..9 => character[right] = allowed.end() + 1,
            _ => character[right] = self.random.byte() & 0x7F,
        }
        character
    }

    /// An item of any kind.
    fn stranger(&mut self) -> Item {
        match self.random.below(9) {
            0 => Item::Number(self.random.number()),
            1 => Item::Negative(self.random.number()),
            2 => Item::Bytes(self.random.bytes(4)),
            3 => Item::Text(vec![]),
            4 => Item::Text(vec![b'a']),
            5 => Item::Array(vec![]),
            6 => Item::Array(vec![Item::Text(vec![b'a'])]),
            7 => Item::True,
            _ => Item::Null,
        }
    }
}

/// A text that may be a label: lower-case, without dots and brackets.
fn lower_case(text: Vec<u8>) -> Vec<u8> {
    text.into_iter()
        .map(|b| match b {
            b'.' | b'[' | b']' => b'-',
            _ => b.to_ascii_lowercase(),
        })
        .collect()
}

/// A text that may be a segment: neither "." nor "..".
pub fn without_dots(text: Vec<u8>) -> Vec<u8> {
    match &text[..] {
        b"." | b".." => vec![b'-'; text.len()],
        _ => text,
    }
}
