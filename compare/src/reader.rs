//! Reads a CRI reference, one CBOR array, as docs/RULES.md gives it.
//!
//! What is read borrows from the input; nothing is allocated. The checks of one item stand in the order in which the rules judge
//! them: the first byte, the kind, the head, the range, the content, UTF-8, the rules.

#![forbid(unsafe_code)]

use crate::refusal::{Reason, Refusal};
use std::ops::RangeInclusive;

pub const MAX_INPUT: usize = 4096;
pub const MAX_SEGMENTS: usize = 160;
pub const MAX_PARAMETERS: usize = 16;
pub const MAX_LABELS: usize = 8;
pub const MAX_NAME: usize = 255;

/// The most texts that a reference has in lists.
pub const MAX_TEXTS: usize = MAX_LABELS + MAX_SEGMENTS + MAX_PARAMETERS;

const OUTER_ITEMS: u64 = 5;
const DISCARDS: RangeInclusive<u64> = 0..=127;
const SCHEME_LENGTHS: RangeInclusive<u64> = 1..=16;
const AUTHORITY_ITEMS: RangeInclusive<u64> = 1..=9;
const LABEL_LENGTHS: RangeInclusive<u64> = 1..=63;
const PORTS: RangeInclusive<u64> = 0..=65535;
const SEGMENTS: RangeInclusive<u64> = 0..=MAX_SEGMENTS as u64;
const PARAMETERS: RangeInclusive<u64> = 1..=MAX_PARAMETERS as u64;
const TEXT_LENGTHS: RangeInclusive<u64> = 0..=255;

/// The first byte of an empty text, and of one whose length is in the next byte.
const EMPTY_TEXT: u8 = 0x60;
const LONG_TEXT: u8 = 0x78;

// No text of a list needs a longer head.
const _: () = assert!(*TEXT_LENGTHS.end() <= u8::MAX as u64);

/// The schemes that are written as a number, and their names.
pub const KNOWN_SCHEMES: [(u8, &str); 6] = [
    (0, "coap"),
    (1, "coaps"),
    (6, "coap+tcp"),
    (7, "coaps+tcp"),
    (8, "coap+ws"),
    (9, "coaps+ws"),
];

#[derive(Clone, Copy, Debug, PartialEq, Eq)]
pub struct Reference<'a> {
    pub opening: Opening<'a>,
    pub path: Option<Texts<'a>>,
    pub query: Option<Texts<'a>>,
    pub fragment: Option<&'a str>,
}

impl<'a> Reference<'a> {
    /// The scheme and the authority, where the reference is absolute.
    pub fn absolute(&self) -> Option<(Scheme<'a>, Authority<'a>)> {
        match self.opening {
            Opening::Discard(_) | Opening::Authority(Scheme::None, _) => None,
            Opening::Authority(scheme, authority) => Some((scheme, authority)),
        }
    }

    /// The segments of the path. One empty segment counts as no path, and so does an unset path.
    pub fn segments(&self) -> Texts<'a> {
        match self.path {
            Some(path) if !path.is_one_empty() => path,
            _ => Texts::default(),
        }
    }

    /// The parameters of the query. A query that is set has one.
    pub fn parameters(&self) -> Texts<'a> {
        self.query.unwrap_or_default()
    }
}

#[derive(Clone, Copy, Debug, PartialEq, Eq)]
pub enum Opening<'a> {
    Discard(Discard),
    Authority(Scheme<'a>, Authority<'a>),
}

#[derive(Clone, Copy, Debug, PartialEq, Eq)]
pub enum Discard {
    All,
    Last(u8),
}

#[derive(Clone, Copy, Debug, PartialEq, Eq)]
pub enum Scheme<'a> {
    None,
    /// A number of `KNOWN_SCHEMES`.
    Number(u8),
    Text(&'a str),
}

impl<'a> Scheme<'a> {
    /// The name, of a number too.
    pub fn name(self) -> Option<&'a str> {
        match self {
            Scheme::None => None,
            Scheme::Number(number) => KNOWN_SCHEMES
                .iter()
                .find(|&&(known, _)| known == number)
                .map(|&(_, name)| name),
            Scheme::Text(name) => Some(name),
        }
    }
}

#[derive(Clone, Copy, Debug, PartialEq, Eq)]
pub struct Authority<'a> {
    pub host: Host<'a>,
    pub port: Option<u16>,
    /// The whole item.
    pub encoded: &'a [u8],
}

#[derive(Clone, Copy, Debug, PartialEq, Eq)]
pub enum Host<'a> {
    /// 4 or 16 bytes.
    Address(&'a [u8]),
    Labels(Texts<'a>),
}

/// A list of texts that were read, kept as the part of the input that holds their items.
#[derive(Clone, Copy, Default, PartialEq, Eq)]
pub struct Texts<'a> {
    items: &'a [u8],
    count: usize,
}

impl<'a> Texts<'a> {
    pub fn len(self) -> usize {
        self.count
    }

    pub fn is_empty(self) -> bool {
        self.count == 0
    }

    /// Whether these are one text, which is empty.
    pub fn is_one_empty(self) -> bool {
        self.items == [EMPTY_TEXT]
    }

    /// The items, one after the other, each with the shortest head.
    pub fn items(self) -> &'a [u8] {
        self.items
    }

    /// The contents in order, each of them UTF-8.
    #[inline]
    pub fn iter(self) -> Contents<'a> {
        Contents { items: self.items }
    }

    /// The first `count` texts; there are at least so many.
    pub fn prefix(self, count: usize) -> Self {
        if count == self.count {
            return self;
        }
        let mut contents = self.iter();
        contents.by_ref().take(count).for_each(drop);
        let length = self.items.len() - contents.items.len();
        Texts {
            items: &self.items[..length],
            count,
        }
    }
}

impl<'a> IntoIterator for Texts<'a> {
    type Item = &'a [u8];
    type IntoIter = Contents<'a>;

    #[inline]
    fn into_iter(self) -> Contents<'a> {
        self.iter()
    }
}

impl std::fmt::Debug for Texts<'_> {
    fn fmt(&self, f: &mut std::fmt::Formatter<'_>) -> std::fmt::Result {
        let contents = self.iter().map(String::from_utf8_lossy);
        f.debug_list().entries(contents).finish()
    }
}

/// The contents of texts whose items have been judged.
#[derive(Clone)]
pub struct Contents<'a> {
    items: &'a [u8],
}

impl<'a> Iterator for Contents<'a> {
    type Item = &'a [u8];

    #[inline]
    fn next(&mut self) -> Option<&'a [u8]> {
        let (length, rest) = match self.items {
            [LONG_TEXT, length, rest @ ..] => (*length, rest),
            [first, rest @ ..] => (first - EMPTY_TEXT, rest),
            [] => return None,
        };
        let (content, rest) = rest.split_at_checked(length.into())?;
        self.items = rest;
        Some(content)
    }
}

/// Where a text or an address stands in a byte string. The order of the two is fixed, so that spans can be lent to C.
#[derive(Clone, Copy, Debug, Default, PartialEq, Eq)]
#[repr(C)]
pub struct Span {
    pub start: usize,
    pub length: usize,
}

/// Reads `input` as one reference with nothing after it.
pub fn read(input: &[u8]) -> Result<Reference<'_>, Refusal> {
    read_with(input, |_| ())
}

/// The same, and stores in `spans`, one after the other, where the labels, the segments and the parameters stand in `input`. A refusal
/// may leave those there that come before it.
pub fn read_spans<'a>(
    input: &'a [u8],
    spans: &mut [Span; MAX_TEXTS],
) -> Result<Reference<'a>, Refusal> {
    let mut free = spans.iter_mut();
    read_with(input, |span| {
        if let Some(place) = free.next() {
            *place = span;
        }
    })
}

/// The same, and tells of each label, segment and parameter where it stands.
fn read_with(input: &[u8], tell: impl FnMut(Span)) -> Result<Reference<'_>, Refusal> {
    if input.len() > MAX_INPUT {
        return Err(Reason::Limit.at(MAX_INPUT));
    }
    let mut reader = Reader {
        rest: input,
        length: input.len(),
        tell,
    };
    let (opening, left) = reader.opening()?;
    let mut reference = Reference {
        opening,
        path: None,
        query: None,
        fragment: None,
    };
    if left >= 1 {
        reference.path = reader.texts(SEGMENTS, left == 1, is_segment)?;
    }
    if left >= 2 {
        reference.query = reader.texts(PARAMETERS, left == 2, |_| true)?;
    }
    if left >= 3 {
        reference.fragment = Some(reader.fragment()?);
    }
    reader.end()?;
    Ok(reference)
}

/// The kinds of items that have a place in a reference. `Other` has none.
#[derive(Clone, Copy, PartialEq, Eq)]
enum Kind {
    Number,
    Negative,
    Bytes,
    Text,
    Array,
    True,
    Null,
    Other,
}

/// The first byte of an item, and where it stands.
#[derive(Clone, Copy)]
struct Item {
    first: u8,
    place: usize,
}

impl Item {
    fn kind(self) -> Kind {
        match self.first {
            0x00..=0x1F => Kind::Number,
            0x20..=0x3F => Kind::Negative,
            0x40..=0x5F => Kind::Bytes,
            0x60..=0x7F => Kind::Text,
            0x80..=0x9F => Kind::Array,
            0xF5 => Kind::True,
            0xF6 => Kind::Null,
            _ => Kind::Other,
        }
    }

    fn refuse(self, reason: Reason) -> Refusal {
        reason.at(self.place)
    }
}

struct Reader<'a, T> {
    rest: &'a [u8],
    length: usize,
    /// Takes where each text of a list stands.
    tell: T,
}

impl<'a, T: FnMut(Span)> Reader<'a, T> {
    fn place(&self) -> usize {
        self.length - self.rest.len()
    }

    /// The opening, and how many items follow it.
    fn opening(&mut self) -> Result<(Opening<'a>, u64), Refusal> {
        let count = self.outer_count()?;
        if count == 0 {
            return Ok((Opening::Discard(Discard::Last(0)), 0));
        }
        let item = self.item()?;
        let scheme = match item.kind() {
            Kind::True | Kind::Number => {
                let discard = self.discard(item)?;
                if count > 4 || (count == 1 && discard == Discard::Last(0)) {
                    return Err(item.refuse(Reason::Form));
                }
                return Ok((Opening::Discard(discard), count - 1));
            }
            Kind::Null => Scheme::None,
            Kind::Negative => Scheme::Number(self.scheme_number(item)?),
            Kind::Text => Scheme::Text(self.scheme_text(item)?),
            _ => return Err(item.refuse(Reason::Form)),
        };
        if count < 2 {
            return Err(item.refuse(Reason::Form));
        }
        let authority = self.authority()?;
        Ok((Opening::Authority(scheme, authority), count - 2))
    }

    fn outer_count(&mut self) -> Result<u64, Refusal> {
        let item = self.item_of(Kind::Array)?;
        let count = self.argument(item)?;
        if count > OUTER_ITEMS {
            return Err(item.refuse(Reason::Form));
        }
        Ok(count)
    }

    fn discard(&mut self, item: Item) -> Result<Discard, Refusal> {
        match item.kind() {
            Kind::True => Ok(Discard::All),
            _ => Ok(Discard::Last(self.within(item, DISCARDS)? as u8)),
        }
    }

    fn scheme_number(&mut self, item: Item) -> Result<u8, Refusal> {
        let number = self.argument(item)?;
        KNOWN_SCHEMES
            .iter()
            .map(|&(known, _)| known)
            .find(|&known| u64::from(known) == number)
            .ok_or(item.refuse(Reason::Rule))
    }

    fn scheme_text(&mut self, item: Item) -> Result<&'a str, Refusal> {
        let text = self.text(item, SCHEME_LENGTHS)?;
        let known = KNOWN_SCHEMES.iter().any(|&(_, name)| name == text);
        if known || !is_scheme(text) {
            return Err(item.refuse(Reason::Rule));
        }
        Ok(text)
    }

    fn authority(&mut self) -> Result<Authority<'a>, Refusal> {
        let begin = self.rest;
        let array = self.item_of(Kind::Array)?;
        let count = self.within(array, AUTHORITY_ITEMS)?;
        let (host, hosts) = self.host(count)?;
        let port = match count - hosts {
            0 => None,
            _ => Some(self.port()?),
        };
        if count - hosts > 1 {
            return Err(self.item()?.refuse(Reason::Form));
        }
        match host {
            Host::Labels(labels) if !is_name(labels) => Err(array.refuse(Reason::Rule)),
            _ => Ok(Authority {
                host,
                port,
                encoded: self.since(begin),
            }),
        }
    }

    /// The address or the labels, of at most `most` items, and how many items they are.
    fn host(&mut self, most: u64) -> Result<(Host<'a>, u64), Refusal> {
        let begin = self.rest;
        let item = self.item()?;
        match item.kind() {
            Kind::Bytes => return Ok((Host::Address(self.address(item)?), 1)),
            Kind::Text => self.label(item, 0)?,
            _ => return Err(item.refuse(Reason::Form)),
        }
        let mut count = 1;
        while count < most && self.next_is_text() {
            let item = self.item()?;
            self.label(item, count)?;
            count += 1;
        }
        let labels = Texts {
            items: self.since(begin),
            count: count as usize,
        };
        Ok((Host::Labels(labels), count))
    }

    fn port(&mut self) -> Result<u16, Refusal> {
        let item = self.item_of(Kind::Number)?;
        Ok(self.within(item, PORTS)? as u16)
    }

    fn address(&mut self, item: Item) -> Result<&'a [u8], Refusal> {
        match self.argument(item)? {
            length @ (4 | 16) => self.content(item, length as usize),
            _ => Err(item.refuse(Reason::Limit)),
        }
    }

    /// A label that comes after so many others.
    fn label(&mut self, item: Item, others: u64) -> Result<(), Refusal> {
        let length = self.within(item, LABEL_LENGTHS)?;
        if others == MAX_LABELS as u64 {
            return Err(item.refuse(Reason::Limit));
        }
        let label = self.listed(item, length as usize)?;
        if !is_label(label) {
            return Err(item.refuse(Reason::Rule));
        }
        Ok(())
    }

    /// The path or the query: null, except as the last item, or an array of texts.
    fn texts(
        &mut self,
        counts: RangeInclusive<u64>,
        last: bool,
        is_allowed: impl Fn(&[u8]) -> bool,
    ) -> Result<Option<Texts<'a>>, Refusal> {
        let array = self.item()?;
        match array.kind() {
            Kind::Null if !last => return Ok(None),
            Kind::Array => {}
            _ => return Err(array.refuse(Reason::Form)),
        }
        let count = self.within(array, counts)?;
        let begin = self.rest;
        for _ in 0..count {
            let item = self.item_of(Kind::Text)?;
            let length = self.within(item, TEXT_LENGTHS)?;
            let text = self.listed(item, length as usize)?;
            if !is_allowed(text) {
                return Err(item.refuse(Reason::Rule));
            }
        }
        Ok(Some(Texts {
            items: self.since(begin),
            count: count as usize,
        }))
    }

    /// The fragment has the last place, so it is never null.
    fn fragment(&mut self) -> Result<&'a str, Refusal> {
        let item = self.item_of(Kind::Text)?;
        self.text(item, TEXT_LENGTHS)
    }

    fn end(&self) -> Result<(), Refusal> {
        if self.rest.is_empty() {
            return Ok(());
        }
        Err(Reason::Tail.at(self.place()))
    }

    /// What has been read of `begin`, which was the rest before.
    fn since(&self, begin: &'a [u8]) -> &'a [u8] {
        &begin[..begin.len() - self.rest.len()]
    }

    fn next_is_text(&self) -> bool {
        matches!(self.rest, [0x60..=0x7F, ..])
    }

    /// The next item's first byte.
    fn item(&mut self) -> Result<Item, Refusal> {
        let place = self.place();
        let (&first, rest) = self.rest.split_first().ok_or(Reason::Cut.at(place))?;
        self.rest = rest;
        Ok(Item { first, place })
    }

    /// The next item's first byte, where only one kind is allowed.
    fn item_of(&mut self, kind: Kind) -> Result<Item, Refusal> {
        let item = self.item()?;
        if item.kind() != kind {
            return Err(item.refuse(Reason::Form));
        }
        Ok(item)
    }

    /// The number that the head of `item` carries: its value, length or count.
    fn argument(&mut self, item: Item) -> Result<u64, Refusal> {
        let (size, least) = match item.first & 0x1F {
            info @ 0..=23 => return Ok(u64::from(info)),
            24 => (1, 24),
            25 => (2, 1 << 8),
            26 => (4, 1 << 16),
            27 => (8, 1 << 32),
            _ => return Err(item.refuse(Reason::Head)),
        };
        let bytes = self.content(item, size)?;
        let argument = bytes.iter().fold(0, |sum, &b| (sum << 8) | u64::from(b));
        if argument < least {
            return Err(item.refuse(Reason::Head));
        }
        Ok(argument)
    }

    /// The argument of `item`, in a range.
    fn within(&mut self, item: Item, range: RangeInclusive<u64>) -> Result<u64, Refusal> {
        let argument = self.argument(item)?;
        if !range.contains(&argument) {
            return Err(item.refuse(Reason::Limit));
        }
        Ok(argument)
    }

    fn text(&mut self, item: Item, lengths: RangeInclusive<u64>) -> Result<&'a str, Refusal> {
        let length = self.within(item, lengths)?;
        let content = self.content(item, length as usize)?;
        str::from_utf8(content).map_err(|_| item.refuse(Reason::Text))
    }

    /// The content of a text of a list. Most are ASCII, which takes less time to find out.
    #[inline(always)]
    fn listed(&mut self, item: Item, length: usize) -> Result<&'a [u8], Refusal> {
        let content = self.content(item, length)?;
        if !is_ascii(content) && str::from_utf8(content).is_err() {
            return Err(item.refuse(Reason::Text));
        }
        let start = self.place() - length;
        (self.tell)(Span { start, length });
        Ok(content)
    }

    /// The next `length` bytes, which belong to `item`.
    fn content(&mut self, item: Item, length: usize) -> Result<&'a [u8], Refusal> {
        let (content, rest) = self
            .rest
            .split_at_checked(length)
            .ok_or(item.refuse(Reason::Cut))?;
        self.rest = rest;
        Ok(content)
    }
}

/// Whether all bytes are ASCII: eight at a time, the last eight once more.
fn is_ascii(text: &[u8]) -> bool {
    const HIGH_BITS: u64 = 0x8080_8080_8080_8080;
    match text.last_chunk() {
        Some(&last) => {
            let (words, _) = text.as_chunks();
            let all = words.iter().fold(u64::from_ne_bytes(last), |all, &word| {
                all | u64::from_ne_bytes(word)
            });
            all & HIGH_BITS == 0
        }
        None => text.iter().fold(0, |all, byte| all | byte) < 0x80,
    }
}

fn is_scheme(text: &str) -> bool {
    text.starts_with(|c: char| c.is_ascii_lowercase())
        && text
            .bytes()
            .all(|b| matches!(b, b'a'..=b'z' | b'0'..=b'9' | b'+' | b'.' | b'-'))
}

fn is_segment(text: &[u8]) -> bool {
    text != b"." && text != b".."
}

/// The rules of one label: no dot, no upper-case letter, no bracket.
fn is_label(label: &[u8]) -> bool {
    !label
        .iter()
        .any(|b| matches!(b, b'.' | b'A'..=b'Z' | b'[' | b']'))
}

/// The rules over all labels: at most 255 bytes with the dots between them, and no IPv4 look.
fn is_name(labels: Texts) -> bool {
    let dots = labels.len() - 1;
    let length = labels.iter().map(<[u8]>::len).sum::<usize>() + dots;
    let looks_like_ipv4 = labels.len() == 4 && labels.iter().all(is_decimal_byte);
    length <= MAX_NAME && !looks_like_ipv4
}

/// Whether `label` is a decimal 0 to 255 without leading zeros.
fn is_decimal_byte(label: &[u8]) -> bool {
    matches!(
        label,
        [b'0'..=b'9']
            | [b'1'..=b'9', b'0'..=b'9']
            | [b'1', b'0'..=b'9', b'0'..=b'9']
            | [b'2', b'0'..=b'4', b'0'..=b'9']
            | [b'2', b'5', b'0'..=b'5']
    )
}
