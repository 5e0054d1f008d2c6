//! Prints an absolute reference as URI text, as section 6 of docs/RULES.md gives it.
//!
//! The text is measured, compared with the room and then written straight to it, so nothing is allocated, and a refusal leaves the room
//! as it was. What was measured to need no escaping is copied whole.

#![forbid(unsafe_code)]

use crate::encoder::{Buffer, Encoder};
use crate::reader::{read, Host, Reference, Texts, MAX_TEXTS};
use crate::refusal::{Reason, Refusal};

/// A length that the text of an encoding of `length` bytes never exceeds.
pub const fn longest(length: usize) -> usize {
    3 * length + 13
}

/// Writes the text to the start of `room` and gives its length.
pub fn uri_text(input: &[u8], room: &mut [u8]) -> Result<usize, Refusal> {
    let uri = Uri::of(&read(input)?).ok_or(Reason::Base)?;
    let mut measured = Measured {
        length: 0,
        bare: [false; PIECES],
        pieces: 0,
    };
    uri.print(&mut measured);
    let text = room.get_mut(..measured.length).ok_or(Reason::Room)?;
    uri.print(&mut Written {
        to: Buffer::new(text),
        bare: measured.bare.iter(),
    });
    Ok(measured.length)
}

/// The places of a text, as bits: each has its own bytes that stand bare.
#[derive(Clone, Copy)]
enum Place {
    Label = 1,
    Segment = 2,
    Parameter = 4,
    Fragment = 8,
}

/// For each byte the places where it stands bare.
static BARE: [u8; 256] = {
    let mut places = [0; 256];
    let mut byte = 0;
    while byte < 256 {
        places[byte] = bare_places(byte as u8);
        byte += 1;
    }
    places
};

const fn bare_places(byte: u8) -> u8 {
    let label = byte.is_ascii_alphanumeric() || is_one_of(b"-._~!$&'()*+,;=", byte);
    let segment = label || is_one_of(b":@", byte);
    let fragment = segment || is_one_of(b"/?", byte);
    let parameter = fragment && byte != b'&';
    (label as u8 * Place::Label as u8)
        | (segment as u8 * Place::Segment as u8)
        | (parameter as u8 * Place::Parameter as u8)
        | (fragment as u8 * Place::Fragment as u8)
}

const fn is_one_of(bytes: &[u8], byte: u8) -> bool {
    match bytes {
        [first, rest @ ..] => *first == byte || is_one_of(rest, byte),
        [] => false,
    }
}

impl Place {
    fn is_bare(self, byte: u8) -> bool {
        BARE[usize::from(byte)] & self as u8 != 0
    }
}

/// Each byte as "%" and two digits.
static ESCAPED: [[u8; 3]; 256] = {
    const DIGITS: &[u8; 16] = b"0123456789ABCDEF";
    let mut escaped = [*b"%00"; 256];
    let mut byte = 0;
    while byte < 256 {
        escaped[byte] = [b'%', DIGITS[byte >> 4], DIGITS[byte & 15]];
        byte += 1;
    }
    escaped
};

/// Takes a text piece by piece.
trait Print {
    fn plain(&mut self, bytes: &[u8]);

    /// The bytes of `text`, those escaped that are not bare in this place.
    fn escaped(&mut self, place: Place, text: &[u8]);
}

/// The length of a text, and of each piece that may need escaping, whether it needs none.
struct Measured {
    length: usize,
    bare: [bool; PIECES],
    pieces: usize,
}

/// The most pieces that may need escaping: the texts of lists, and the fragment.
const PIECES: usize = MAX_TEXTS + 1;

impl Print for Measured {
    #[inline]
    fn plain(&mut self, bytes: &[u8]) {
        self.length += bytes.len();
    }

    #[inline]
    fn escaped(&mut self, place: Place, text: &[u8]) {
        let escapes = text.iter().filter(|&&byte| !place.is_bare(byte)).count();
        self.length += text.len() + 2 * escapes;
        self.bare[self.pieces] = escapes == 0;
        self.pieces += 1;
    }
}

/// Writes a text that has been measured. `bare` is what was measured of the pieces that are not written yet.
struct Written<'b, 'm> {
    to: Buffer<'b>,
    bare: std::slice::Iter<'m, bool>,
}

impl Print for Written<'_, '_> {
    #[inline]
    fn plain(&mut self, bytes: &[u8]) {
        let put = self.to.put(bytes);
        put.expect("the text is as long as was measured");
    }

    #[inline]
    fn escaped(&mut self, place: Place, text: &[u8]) {
        if self.bare.next() == Some(&true) {
            return self.plain(text);
        }
        for &byte in text {
            if place.is_bare(byte) {
                self.plain(&[byte]);
            } else {
                self.plain(&ESCAPED[usize::from(byte)]);
            }
        }
    }
}

/// The parts of a text.
struct Uri<'a> {
    scheme: &'a str,
    /// The address, which is printed already, or nothing; then the labels, or none.
    address: Short<41>,
    labels: Texts<'a>,
    /// ":" and the port, or nothing.
    port: Short<6>,
    path: Texts<'a>,
    /// Unset where it is empty: a query that is set has a parameter.
    query: Texts<'a>,
    fragment: Option<&'a str>,
}

impl<'a> Uri<'a> {
    /// `None` where the reference is not absolute.
    #[inline]
    fn of(reference: &Reference<'a>) -> Option<Self> {
        let (scheme, authority) = reference.absolute()?;
        let mut uri = Uri {
            scheme: scheme.name()?,
            address: Short::new(),
            labels: Texts::default(),
            port: Short::new(),
            path: reference.segments(),
            query: reference.parameters(),
            fragment: reference.fragment,
        };
        match authority.host {
            Host::Address(address) => uri.address.address(address),
            Host::Labels(labels) => uri.labels = labels,
        }
        if let Some(port) = authority.port {
            uri.port.push(b':');
            uri.port.decimal(port);
        }
        Some(uri)
    }

    #[inline]
    fn print(&self, to: &mut impl Print) {
        to.plain(self.scheme.as_bytes());
        to.plain(b"://");
        to.plain(self.address.text());
        joined(to, Place::Label, self.labels, b"", b".");
        to.plain(self.port.text());
        if self.path.is_empty() {
            to.plain(b"/");
        }
        joined(to, Place::Segment, self.path, b"/", b"/");
        joined(to, Place::Parameter, self.query, b"?", b"&");
        if let Some(fragment) = self.fragment {
            to.plain(b"#");
            to.escaped(Place::Fragment, fragment.as_bytes());
        }
    }
}

/// Prints `texts`: `first` stands before the first one, and `between` before each other.
#[inline]
fn joined(to: &mut impl Print, place: Place, texts: Texts, first: &[u8], between: &[u8]) {
    let mut before = first;
    for text in texts {
        to.plain(before);
        to.escaped(place, text);
        before = between;
    }
}

/// A short text, kept in place. It panics where more than `MAX` bytes are added.
pub(crate) struct Short<const MAX: usize> {
    bytes: [u8; MAX],
    length: usize,
}

impl<const MAX: usize> Short<MAX> {
    pub(crate) fn new() -> Self {
        Short {
            bytes: [0; MAX],
            length: 0,
        }
    }

    pub(crate) fn text(&self) -> &[u8] {
        &self.bytes[..self.length]
    }

    fn push(&mut self, byte: u8) {
        self.bytes[self.length] = byte;
        self.length += 1;
    }

    fn extend(&mut self, text: &[u8]) {
        let end = self.length + text.len();
        self.bytes[self.length..end].copy_from_slice(text);
        self.length = end;
    }

    fn decimal(&mut self, number: u16) {
        for power in [10_000, 1000, 100, 10] {
            if number >= power {
                self.push(b'0' + (number / power % 10) as u8);
            }
        }
        self.push(b'0' + (number % 10) as u8);
    }

    /// 4 or 16 bytes.
    pub(crate) fn address(&mut self, address: &[u8]) {
        match address.try_into() {
            Ok(address) => self.ipv6(address),
            Err(_) => self.ipv4(address),
        }
    }

    fn ipv4(&mut self, address: &[u8]) {
        for (place, &byte) in address.iter().enumerate() {
            if place > 0 {
                self.push(b'.');
            }
            self.decimal(byte.into());
        }
    }

    fn ipv6(&mut self, address: &[u8; 16]) {
        let (pairs, _) = address.as_chunks();
        let mut groups = [0; 8];
        for (group, &pair) in groups.iter_mut().zip(pairs) {
            *group = u16::from_be_bytes(pair);
        }
        self.push(b'[');
        match zeros(&groups) {
            // IPv4-mapped: ten bytes of 0, then two of FF.
            Some((0, 5)) if groups[5] == 0xFFFF => {
                self.extend(b"::ffff:");
                self.ipv4(&address[12..]);
            }
            Some((start, end)) => {
                self.groups(&groups[..start]);
                self.extend(b"::");
                self.groups(&groups[end..]);
            }
            None => self.groups(&groups),
        }
        self.push(b']');
    }

    fn groups(&mut self, groups: &[u16]) {
        for (place, &group) in groups.iter().enumerate() {
            if place > 0 {
                self.push(b':');
            }
            self.group(group);
        }
    }

    /// Writes four digits, of which those that count come first.
    fn group(&mut self, group: u16) {
        const DIGITS: &[u8; 16] = b"0123456789abcdef";
        let digits = [12, 8, 4, 0].map(|shift| DIGITS[usize::from(group >> shift & 15)]);
        let leading_zeros = (group | 1).leading_zeros() / 4;
        let digits = u32::from_be_bytes(digits) << (8 * leading_zeros);
        let end = self.length + 4;
        self.bytes[self.length..end].copy_from_slice(&digits.to_be_bytes());
        self.length = end - leading_zeros as usize;
    }
}

/// The start and the end of the longest run of at least two zero groups, the first of the longest.
fn zeros(groups: &[u16; 8]) -> Option<(usize, usize)> {
    let mut longest = (0, 0);
    let mut start = 0;
    for (place, &group) in groups.iter().enumerate() {
        if group != 0 {
            start = place + 1;
        } else if place + 1 - start > longest.1 - longest.0 {
            longest = (start, place + 1);
        }
    }
    (longest.1 - longest.0 >= 2).then_some(longest)
}
