//! Writes a reference from components whose texts are spans of lent bytes, as section 9 of docs/RULES.md gives it.
//!
//! The encoding is made in an array that is long enough, judged by the reader and then copied. So nothing is allocated, and a refusal
//! leaves the room as it was.

#![forbid(unsafe_code)]

use crate::encoder::{
    items_after, Buffer, Encoder, Put, BYTES, NEGATIVE, NULL, NUMBER, TEXT, TRUE,
};
pub use crate::reader::Span;
use crate::reader::{read, MAX_INPUT, MAX_LABELS, MAX_PARAMETERS, MAX_SEGMENTS};
use crate::refusal::{Reason, Refusal};

#[derive(Clone, Copy, Debug)]
pub struct Components<'c> {
    pub opening: Opening<'c>,
    pub path: Option<&'c [Span]>,
    pub query: Option<&'c [Span]>,
    pub fragment: Option<Span>,
}

#[derive(Clone, Copy, Debug)]
pub enum Opening<'c> {
    Discard(Discard),
    Authority(Scheme, Option<Authority<'c>>),
}

#[derive(Clone, Copy, Debug)]
pub enum Discard {
    All,
    Last(u64),
}

#[derive(Clone, Copy, Debug)]
pub enum Scheme {
    None,
    Number(u64),
    Text(Span),
}

#[derive(Clone, Copy, Debug)]
pub struct Authority<'c> {
    pub host: Host<'c>,
    pub port: Option<u64>,
}

#[derive(Clone, Copy, Debug)]
pub enum Host<'c> {
    Address(Span),
    Labels(&'c [Span]),
}

/// The length of an array in which most encodings fit: one of the largest size takes more time to make.
const SHORT: usize = 1024;

/// Writes the encoding to the start of `room` and gives its length. Every refusal has place 0, the reader's too: what it
/// judges is made here.
pub fn write(components: &Components, lent: &[u8], room: &mut [u8]) -> Result<usize, Refusal> {
    let mut short = [0; SHORT];
    let mut long;
    let encoded = match Encoding::of(components, lent, &mut short) {
        Some(encoded) => encoded,
        None => {
            long = [0; MAX_INPUT];
            Encoding::of(components, lent, &mut long).ok_or(Reason::Limit)?
        }
    };
    read(encoded).map_err(|refusal| refusal.reason)?;
    let written = room.get_mut(..encoded.len()).ok_or(Reason::Room)?;
    written.copy_from_slice(encoded);
    Ok(encoded.len())
}

/// An encoding that is being made. `None` is given for a count over its size, a span outside the lent bytes, and an encoding that does
/// not fit: all have the same number.
struct Encoding<'l, 'b> {
    lent: &'l [u8],
    to: Buffer<'b>,
}

impl<'l, 'b> Encoding<'l, 'b> {
    /// The encoding, made at the start of `bytes`.
    fn of(components: &Components, lent: &'l [u8], bytes: &'b mut [u8]) -> Option<&'b [u8]> {
        let mut encoding = Encoding {
            lent,
            to: Buffer::new(bytes),
        };
        encoding.reference(components)?;
        Some(encoding.to.into_written())
    }

    fn reference(&mut self, components: &Components) -> Put {
        let Components {
            opening,
            path,
            query,
            fragment,
        } = *components;
        let after = items_after(path.is_some(), query.is_some(), fragment.is_some());
        self.opening(opening, after)?;
        if after >= 1 {
            self.texts(path, MAX_SEGMENTS)?;
        }
        if after >= 2 {
            self.texts(query, MAX_PARAMETERS)?;
        }
        match fragment {
            Some(fragment) => self.string(TEXT, fragment),
            None => Some(()),
        }
    }

    /// The head of the outer array, and its items before those `after` the opening.
    fn opening(&mut self, opening: Opening, after: usize) -> Put {
        match opening {
            Opening::Discard(Discard::Last(0)) if after == 0 => self.to.array(0),
            Opening::Discard(discard) => {
                self.to.array(1 + after)?;
                self.discard(discard)
            }
            Opening::Authority(scheme, None) if after == 0 => {
                self.to.array(1)?;
                self.scheme(scheme)
            }
            Opening::Authority(scheme, authority) => {
                self.to.array(2 + after)?;
                self.scheme(scheme)?;
                match authority {
                    Some(authority) => self.authority(authority),
                    None => self.to.put(&[NULL]),
                }
            }
        }
    }

    fn discard(&mut self, discard: Discard) -> Put {
        match discard {
            Discard::All => self.to.put(&[TRUE]),
            Discard::Last(count) => self.to.head(NUMBER, count),
        }
    }

    fn scheme(&mut self, scheme: Scheme) -> Put {
        match scheme {
            Scheme::None => self.to.put(&[NULL]),
            Scheme::Number(number) => self.to.head(NEGATIVE, number),
            Scheme::Text(text) => self.string(TEXT, text),
        }
    }

    fn authority(&mut self, authority: Authority) -> Put {
        let ports = usize::from(authority.port.is_some());
        match authority.host {
            Host::Address(address) => {
                self.to.array(1 + ports)?;
                self.string(BYTES, address)?;
            }
            Host::Labels(labels) => self.array_of(labels, MAX_LABELS, ports)?,
        }
        match authority.port {
            Some(port) => self.to.head(NUMBER, port),
            None => Some(()),
        }
    }

    /// The path or the query.
    fn texts(&mut self, texts: Option<&[Span]>, most: usize) -> Put {
        match texts {
            Some(texts) => self.array_of(texts, most, 0),
            None => self.to.put(&[NULL]),
        }
    }

    /// The head and the texts of an array that has `further` items after them.
    fn array_of(&mut self, texts: &[Span], most: usize, further: usize) -> Put {
        if texts.len() > most {
            return None;
        }
        self.to.array(texts.len() + further)?;
        texts.iter().try_for_each(|&text| self.string(TEXT, text))
    }

    fn string(&mut self, major: u8, span: Span) -> Put {
        let end = span.start.checked_add(span.length)?;
        let content = self.lent.get(span.start..end)?;
        self.to.string(major, content)
    }
}
