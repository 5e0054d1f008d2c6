//! Resolves a reference against a base, as section 5 of docs/RULES.md gives it.
//!
//! The result borrows its components from both inputs. Its encoding is measured and then written straight to the room, so nothing is
//! allocated, and a refusal leaves the room as it was.

#![forbid(unsafe_code)]

use crate::encoder::{items_after, Buffer, Encoder, Meter, Put, NEGATIVE, NULL, TEXT};
use crate::reader::{read, Discard, Opening, Reference, Scheme, Texts, MAX_INPUT, MAX_SEGMENTS};
use crate::refusal::{Reason, Refusal};

/// Writes the resolved CRI to the start of `room` and gives its length.
pub fn resolve(base: &[u8], reference: &[u8], room: &mut [u8]) -> Result<usize, Refusal> {
    let base = read(base).map_err(Refusal::of_base)?;
    let base = Cri::base(&base).ok_or(Reason::Base)?;
    let result = base.resolved(&read(reference)?);
    let length = result.length().ok_or(Reason::Result)?;
    let written = room.get_mut(..length).ok_or(Reason::Room)?;
    let encoded = result.encode(&mut Buffer::new(written));
    encoded.expect("the encoding is as long as was measured");
    Ok(length)
}

/// An absolute CRI, of components that were read.
struct Cri<'a> {
    scheme: Scheme<'a>,
    /// The whole item.
    authority: &'a [u8],
    /// The path: what is kept of the base's, and what the reference appends. Unset where it is empty.
    kept: Texts<'a>,
    appended: Texts<'a>,
    /// Unset where it is empty: a query that is set has a parameter.
    query: Texts<'a>,
    fragment: Option<&'a str>,
}

impl<'a> Cri<'a> {
    /// What a reference is as a base, where it is absolute: 5.0.
    fn base(reference: &Reference<'a>) -> Option<Self> {
        let (scheme, authority) = reference.absolute()?;
        Some(Cri {
            scheme,
            authority: authority.encoded,
            kept: reference.segments(),
            appended: Texts::default(),
            query: reference.parameters(),
            fragment: None,
        })
    }

    /// The base resolved with a reference. It has no fragment that a step could unset.
    fn resolved(mut self, reference: &Reference<'a>) -> Self {
        // 5.1
        let discard = match reference.opening {
            Opening::Discard(discard) => discard,
            Opening::Authority(..) => Discard::All,
        };
        let kept = match discard {
            Discard::All => 0,
            Discard::Last(count) => self.kept.len().saturating_sub(count.into()),
        };
        self.kept = self.kept.prefix(kept);
        if discard != Discard::Last(0) {
            self.query = Texts::default();
        }
        // 5.2
        if let Some(path) = reference.path {
            self.appended = path;
            self.query = Texts::default();
        }
        // 5.3
        if let Opening::Authority(scheme, authority) = reference.opening {
            if scheme != Scheme::None {
                self.scheme = scheme;
            }
            self.authority = authority.encoded;
        }
        if let Some(query) = reference.query {
            self.query = query;
        }
        self.fragment = reference.fragment;
        // 5.4
        if self.segments() == 1 && (self.kept.is_one_empty() || self.appended.is_one_empty()) {
            self.kept = Texts::default();
            self.appended = Texts::default();
        }
        self
    }

    fn segments(&self) -> usize {
        self.kept.len() + self.appended.len()
    }

    /// The length of the encoding; `None` where the path or the encoding is over its size.
    fn length(&self) -> Option<usize> {
        if self.segments() > MAX_SEGMENTS {
            return None;
        }
        let mut meter = Meter::default();
        self.encode(&mut meter)?;
        Some(meter.length()).filter(|&length| length <= MAX_INPUT)
    }

    fn encode(&self, to: &mut impl Encoder) -> Put {
        let after = items_after(
            self.segments() > 0,
            !self.query.is_empty(),
            self.fragment.is_some(),
        );
        to.array(2 + after)?;
        match self.scheme {
            Scheme::None => to.put(&[NULL])?,
            Scheme::Number(number) => to.head(NEGATIVE, number.into())?,
            Scheme::Text(text) => to.string(TEXT, text.as_bytes())?,
        }
        to.put(self.authority)?;
        if after >= 1 {
            texts(to, [self.kept, self.appended])?;
        }
        if after >= 2 {
            texts(to, [self.query])?;
        }
        match self.fragment {
            Some(fragment) => to.string(TEXT, fragment.as_bytes()),
            None => Some(()),
        }
    }
}

/// An array of the texts of all lists, whose items are copied; null where there are none.
fn texts<const LISTS: usize>(to: &mut impl Encoder, lists: [Texts; LISTS]) -> Put {
    let count = lists.iter().map(|list| list.len()).sum();
    if count == 0 {
        return to.put(&[NULL]);
    }
    to.array(count)?;
    lists.iter().try_for_each(|list| to.put(list.items()))
}
