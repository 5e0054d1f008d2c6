//! Refusals: a number and a place, which every call gives.

#![forbid(unsafe_code)]

/// Why a call is refused; the value is the refusal number of section 3 of docs/RULES.md.
#[derive(Clone, Copy, Debug, PartialEq, Eq)]
#[repr(u8)]
pub enum Reason {
    Cut = 1,
    Form = 2,
    Head = 3,
    Limit = 4,
    Text = 5,
    Rule = 6,
    Tail = 7,
    /// A base that the reader refuses or that is not absolute; a text or options asked of a reference that is not
    /// absolute.
    Base = 8,
    /// A resolved CRI over its sizes.
    Result = 9,
    /// An output longer than the room.
    Room = 10,
    /// Options asked of a scheme that is a text, or where a fragment is set.
    Coap = 11,
    /// A destination address that has not 4 or 16 bytes.
    Destination = 12,
    /// A path segment that is not there.
    None = 18,
}

impl Reason {
    pub fn at(self, place: usize) -> Refusal {
        Refusal {
            reason: self,
            place,
        }
    }
}

/// A refusal and its place. For the reader's refusals, those of a base too, this is the first byte of the item at
/// fault, or the input's length where that byte is missing; for all others it is 0.
#[derive(Clone, Copy, Debug, PartialEq, Eq)]
pub struct Refusal {
    pub reason: Reason,
    pub place: usize,
}

impl Refusal {
    pub fn number(self) -> u8 {
        self.reason as u8
    }

    /// The refusal of a call whose base the reader refuses so: the place is that in the base.
    pub fn of_base(self) -> Self {
        Reason::Base.at(self.place)
    }
}

/// A refusal that has no place in an input.
impl From<Reason> for Refusal {
    fn from(reason: Reason) -> Self {
        reason.at(0)
    }
}
