//! Makes the CoAP options of a request, as section 7 of docs/RULES.md gives them.
//!
//! The options are measured, compared with the room and then written straight to it, so nothing is allocated, and a refusal leaves the
//! room as it was.

#![forbid(unsafe_code)]

use crate::encoder::{Buffer, Encoder, Meter, Put};
use crate::reader::{read, Host, Reference, Scheme, Texts, MAX_INPUT};
use crate::refusal::{Reason, Refusal};
use crate::uri_text::Short;

/// A length that the options of no reference exceed.
pub const ENOUGH: usize = 2 * MAX_INPUT + 16;

const URI_HOST: u8 = 3;
const URI_PORT: u8 = 7;
const URI_PATH: u8 = 11;
const URI_QUERY: u8 = 15;

/// Writes the options of a request to this destination to the start of `room` and gives their length.
pub fn options(input: &[u8], address: &[u8], port: u16, room: &mut [u8]) -> Result<usize, Refusal> {
    if !matches!(address.len(), 4 | 16) {
        return Err(Reason::Destination.into());
    }
    let request = Request::of(&read(input)?, address, port)?;
    let mut meter = Meter::default();
    request.encode(&mut meter);
    let length = meter.length();
    let written = room.get_mut(..length).ok_or(Reason::Room)?;
    let encoded = request.encode(&mut Buffer::new(written));
    encoded.expect("the options are as long as was measured");
    Ok(length)
}

/// The values of the options.
struct Request<'a> {
    /// The address, which is printed already, or nothing; then the labels, or none. There is no option where both are empty.
    address: Short<41>,
    labels: Texts<'a>,
    port: Option<u16>,
    path: Texts<'a>,
    query: Texts<'a>,
}

impl<'a> Request<'a> {
    /// What a reference asks of a destination; or 8 or 11.
    #[inline]
    fn of(reference: &Reference<'a>, address: &[u8], port: u16) -> Result<Self, Reason> {
        let (scheme, authority) = reference.absolute().ok_or(Reason::Base)?;
        let (Scheme::Number(scheme), None) = (scheme, reference.fragment) else {
            return Err(Reason::Coap);
        };
        let own_port = authority.port.unwrap_or(default_port(scheme));
        let mut request = Request {
            address: Short::new(),
            labels: Texts::default(),
            port: Some(own_port).filter(|&own| own != port),
            path: reference.segments(),
            query: reference.parameters(),
        };
        match authority.host {
            Host::Address(own) if own == address => {}
            Host::Address(own) => request.address.address(own),
            Host::Labels(labels) => request.labels = labels,
        }
        Ok(request)
    }

    #[inline]
    fn encode(&self, to: &mut impl Encoder) -> Put {
        let mut last = 0;
        let mut labels = self.labels.iter();
        if let Some(first) = labels.next() {
            let others = labels.clone().map(|label| 1 + label.len());
            head(to, &mut last, URI_HOST, first.len() + others.sum::<usize>())?;
            to.put(first)?;
            for label in labels {
                to.put(b".")?;
                to.put(label)?;
            }
        } else if let address @ [_, ..] = self.address.text() {
            option(to, &mut last, URI_HOST, address)?;
        }
        if let Some(port) = self.port {
            let leading_zeros = port.leading_zeros() as usize / 8;
            option(
                to,
                &mut last,
                URI_PORT,
                &port.to_be_bytes()[leading_zeros..],
            )?;
        }
        for segment in self.path {
            option(to, &mut last, URI_PATH, segment)?;
        }
        for parameter in self.query {
            option(to, &mut last, URI_QUERY, parameter)?;
        }
        Some(())
    }
}

/// The default port of a scheme by its number.
fn default_port(scheme: u8) -> u16 {
    match scheme {
        8 => 80,
        9 => 443,
        1 | 7 => 5684,
        _ => 5683,
    }
}

/// An option with a value of at most 255 bytes, after one of the number `last`.
#[inline]
fn option(to: &mut impl Encoder, last: &mut u8, number: u8, value: &[u8]) -> Put {
    head(to, last, number, value.len())?;
    to.put(value)
}

/// The bytes of an option before its value. Both the difference and the length stay below 269, where a second byte more would be needed.
#[inline]
fn head(to: &mut impl Encoder, last: &mut u8, number: u8, length: usize) -> Put {
    let difference = number - std::mem::replace(last, number);
    let length = length as u16;
    match (difference, length) {
        (0..13, 0..13) => to.put(&[difference << 4 | length as u8]),
        (0..13, _) => to.put(&[difference << 4 | 13, (length - 13) as u8]),
        (_, 0..13) => to.put(&[13 << 4 | length as u8, difference - 13]),
        (_, _) => to.put(&[13 << 4 | 13, difference - 13, (length - 13) as u8]),
    }
}
