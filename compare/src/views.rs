//! Views: parts of the input. Where a call is refused, none is given.

use crate::reader::{read, Opening};
use crate::refusal::{Reason, Refusal};

/// The content of the `n`-th path segment, counted from 0.
pub fn segment(input: &[u8], n: u64) -> Result<&[u8], Refusal> {
    let path = read(input)?.path.unwrap_or_default();
    let n = usize::try_from(n).ok().filter(|&n| n < path.len());
    let segment = n.and_then(|n| path.iter().nth(n));
    Ok(segment.ok_or(Reason::None)?)
}

/// The whole item of the reference's authority, or of the base's where the reference has none.
pub fn authority<'a>(reference: &'a [u8], base: &'a [u8]) -> Result<&'a [u8], Refusal> {
    let base = read(base).map_err(Refusal::of_base)?;
    let (_, inherited) = base.absolute().ok_or(Reason::Base)?;
    match read(reference)?.opening {
        Opening::Authority(_, own) => Ok(own.encoded),
        Opening::Discard(_) => Ok(inherited.encoded),
    }
}
