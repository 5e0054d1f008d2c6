//! A refusal as the rules tell it.

use compare::refusal::Refusal;

/// The number and the place.
pub fn told(refusal: Refusal) -> (u8, usize) {
    (refusal.number(), refusal.place)
}
