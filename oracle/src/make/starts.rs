//! Starts: sixteen bits, nine of them for places.

use crate::order::PLACES;

/// Of the demonstration data's nine places all live before its eighth byte,
/// six to its end.
pub const STREAM: &[u8] = b"A\x1B(Bb. \xC9\xA1 \xC9\xE0b. A";

/// Every choice of places; then each bit above the places' alone and with all
/// of theirs, all bits above, and all bits.
pub fn few() -> Vec<u16> {
    let places = 1u16 << PLACES;
    let above = (PLACES..16).map(|bit| 1u16 << bit);
    let refused = above.flat_map(|bit| [bit, bit | (places - 1)]);
    (0..places).chain(refused).chain([u16::MAX << PLACES, u16::MAX]).collect()
}
