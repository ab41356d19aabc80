//! Short labels for the tables `hebrew`, in pairs or more that differ by what
//! settles between logical and visual order.

/// What the rule names stands behind each, and what the greatest score alone
/// would where that is another place. Letters E0..EF score alike in both
/// orders, F0..FA more in visual order, C0..CF most in no Hebrew at all; DE
/// drops logical out, DF visual.
pub const HEBREW: &[&[u8]] = &[
    // Alike in both orders: logical by its score, since it stands first.
    b"\xE0\xE1\xE2. \xE3\xE4,", // logical
    b".\xE2\xE1\xE0 ,\xE4\xE3", // visual, not logical
    // Visual by its score.
    b"\xF0\xF1\xF2. \xF3\xF4,", // logical, not visual
    b".\xF2\xF1\xF0 ,\xF4\xF3", // visual
    // Equal counts, none and some.
    b"\xE0\xE1 \xE2\xE3", // logical
    b"\xF0\xF1 \xF2\xF3", // logical, not visual
    b".\xE0\xE1. \xE2",   // logical
    b".\xF0\xF1. \xF2",   // logical, not visual
    // One more and one less.
    b".\xF0\xF1. \xF2.",  // logical, not visual
    b".\xE0 .\xE1\xE2.", // visual, not logical
    // Only one has a score, from the first letter on.
    b"\xDE \xE0\xE1",  // visual
    b"\xDE \xF0\xF1.", // visual
    b"\xDF \xE0\xE1",  // logical
    b"\xDF .\xF0\xF1", // logical
    // One has dropped out, and its count was higher.
    b"\xE0\xE1. \xE2\xE3.\xDE",  // visual
    b".\xE0\xE1 .\xE2\xE3 \xDF", // logical
    // Both behind another place.
    b"\xC0\xC1. \xC2",  // caseless
    b".\xC0\xC1 .\xC2", // caseless
    // Both dropped out.
    b"\xE0\xE1. \xDE\xDF", // caseless
    b".\xE0\xE1 \xDF\xDE", // caseless
];
