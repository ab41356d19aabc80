//! Short streams of Shift_JIS, to be cut in every way.

/// What the place makes of each over the Standard's index stands behind it.
pub const SHIFT_JIS: &[&[u8]] = &[
    // Single bytes.
    b"\x1Ba\x7F\x80",    // lives
    b"\xA1\xDF\xB1\x80", // lives, half-width katakana
    b"\xB1\xA0\xB1",     // bad, A0
    b"\xB1\xFD\xB1",     // bad
    b"\xFE",             // bad
    b"\xFF",             // bad
    b"a\x0E\x0F\xB1",    // lives
    // Pairs, in text as it is written.
    b"\x83e\x83X\x83g",  // lives, full-width katakana
    b"a\x88\x9Fb",       // lives, the first Kanji
    b"\xEA\xA4\xEA\xA5", // bad, the last Kanji and the pair after it
    b"\x81\x40\x81\x40", // lives, the first pair
    b"\xB1\x81\x42\xB1", // lives, katakana beside a pair
    // The bounds of leads and of second bytes.
    b"\x81\x3F\xB1",     // bad, a second byte that is ASCII
    b"\x81\x7E\xB1",     // lives
    b"\x81\x7F\xB1",     // bad
    b"\x81\x80\xB1",     // lives
    b"\x81\xFC\xB1",     // lives
    b"\x81\xFD\xB1",     // bad
    b"\x81\xFF",         // bad
    b"\x81\x1B",         // bad
    b"\x9F\x40\xE0\x40", // lives, two leads beside katakana
    b"\x9F\xFC\xE0\xFC", // lives
    b"\x80\x81\x40",     // lives, 80 is no lead
    b"\xA0\x40",         // bad, nor is A0
    b"\xDF\x40",         // lives, nor is DF
    b"\xFD\x40",         // bad, nor is FD
    // Private use, and the pairs beside it.
    b"\xEF\xFC\xB1",     // bad, pointer 8835
    b"\xF0\x40\xB1",     // lives, 8836
    b"\xF4\x7E\xF4\x80", // lives
    b"\xF9\xFC\xB1",     // lives, 10715
    b"\xFA\x40\xB1",     // lives, 10716
    b"\xF0\x3F\xB1",     // bad
    b"\xF0\x7F\xB1",     // bad
    b"\xF9\xFD\xB1",     // bad
    // Pairs that the index does not map, and its ends.
    b"\x81\xAD\xB1", // bad
    b"\x85\x40\xB1", // bad
    b"\x87\x40\xB1", // lives
    b"\xED\x40\xB1", // lives
    b"\xFC\x4B\xB1", // lives, the last that is mapped
    b"\xFC\x4C\xB1", // bad
    b"\xFC\xFC",     // bad, pointer 11279
    // A lead at the close.
    b"\x81",                 // cut
    b"ab\xFC",               // cut
    b"\x88\x9F\x88",         // cut
    b"\xB1\xF0",             // cut
    b"\xE0\x40\x9F\x40\xE0", // cut
];
