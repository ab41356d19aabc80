//! Short streams to be cut in every way.

/// Short streams at which cutting might tell.
pub const CUT: &[&[u8]] = &[
    b"",
    b"\xE0",
    b"\x1B",
    b"abc",
    b"abcd",
    b"abc\xE9",
    b"ab\xE9",
    b"a\xE9",
    b"abcd\x1B",
    b"abc\x1B\xE9",
    b"ab\x1B(B",
    b"\x1B(Bab",
    b"\x1B(B\x1B(B",
    b"\x1B$B0!0",
    b"a\x1B$@0!",
    b"\x1B(I1\x1B",
    b"\x1B(J~\x5C.",
    b"\xE0\xE1.a",
    b"a.\xE0\xE1",
    b"A\xE0 \xE0a",
    b"Aa\xE0A\xE0",
    b"\xE0;\xE0!\xE0",
    b"\xED\x9F\xBF\xED\xA0\x80",
    b"\xF4\x8F\xBF\xBF",
    b"\xF4\x90\x80\x80",
    b"ab\xC3\xA9cd",
    b"\xE2\x82\xAC\xC3\xA9",
    b"\xF0\x9F\x98\x80ab",
    b"\xFD\xFFa",
    b"\xFDa\xFE \xA0",
    b"\xA4\xFF",
    b"\xA4@\xA4@a",
    b"\x91@\xA4@ ",
    b"\x91@a\x91@",
    b"\x88\x62\x88\xA5",
    b"\xA4\x40\xFD\xFF\xFF",
    b"\xB0\xA1\xB0\xA2a",
    b"\x91A\xB0\xA1",
    b"\x82A ",
    b"a\x91A\x91B",
    b"\xB0\x81\xFF\x80",
    b"\xC9\xA1\xFE\xFE",
    b"\xA1{\xA3|a",
    b"\x81 \x84a\x83",
    b"\x81\x80\x82\xFF",
    b"\xCA\xA1\xB0\xA1",
    b"\x80\xFFa",
    b"ab\xFF",
];

/// How many ways there are to cut a stream.
pub fn cuts(stream: &[u8]) -> u64 {
    1 << stream.len().saturating_sub(1)
}

/// The stream cut after byte k where bit k of `cut` is set.
pub fn cut_up(stream: &[u8], cut: u64, with_empty: bool) -> Vec<&[u8]> {
    let mut chunks = Vec::new();
    let mut from = 0;
    for to in (1..stream.len()).filter(|to| cut >> (to - 1) & 1 == 1) {
        chunks.push(&stream[from..to]);
        if with_empty {
            chunks.push(&stream[to..to]);
        }
        from = to;
    }
    chunks.push(&stream[from..]);
    chunks
}
