//! Short streams in which the places drop out for each of their reasons, at
//! each position that a short body has for it.

/// ISO-2022-JP refuses 0E and 0F; `z` and the space have class 255 in the
/// tables `ascii255`.
const HEADS: [&[u8]; 13] = [
    b"", b"a", b"\x0E", b"z", b"ab", b"a\x0F", b"zb", b"abc", b"\x0Ebc", b"az ", b"abcd",
    b"ab\x0Fd", b"z\x0Ecd",
];

/// Of these bytes as many as are wanted come first; every place outlives them.
const BEFORE: &[u8] = b"\x1B(Ba";

/// How a body ends.
const ENDS: [&[u8]; 24] = [
    b"\xFF",
    b"\x80",
    b"\xE0",
    b"\xC3",
    b"\x0E",
    b"z",
    b" ",
    b"a",
    b"\x1B",
    b"\xA4 ",
    b"\xA4\xFF",
    b"\xC3a",
    b"\xE2\x82",
    b"a\x0F",
    b"\x1BA",
    b"\x1B$",
    b"\xC3\xA9\xFF",
    b"\xF0\x9F\x98",
    b"\xA4@\x80",
    b"\x1B(C",
    b"\x1B$B ",
    b"\x1B$B0",
    b"\x1B$B0\x1B",
    b"\xB0\xA1\xA4\xFF\x80",
];

const LONGEST: usize = 5;

/// Longer, since an escape straight after another ends at its sixth byte.
const LONGER: &[u8] = b"\x1B(B\x1B(B";

/// Every head before every body.
pub fn streams() -> Vec<Vec<u8>> {
    let bodies = bodies();
    let with_bodies =
        |head: &[u8]| -> Vec<Vec<u8>> { bodies.iter().map(|body| [head, body].concat()).collect() };
    HEADS.into_iter().flat_map(with_bodies).collect()
}

fn bodies() -> Vec<Vec<u8>> {
    let ended = |length: usize| ENDS.map(|end| [&BEFORE[..length], end].concat());
    let triggers = |body: &Vec<u8>| body[0] == 0x1B || body[0] >= 0x80;
    let short = (0..=BEFORE.len()).flat_map(ended);
    let taken = short.filter(|body| triggers(body) && body.len() <= LONGEST);
    taken.chain([LONGER.to_vec()]).collect()
}
