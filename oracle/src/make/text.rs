//! Text that the encodings mostly allow, and damage to it.

use super::TELLING;
use crate::random::Random;

#[derive(Clone, Copy)]
pub enum Text {
    Ascii,
    Utf8,
    Iso2022Jp,
    EucKr,
    Big5,
    Single,
    ShiftJis,
    /// Any bytes.
    Noise,
    /// Few bytes at which rules turn.
    Telling,
    /// Korean in EUC-KR, Chinese in Big5, Japanese in Shift_JIS: words whose
    /// pairs the Standard's indexes map, all of them.
    Hangul,
    Hanzi,
    Japanese,
    /// Words of Hebrew letters as the tables `hebrew` have them, with
    /// punctuation at either end.
    Hebrew,
}

/// What one of the encodings allows.
pub const VALID: [Text; 6] =
    [Text::Utf8, Text::Iso2022Jp, Text::EucKr, Text::Big5, Text::Single, Text::ShiftJis];
pub const ALL: [Text; 9] = [
    Text::Ascii,
    Text::Utf8,
    Text::Iso2022Jp,
    Text::EucKr,
    Text::Big5,
    Text::Single,
    Text::ShiftJis,
    Text::Noise,
    Text::Telling,
];

/// The kind of that name.
pub fn named(name: &str) -> Option<Text> {
    let names = [
        "ascii",
        "utf-8",
        "iso-2022-jp",
        "euc-kr",
        "big5",
        "single",
        "shift_jis",
        "noise",
        "telling",
    ];
    match name {
        "hangul" => Some(Text::Hangul),
        "hanzi" => Some(Text::Hanzi),
        "japanese" => Some(Text::Japanese),
        "hebrew" => Some(Text::Hebrew),
        _ => names.iter().position(|&known| known == name).map(|at| ALL[at]),
    }
}

/// Text of at least `length` bytes, by whole pieces.
pub fn text(random: &mut Random, kind: Text, length: usize) -> Vec<u8> {
    let mut bytes = Vec::new();
    while bytes.len() < length {
        match kind {
            Text::Ascii => bytes.push(ascii(random)),
            Text::Utf8 => utf_8(random, &mut bytes),
            Text::Iso2022Jp => iso_2022_jp(random, &mut bytes),
            Text::EucKr => euc_kr(random, &mut bytes),
            Text::Big5 => big5(random, &mut bytes),
            Text::Single => single(random, &mut bytes),
            Text::ShiftJis => shift_jis(random, &mut bytes),
            Text::Noise => bytes.push(random.byte()),
            Text::Telling => bytes.push(*random.pick(&TELLING)),
            Text::Hangul => hangul(random, &mut bytes),
            Text::Hanzi => hanzi(random, &mut bytes),
            Text::Japanese => japanese(random, &mut bytes),
            Text::Hebrew => hebrew(random, &mut bytes),
        }
    }
    bytes
}

fn ascii(random: &mut Random) -> u8 {
    match random.below(10) {
        0 | 1 => b' ',
        2 => *random.pick(b".,:;?!"),
        3 => random.within(b'A', b'Z'),
        4 => random.within(0x1C, 0x7F),
        _ => random.within(b'a', b'z'),
    }
}

fn utf_8(random: &mut Random, bytes: &mut Vec<u8>) {
    let edges = [0x7F, 0x80, 0x7FF, 0x800, 0xD7FF, 0xE000, 0xFFFF, 0x1_0000, 0x10_FFFF];
    let code_point = match random.below(6) {
        0 => *random.pick(&edges),
        1 => u32::from(ascii(random)),
        2 => random.below(0x11_0000) as u32,
        3 => random.below(0x1_0000) as u32,
        _ => random.below(0x800) as u32,
    };
    let character = char::from_u32(code_point).unwrap_or('\u{E000}');
    bytes.extend(character.encode_utf8(&mut [0; 4]).bytes());
}

/// An escape and what may follow it; never two escapes in a row.
fn iso_2022_jp(random: &mut Random, bytes: &mut Vec<u8>) {
    let (escape, low, high) = *random.pick(&[
        (b"\x1B(B", 0x20, 0x7E),
        (b"\x1B(J", 0x20, 0x7E),
        (b"\x1B(I", 0x21, 0x5F),
        (b"\x1B$@", 0x30, 0x4E),
        (b"\x1B$B", 0x30, 0x4E),
    ]);
    bytes.extend(escape);
    for _ in 0..=random.below(6) {
        bytes.push(random.within(low, high));
        if escape[1] == b'$' {
            bytes.push(random.within(0x21, 0x7E));
        }
    }
}

fn pair(random: &mut Random, leads: (u8, u8), seconds: (u8, u8), bytes: &mut Vec<u8>) {
    bytes.push(random.within(leads.0, leads.1));
    bytes.push(random.within(seconds.0, seconds.1));
}

fn euc_kr(random: &mut Random, bytes: &mut Vec<u8>) {
    const UPPER: (u8, u8) = (0xA1, 0xFE);
    match random.below(16) {
        0 | 1 => bytes.push(ascii(random)),
        2 => pair(random, (0x81, 0xA0), (0x81, 0xFE), bytes),
        3 => pair(random, (0x81, 0xA0), (0x41, 0x5A), bytes),
        4 => pair(random, (0x91, 0x9E), (0x61, 0x7A), bytes),
        5 => pair(random, (0xCA, 0xFD), UPPER, bytes),
        6 => pair(random, (0xA1, 0xAD), UPPER, bytes),
        7 => pair(random, (0xC9, 0xC9), UPPER, bytes),
        8 => pair(random, (0xB0, 0xB0), (0x41, 0xA0), bytes),
        _ => pair(random, (0xB0, 0xC8), UPPER, bytes),
    }
}

fn big5(random: &mut Random, bytes: &mut Vec<u8>) {
    let seconds = *random.pick(&[(0x40, 0x7E), (0xA1, 0xFE)]);
    match random.below(14) {
        0 | 1 => bytes.push(ascii(random)),
        2 => pair(random, (0xA1, 0xA3), seconds, bytes),
        3 => pair(random, (0xC9, 0xF9), seconds, bytes),
        4 | 5 => pair(random, (0x87, 0xA0), seconds, bytes),
        6 => pair(random, (0x88, 0x88), (0x62, 0xA5), bytes),
        7 => pair(random, (0xFA, 0xFE), seconds, bytes),
        8 => pair(random, (0xB0, 0xB0), seconds, bytes),
        _ => pair(random, (0xA4, 0xC6), seconds, bytes),
    }
}

/// Second bytes of Shift_JIS, on either side of 7F.
const SECONDS: [(u8, u8); 2] = [(0x40, 0x7E), (0x80, 0xFC)];

fn shift_jis(random: &mut Random, bytes: &mut Vec<u8>) {
    let seconds = *random.pick(&SECONDS);
    match random.below(14) {
        0 | 1 => bytes.push(ascii(random)),
        2 | 3 => bytes.push(random.within(0xA1, 0xDF)),
        4 => pair(random, (0x81, 0x87), seconds, bytes),
        5 => pair(random, (0xF0, 0xF9), seconds, bytes),
        6 => pair(random, (0xED, 0xFC), seconds, bytes),
        7 => bytes.push(*random.pick(&[0x1B, 0x7F, 0x80, 0x80])),
        8 => pair(random, (0xE0, 0xEA), seconds, bytes),
        _ => pair(random, (0x88, 0x9F), seconds, bytes),
    }
}

/// A word or two and what parts it from the next.
fn hangul(random: &mut Random, bytes: &mut Vec<u8>) {
    const UPPER: (u8, u8) = (0xA1, 0xFE);
    let length = 1 + random.below(5);
    match random.below(12) {
        0 => bytes.extend((0..length).map(|_| random.within(b'a', b'z'))),
        1 => (0..length).for_each(|_| pair(random, (0xCA, 0xFD), UPPER, bytes)),
        2 => (0..length).for_each(|_| pair(random, (0x81, 0xA0), (0x81, 0xFE), bytes)),
        _ => (0..length).for_each(|_| pair(random, (0xB0, 0xC8), UPPER, bytes)),
    }
    bytes.extend(*random.pick(&[b" ".as_slice(), b" ", b" ", b", ", b". ", b"\xA1\xA4"]));
}

fn hanzi(random: &mut Random, bytes: &mut Vec<u8>) {
    for _ in 0..=random.below(7) {
        let seconds = *random.pick(&[(0x40, 0x7E), (0xA1, 0xFE)]);
        let leads = *random.pick(&[(0xA4, 0xC5), (0xA4, 0xC5), (0xA4, 0xC5), (0xC9, 0xF8)]);
        pair(random, leads, seconds, bytes);
    }
    match random.below(8) {
        0 => bytes.extend((0..=random.below(5)).map(|_| random.within(b'a', b'z'))),
        1 => bytes.extend(b" "),
        _ => bytes.extend(*random.pick(&[b"\xA1\x41", b"\xA1\x43"])),
    }
}

fn japanese(random: &mut Random, bytes: &mut Vec<u8>) {
    let seconds = *random.pick(&SECONDS);
    let length = 1 + random.below(4);
    match random.below(8) {
        0 => bytes.extend((0..length).map(|_| random.within(b'a', b'z'))),
        1 => bytes.extend((0..length).map(|_| random.within(0xA6, 0xDF))),
        2 => (0..length).for_each(|_| pair(random, (0x83, 0x83), (0x40, 0x7E), bytes)),
        3 => (0..length).for_each(|_| pair(random, (0xE0, 0xE9), seconds, bytes)),
        4 | 5 => (0..length).for_each(|_| pair(random, (0x89, 0x97), seconds, bytes)),
        _ => (0..length).for_each(|_| pair(random, (0x82, 0x82), (0x9F, 0xF1), bytes)),
    }
    if random.once_in(4) {
        bytes.extend(*random.pick(&[b"\x81\x41".as_slice(), b"\x81\x42", b" "]));
    }
}

/// A word, of letters on which both orders score alike or visual more, now
/// and then on which caseless scores most; rarely a byte that one order lacks.
fn hebrew(random: &mut Random, bytes: &mut Vec<u8>) {
    let (low, high) = *random.pick(&[(0xE0, 0xEF), (0xE0, 0xEF), (0xF0, 0xFA), (0xC0, 0xC3)]);
    let mark = *random.pick(b".,:;?!");
    let (before, after) =
        *random.pick(&[(true, false), (false, true), (true, true), (false, false)]);
    bytes.extend(before.then_some(mark));
    bytes.extend((0..=random.below(6)).map(|_| random.within(low, high)));
    bytes.extend(after.then_some(mark));
    if random.once_in(30) {
        bytes.push(*random.pick(b"\xDE\xDF"));
    }
    bytes.push(b' ');
}

fn single(random: &mut Random, bytes: &mut Vec<u8>) {
    for _ in 0..=random.below(7) {
        bytes.push(match random.below(12) {
            0 => random.within(0x80, 0xFE),
            1 => ascii(random),
            _ => random.within(0xE0, 0xFA),
        });
    }
    bytes.push(*random.pick(b" .,:;?! \xA0"));
}

/// One byte changed, dropped or doubled.
pub fn damage(random: &mut Random, bytes: &mut Vec<u8>) {
    if bytes.is_empty() {
        return;
    }
    let at = random.below(bytes.len() as u64) as usize;
    match random.below(4) {
        0 => bytes[at] = random.byte(),
        1 => bytes[at] = *random.pick(&TELLING),
        2 => drop(bytes.remove(at)),
        _ => bytes.insert(at, bytes[at]),
    }
}
