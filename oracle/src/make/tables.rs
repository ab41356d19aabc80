//! Sets of lent data.

use crate::lent;
use crate::random::Random;
use std::io::{Error, Result};

/// One table of the lent data; a single-byte place's with the place's number.
#[derive(Clone, Copy)]
pub enum Part {
    Class(usize),
    Mark(usize),
    Pair(usize),
    Big5,
    EucKr,
    Jis,
    Extra,
    Weight,
}

impl Part {
    /// Where the table begins, its entries, and the bytes of each.
    pub fn layout(self) -> (usize, usize, usize) {
        let single = |place: usize| (place - 4) * lent::SINGLE_SIZE;
        match self {
            Part::Class(place) => (single(place), lent::CLASSES, 1),
            Part::Mark(place) => (single(place) + lent::CLASSES, lent::MARKS, 1),
            Part::Pair(place) => (single(place) + lent::CLASSES + lent::MARKS, lent::PAIRS, 2),
            Part::Big5 => (lent::BIG5_AT, lent::BIG5_ENTRIES, 4),
            Part::EucKr => (lent::EUC_KR_AT, lent::EUC_KR_ENTRIES, 4),
            Part::Jis => (lent::JIS_AT, lent::JIS_ENTRIES, 4),
            Part::Extra => (lent::EXTRAS_AT, lent::EXTRAS, 2),
            Part::Weight => (lent::WEIGHTS_AT, lent::WEIGHTS, 4),
        }
    }
}

pub struct Tables {
    pub bytes: Vec<u8>,
}

impl Tables {
    fn zero() -> Self {
        Tables { bytes: vec![0; lent::SIZE] }
    }

    pub fn set(&mut self, part: Part, entry: usize, value: i64) {
        let (start, entries, width) = part.layout();
        assert!(entry < entries);
        let at = start + entry * width;
        self.bytes[at..at + width].copy_from_slice(&value.to_le_bytes()[..width]);
    }

    /// Sets every entry of a table.
    fn fill(&mut self, part: Part, mut value: impl FnMut(usize) -> i64) {
        for entry in 0..part.layout().1 {
            self.set(part, entry, value(entry));
        }
    }
}

pub fn named(name: &str, seed: u64) -> Option<Tables> {
    match name {
        "demo" => Some(demo()),
        "named" => Some(for_named()),
        "random" => Some(random(seed)),
        "mild" => Some(mild(seed)),
        "class255" => Some(class255(seed)),
        "ascii255" => Some(ascii255()),
        "hebrew" => Some(hebrew()),
        _ => None,
    }
}

/// Document 01's demonstration data.
pub fn demo() -> Tables {
    let mut tables = Tables::zero();
    for place in 4..8 {
        tables.fill(Part::Class(place), |byte| match byte as u8 {
            b'A'..=b'Z' => 0x81,
            b'a'..=b'z' => 1,
            0xE0..=0xFA => 2,
            0xFF => 255,
            _ => 0,
        });
        tables.set(Part::Mark(place), 2, 1);
        tables.set(Part::Pair(place), 128 * 2 + 2, 10);
    }
    for (weight, value) in [(0, -3), (1, -5), (7, -7)] {
        tables.set(Part::Weight, weight, value);
    }
    tables
}

/// Weights of which no few give the same sum, and extras.
fn tell(tables: &mut Tables) {
    const WEIGHTS: [i64; 17] = [
        -3, -5, -7, 11, 13, 1009, 307, -2003, -40_009, 1201, 401, 101, -5003, -6007, -70_001,
        -80_021, -17,
    ];
    tables.fill(Part::Extra, |entry| (entry * 37 % 211) as i64 - 105);
    tables.fill(Part::Weight, |entry| WEIGHTS[entry]);
}

/// The demonstration's classes, weights that tell, and no entries but those
/// of which the named cases speak.
fn for_named() -> Tables {
    let mut tables = demo();
    tell(&mut tables);
    let big5 = |lead: usize, second: usize| {
        (lead - 0x81) * 157 + second - if second < 0x7F { 0x40 } else { 0x62 }
    };
    let euc_kr = |lead: usize, second: usize| (lead - 0x81) * 190 + second - 0x41;
    for second in [0x40, 0xFC, 0xFD, 0xFE] {
        tables.set(Part::Big5, big5(0xB0, second), 0x4E00);
    }
    for special in [0x62, 0x64, 0xA3, 0xA5] {
        tables.set(Part::Big5, big5(0x88, special), 0x4E00);
    }
    tables.set(Part::Big5, big5(0x88, 0x63), 0xE000);
    for (number, second) in [0xA1, 0x81, 0x82, 0x83, 0x84, 0x85].into_iter().enumerate() {
        tables.set(Part::EucKr, euc_kr(0xB0, second), 0xAC00 + number as i64);
    }
    tables.set(Part::EucKr, euc_kr(0x82, 0x41), 0xAC06);
    tables.set(Part::EucKr, euc_kr(0xC9, 0xA2), 0xE000);
    // The entries at which a range of code points ends; those beside private
    // use, and two in it, which are not asked; the last.
    for (pointer, entry) in [0x7F, 0x80, 0xD7FF, 0xD800, 0xDFFF, 0xE000, 0xFFFF, 0x1_0000]
        .into_iter()
        .enumerate()
        .chain([(8835, 0x4E00), (8837, 0xD800), (10_714, 0x1_0000), (10_716, 0x4E00)])
        .chain([(11_279, 0x4E00)])
    {
        tables.set(Part::Jis, pointer, entry);
    }
    tables
}

/// The demonstration's classes under the Standard's indexes, with weights that
/// tell.
pub fn standard(folder: &str) -> Result<Tables> {
    let mut tables = demo();
    for (part, file) in [
        (Part::Big5, "index-big5.u32le"),
        (Part::EucKr, "index-euc-kr.u32le"),
        (Part::Jis, "index-jis0208.u32le"),
    ] {
        let bytes = std::fs::read(format!("{folder}/{file}"))?;
        let (start, entries, width) = part.layout();
        let used = bytes.get(..entries * width).ok_or(Error::other(format!("{file}: short")))?;
        tables.bytes[start..start + used.len()].copy_from_slice(used);
    }
    tell(&mut tables);
    Ok(tables)
}

/// Index entries at which a range begins or ends.
const EDGES: [i64; 30] = [
    0, 1, 0x61, 0x7F, 0x80, 0xCA, 0x3000, 0x33FF, 0x3400, 0x4DFF, 0x4E00, 0x9FFF, 0xA000, 0xABFF,
    0xAC00, 0xD7A3, 0xD7A4, 0xD7FF, 0xD800, 0xDFFF, 0xE000, 0xF8FF, 0xF900, 0xFA0B, 0xFA0C, 0xFAFF,
    0xFB00, 0xFF1F, 0xFFFF, 0x1_0000,
];
const HIGH_EDGES: [i64; 6] = [0x1_FFFF, 0x2_0000, 0x2_FFFF, 0x3_0000, 0x7FFF_FFFF, 0xFFFF_FFFF];

/// Marks that the given text names one by one.
const PUNCTUATION: [i64; 9] =
    [0x3000, 0x3001, 0x3002, 0xFF01, 0xFF08, 0xFF09, 0xFF0C, 0xFF1B, 0xFF1F];

/// Anything that a table can hold, ends and edges above all.
fn random(seed: u64) -> Tables {
    let mut random = Random::new(seed);
    let mut tables = Tables::zero();
    for place in 4..8 {
        let classes = *random.pick(&[4, 16, 128]);
        tables.fill(Part::Class(place), |_| match random.below(24) {
            0 => 255,
            1 => 127,
            2..=8 => random.below(classes) as i64 | 0x80,
            _ => random.below(classes) as i64,
        });
        tables.fill(Part::Mark(place), |_| *random.pick(&[0, 0, 1, 255]));
        tables.fill(Part::Pair(place), |_| wide(&mut random, 16));
    }
    for part in [Part::Big5, Part::EucKr, Part::Jis] {
        tables.fill(part, |_| match random.below(8) {
            0 => *random.pick(&EDGES),
            1 => *random.pick(&HIGH_EDGES),
            2 => random.below(1 << 32) as i64,
            _ => mapped(&mut random),
        });
    }
    tables.fill(Part::Extra, |_| wide(&mut random, 16));
    tables.fill(Part::Weight, |_| wide(&mut random, 32));
    tables
}

/// A number of so many bits with its sign, often at either end.
fn wide(random: &mut Random, bits: u32) -> i64 {
    let size = 1 << (bits - 1);
    match random.below(4) {
        0 => -size,
        _ => random.signed(size - 1),
    }
}

/// A code point that every index may hold.
fn mapped(random: &mut Random) -> i64 {
    let mut within = |low: i64, high: i64| low + random.below((high - low) as u64 + 1) as i64;
    match within(0, 11) {
        0 => PUNCTUATION[within(0, 8) as usize],
        1 => within(0x80, 0x33FF),
        2 => within(0x3400, 0x4DFF),
        3 => within(0xE000, 0xFFFF),
        4 => within(0xF900, 0xFB00),
        5..=7 => within(0xAC00, 0xD7A3),
        _ => within(0x4E00, 0x9FFF),
    }
}

/// Random, but such that streams live long.
fn mild(seed: u64) -> Tables {
    let mut random = Random::new(seed);
    let mut tables = Tables::zero();
    for place in 4..8 {
        tables.fill(Part::Class(place), |byte| match byte as u8 {
            b'A'..=b'Z' => 0x81,
            b'a'..=b'z' => 1,
            0..=0x7F => *random.pick(&[0, 0, 0, 0x80, 2]),
            _ => mild_class(&mut random),
        });
        tables.fill(Part::Mark(place), |class| (class > 1 && !random.once_in(4)) as i64);
        tables.fill(Part::Pair(place), |_| random.signed(200));
    }
    for part in [Part::EucKr, Part::Jis, Part::Big5] {
        tables.fill(part, |_| match random.below(40) {
            0 => 0,
            1 => *random.pick(&EDGES),
            2..=4 if matches!(part, Part::Big5) => 0x2_0000 + random.below(0x1_0000) as i64,
            _ => mapped(&mut random),
        });
    }
    tables.fill(Part::Extra, |_| random.signed(300));
    tables.fill(Part::Weight, |_| random.signed(5000));
    tables
}

fn mild_class(random: &mut Random) -> i64 {
    match random.below(64) {
        0 => 255,
        1..=8 => 0,
        9..=12 => 1,
        13..=16 => 0x81,
        17..=24 => 0x82 + random.below(20) as i64,
        _ => 2 + random.below(20) as i64,
    }
}

/// Mild, with class 255 for the space, which the close feeds, and for some
/// more bytes of each place.
fn class255(seed: u64) -> Tables {
    let mut random = Random::new(seed);
    let mut tables = mild(seed);
    for place in 4..8 {
        tables.set(Part::Class(place), 0x20, 255);
        for _ in 0..12 {
            tables.set(Part::Class(place), usize::from(random.byte()), 255);
        }
    }
    tables
}

/// The demonstration data with class 255 for `z`, for the space, which the
/// close feeds, or for both.
fn ascii255() -> Tables {
    let mut tables = demo();
    for place in [4, 5, 7] {
        tables.set(Part::Class(place), usize::from(b'z'), 255);
    }
    for place in [4, 6, 7] {
        tables.set(Part::Class(place), usize::from(b' '), 255);
    }
    tables
}

/// The demonstration data with Hebrew before the other places. The letters
/// stand in three groups: logical and visual score alike on E0..EF, visual
/// more on F0..FA, caseless most on C0..CF. Logical lacks DE, visual lacks DF.
fn hebrew() -> Tables {
    let mut tables = demo();
    for (place, alike, more, most) in
        [(4, 5, 5, 20), (5, 10, 10, 10), (6, 10, 11, 10), (7, 4, 4, 4)]
    {
        for (letters, class, score) in
            [(0xE0..=0xEF, 2, alike), (0xF0..=0xFA, 3, more), (0xC0..=0xCF, 4, most)]
        {
            for letter in letters {
                tables.set(Part::Class(place), letter, class);
            }
            tables.set(Part::Mark(place), class as usize, 1);
            tables.set(Part::Pair(place), 128 * class as usize + class as usize, score);
        }
    }
    tables.set(Part::Class(5), 0xDE, 255);
    tables.set(Part::Class(6), 0xDF, 255);
    tables
}
