//! The lent data. One set stands here for all readers, and `load` fills it
//! anew in place, so that a stream under way goes on over new tables without
//! its references being turned. Relaxed atomics cost what plain loads cost.

use std::sync::atomic::{AtomicI16, AtomicI64, AtomicU32, AtomicU8, Ordering::Relaxed};

pub const CLASSES: usize = 256;
pub const MARKS: usize = 128;
pub const PAIRS: usize = 16_384;
pub const BIG5_ENTRIES: usize = 19_782;
pub const EUC_KR_ENTRIES: usize = 23_940;
pub const JIS_ENTRIES: usize = 11_280;
pub const EXTRAS: usize = 11_172;
pub const WEIGHTS: usize = 17;

// Where each part begins in the run of bytes; places 4 to 7 come first.
pub const SINGLE_SIZE: usize = CLASSES + MARKS + 2 * PAIRS;
pub const BIG5_AT: usize = 4 * SINGLE_SIZE;
pub const EUC_KR_AT: usize = BIG5_AT + 4 * BIG5_ENTRIES;
pub const JIS_AT: usize = EUC_KR_AT + 4 * EUC_KR_ENTRIES;
pub const EXTRAS_AT: usize = JIS_AT + 4 * JIS_ENTRIES;
pub const WEIGHTS_AT: usize = EXTRAS_AT + 2 * EXTRAS;
pub const SIZE: usize = WEIGHTS_AT + 4 * WEIGHTS;

/// The tables of one single-byte place, named as the given text names them.
pub struct SingleByteData {
    classes: [AtomicU8; CLASSES],
    marks: [AtomicU8; MARKS],
    pairs: [AtomicI16; PAIRS],
}

impl SingleByteData {
    const fn empty() -> Self {
        SingleByteData {
            classes: [const { AtomicU8::new(0) }; CLASSES],
            marks: [const { AtomicU8::new(0) }; MARKS],
            pairs: [const { AtomicI16::new(0) }; PAIRS],
        }
    }

    fn load(&self, bytes: &[u8]) {
        let (classes, rest) = bytes.split_at(CLASSES);
        let (marks, pairs) = rest.split_at(MARKS);
        store_bytes(&self.classes, classes);
        store_bytes(&self.marks, marks);
        store_i16(&self.pairs, pairs);
    }

    #[inline]
    pub fn classify(&self, byte: u8) -> u8 {
        self.classes[usize::from(byte)].load(Relaxed)
    }

    /// One mark table serves both of the flags: place 7's is filled as the
    /// flag set gives.
    #[inline]
    pub fn is_non_latin_alphabetic(&self, class: u8, _arabic_french: bool) -> bool {
        self.marks[usize::from(class)].load(Relaxed) != 0
    }

    #[inline]
    pub fn score(&self, current: u8, previous: u8, _arabic_french: bool) -> i64 {
        let entry = 128 * usize::from(current) + usize::from(previous);
        i64::from(self.pairs[entry].load(Relaxed))
    }
}

/// Places 4 to 7.
pub static SINGLE: [SingleByteData; 4] = [const { SingleByteData::empty() }; 4];
pub static BIG5: [AtomicU32; BIG5_ENTRIES] = [const { AtomicU32::new(0) }; BIG5_ENTRIES];
pub static EUC_KR: [AtomicU32; EUC_KR_ENTRIES] = [const { AtomicU32::new(0) }; EUC_KR_ENTRIES];
pub static JIS: [AtomicU32; JIS_ENTRIES] = [const { AtomicU32::new(0) }; JIS_ENTRIES];
pub static HANGUL: [AtomicI16; EXTRAS] = [const { AtomicI16::new(0) }; EXTRAS];
static WEIGHT: [AtomicI64; WEIGHTS] = [const { AtomicI64::new(0) }; WEIGHTS];

/// The weight with this number in document 01's list.
#[inline]
pub fn weight(number: usize) -> i64 {
    WEIGHT[number].load(Relaxed)
}

/// Takes over one run of `SIZE` bytes.
pub fn load(bytes: &[u8]) {
    assert_eq!(bytes.len(), SIZE);
    for (single, part) in SINGLE.iter().zip(bytes.chunks_exact(SINGLE_SIZE)) {
        single.load(part);
    }
    store_u32(&BIG5, &bytes[BIG5_AT..EUC_KR_AT]);
    store_u32(&EUC_KR, &bytes[EUC_KR_AT..JIS_AT]);
    store_u32(&JIS, &bytes[JIS_AT..EXTRAS_AT]);
    store_i16(&HANGUL, &bytes[EXTRAS_AT..WEIGHTS_AT]);
    for (weight, part) in WEIGHT.iter().zip(bytes[WEIGHTS_AT..].chunks_exact(4)) {
        let number = i32::from_le_bytes(part.try_into().unwrap());
        weight.store(i64::from(number), Relaxed);
    }
}

fn store_bytes(to: &[AtomicU8], bytes: &[u8]) {
    for (entry, &byte) in to.iter().zip(bytes) {
        entry.store(byte, Relaxed);
    }
}

fn store_i16(to: &[AtomicI16], bytes: &[u8]) {
    for (entry, part) in to.iter().zip(bytes.chunks_exact(2)) {
        entry.store(i16::from_le_bytes(part.try_into().unwrap()), Relaxed);
    }
}

fn store_u32(to: &[AtomicU32], bytes: &[u8]) {
    for (entry, part) in to.iter().zip(bytes.chunks_exact(4)) {
        entry.store(u32::from_le_bytes(part.try_into().unwrap()), Relaxed);
    }
}
