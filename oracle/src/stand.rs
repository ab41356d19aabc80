//! What stands for the data module, `encoding_rs` and `memchr`, under the
//! names that the given text uses. None of this is the Rust being compared.

pub mod big5;
pub mod euc_kr;
pub mod iso_2022_jp;
pub mod pairs;
pub mod shift_jis;
pub mod utf_8;

use iso_2022_jp::Iso2022Jp;
use pairs::Pairs;
use shift_jis::ShiftJis;
use utf_8::Utf8;

pub enum DecoderResult {
    InputEmpty,
    OutputFull,
    /// The length of the bad sequence. What the second field tells in
    /// `encoding_rs` the given feeds never ask.
    Malformed(u8, ()),
}

/// Result, bytes read, units written.
pub type Decoded = (DecoderResult, usize, usize);

pub enum Decoder {
    Utf8(Utf8),
    Iso2022Jp(Iso2022Jp),
    Big5(Pairs),
    EucKr(Pairs),
    ShiftJis(ShiftJis),
}

/// Never inlined, for they stand for calls into another crate.
impl Decoder {
    #[inline(never)]
    pub fn decode_to_utf8_without_replacement(
        &mut self,
        src: &[u8],
        dst: &mut [u8],
        last: bool,
    ) -> Decoded {
        match self {
            Decoder::Utf8(decoder) => decoder.decode(src, dst, last),
            _ => unreachable!("only UTF-8 is decoded to UTF-8"),
        }
    }

    #[inline(never)]
    pub fn decode_to_utf16_without_replacement(
        &mut self,
        src: &[u8],
        dst: &mut [u16],
        last: bool,
    ) -> Decoded {
        match self {
            Decoder::Utf8(_) => unreachable!("UTF-8 is decoded to UTF-8"),
            Decoder::Iso2022Jp(decoder) => decoder.decode(src, dst, last),
            Decoder::Big5(decoder) => decoder.decode(big5::look_up, src, dst, last),
            Decoder::EucKr(decoder) => decoder.decode(euc_kr::look_up, src, dst, last),
            Decoder::ShiftJis(decoder) => decoder.decode(src, dst, last),
        }
    }
}

pub enum Encoding {
    Utf8,
    Iso2022Jp,
    Big5,
    EucKr,
    ShiftJis,
}

pub static UTF_8: Encoding = Encoding::Utf8;
pub static ISO_2022_JP: Encoding = Encoding::Iso2022Jp;
pub static BIG5: Encoding = Encoding::Big5;
pub static EUC_KR: Encoding = Encoding::EucKr;
pub static SHIFT_JIS: Encoding = Encoding::ShiftJis;

impl Encoding {
    pub fn new_decoder_without_bom_handling(&self) -> Decoder {
        match self {
            Encoding::Utf8 => Decoder::Utf8(Utf8::new()),
            Encoding::Iso2022Jp => Decoder::Iso2022Jp(Iso2022Jp::new()),
            Encoding::Big5 => Decoder::Big5(Pairs { lead: 0 }),
            Encoding::EucKr => Decoder::EucKr(Pairs { lead: 0 }),
            Encoding::ShiftJis => Decoder::ShiftJis(ShiftJis { lead: 0 }),
        }
    }

    /// How many bytes come before the first non-ASCII one.
    pub fn ascii_valid_up_to(bytes: &[u8]) -> usize {
        let found = bytes.iter().position(|byte| !byte.is_ascii());
        found.unwrap_or(bytes.len())
    }
}

pub mod memchr {
    pub fn memchr(needle: u8, haystack: &[u8]) -> Option<usize> {
        haystack.iter().position(|&byte| byte == needle)
    }
}

pub mod data {
    use crate::lent;
    use std::sync::atomic::AtomicI16;

    pub type Extras = [AtomicI16; lent::EXTRAS];

    pub struct DetectorData {
        pub frequent_hangul: &'static Extras,
    }

    pub static DETECTOR_DATA: DetectorData = DetectorData { frequent_hangul: &lent::HANGUL };
}

/// The given function ranks the most frequent syllables; the lent extras say
/// for every syllable what it adds.
#[inline]
pub fn cjk_extra_score(u: u16, table: &'static data::Extras) -> i64 {
    let entry = usize::from(u) - 0xAC00;
    i64::from(table[entry].load(std::sync::atomic::Ordering::Relaxed))
}
