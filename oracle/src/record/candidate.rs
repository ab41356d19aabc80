//! A given candidate made from a record that is in order.

use super::Record;
use crate::lent::{SingleByteData, SINGLE};
use crate::order::fresh;
use crate::stand::iso_2022_jp::{Iso2022Jp, State};
use crate::stand::{pairs::Pairs, shift_jis::ShiftJis, utf_8::Utf8, Decoder};
use crate::{
    ArabicFrenchCandidate, Big5Candidate, Candidate, CaselessCandidate, EucKrCandidate,
    InnerCandidate, Iso2022Candidate, LatinCaseState, LatinCj, LatinKorean, LogicalCandidate,
    ShiftJisCandidate, Utf8Candidate, VisualCandidate,
};

impl Record {
    /// The candidate of this place with this record; a fresh one without a
    /// score if the record has none.
    pub fn candidate(&self, place: u8) -> Candidate {
        match self.live {
            true => Candidate { inner: self.inner(place), score: Some(self.score) },
            false => Candidate { inner: fresh(place).inner(place), score: None },
        }
    }

    fn inner(&self, place: u8) -> InnerCandidate {
        let single = |place: u8| &SINGLE[usize::from(place - 4)];
        match place {
            0 => self.utf_8(),
            1 => self.iso_2022_jp(),
            2 => self.euc_kr(),
            3 => self.big5(),
            4 => self.caseless(single(place)),
            5 => self.logical(single(place)),
            6 => self.visual(single(place)),
            7 => self.arabic_french(single(place)),
            _ => self.shift_jis(),
        }
    }

    fn held(&self) -> Option<i64> {
        (self.e != 0).then_some(self.z)
    }

    fn utf_8(&self) -> InnerCandidate {
        let decoder = Decoder::Utf8(Utf8::within(self.a, self.b, self.c));
        InnerCandidate::Utf8(Utf8Candidate { decoder })
    }

    fn iso_2022_jp(&self) -> InnerCandidate {
        let decoder = Decoder::Iso2022Jp(Iso2022Jp {
            state: State::ALL[usize::from(self.a)],
            output_state: State::ALL[usize::from(self.b)],
            lead: self.c,
            output: self.d != 0,
        });
        InnerCandidate::Iso2022(Iso2022Candidate { decoder })
    }

    fn euc_kr(&self) -> InnerCandidate {
        InnerCandidate::EucKr(EucKrCandidate {
            decoder: Decoder::EucKr(Pairs { lead: self.a }),
            prev_byte: self.b,
            prev_was_euc_range: self.c != 0,
            prev: match self.d {
                0 => LatinKorean::AsciiLetter,
                1 => LatinKorean::Hangul,
                2 => LatinKorean::Hanja,
                _ => LatinKorean::Other,
            },
            current_word_len: self.x,
            pending_score: self.held(),
        })
    }

    fn big5(&self) -> InnerCandidate {
        InnerCandidate::Big5(Big5Candidate {
            decoder: Decoder::Big5(Pairs { lead: self.a }),
            prev: match self.d {
                0 => LatinCj::AsciiLetter,
                1 => LatinCj::Cj,
                _ => LatinCj::Other,
            },
            prev_byte: self.b,
            pending_score: self.held(),
        })
    }

    fn caseless(&self, data: &'static SingleByteData) -> InnerCandidate {
        InnerCandidate::Caseless(CaselessCandidate {
            data,
            prev: self.a,
            prev_ascii: self.b != 0,
            current_word_len: self.x,
            longest_word: self.y,
        })
    }

    fn logical(&self, data: &'static SingleByteData) -> InnerCandidate {
        InnerCandidate::Logical(LogicalCandidate {
            data,
            prev: self.a,
            prev_ascii: self.b != 0,
            plausible_punctuation: self.z as u64,
            current_word_len: self.x,
            longest_word: self.y,
        })
    }

    fn visual(&self, data: &'static SingleByteData) -> InnerCandidate {
        InnerCandidate::Visual(VisualCandidate {
            data,
            prev: self.a,
            prev_ascii: self.b != 0,
            prev_punctuation: self.c != 0,
            plausible_punctuation: self.z as u64,
            current_word_len: self.x,
            longest_word: self.y,
        })
    }

    fn arabic_french(&self, data: &'static SingleByteData) -> InnerCandidate {
        InnerCandidate::ArabicFrench(ArabicFrenchCandidate {
            data,
            prev: self.a,
            case_state: match self.c {
                0 => LatinCaseState::Space,
                1 => LatinCaseState::Upper,
                2 => LatinCaseState::Lower,
                _ => LatinCaseState::AllCaps,
            },
            prev_ascii: self.b != 0,
            current_word_len: self.x,
            longest_word: self.y,
        })
    }

    fn shift_jis(&self) -> InnerCandidate {
        let decoder = Decoder::ShiftJis(ShiftJis { lead: self.a });
        InnerCandidate::Shift(ShiftJisCandidate { decoder })
    }
}
