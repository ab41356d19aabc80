//! A given candidate read into its record.

use super::Record;
use crate::stand::Decoder;
use crate::{
    ArabicFrenchCandidate, Big5Candidate, Candidate, CaselessCandidate, EucKrCandidate,
    InnerCandidate, Iso2022Candidate, LatinCaseState, LatinCj, LatinKorean, LogicalCandidate,
    ShiftJisCandidate, Utf8Candidate, VisualCandidate,
};

impl Record {
    /// `None` if the candidate has no score.
    pub fn of(candidate: &Candidate) -> Option<Self> {
        let score = candidate.score?;
        let fields = match &candidate.inner {
            InnerCandidate::Utf8(c) => of_utf_8(c),
            InnerCandidate::Iso2022(c) => of_iso_2022_jp(c),
            InnerCandidate::EucKr(c) => of_euc_kr(c),
            InnerCandidate::Big5(c) => of_big5(c),
            InnerCandidate::Caseless(c) => of_caseless(c),
            InnerCandidate::Logical(c) => of_logical(c),
            InnerCandidate::Visual(c) => of_visual(c),
            InnerCandidate::ArabicFrench(c) => of_arabic_french(c),
            InnerCandidate::Shift(c) => of_shift_jis(c),
        };
        Some(Record { live: true, score, ..fields })
    }
}

fn of_utf_8(c: &Utf8Candidate) -> Record {
    let Decoder::Utf8(decoder) = &c.decoder else { unreachable!() };
    let (a, b, c) = (decoder.needed - decoder.seen, decoder.lower, decoder.upper);
    Record { a, b, c, ..Record::default() }
}

fn of_iso_2022_jp(c: &Iso2022Candidate) -> Record {
    let Decoder::Iso2022Jp(decoder) = &c.decoder else { unreachable!() };
    let (a, b) = (decoder.state as u8, decoder.output_state as u8);
    Record { a, b, c: decoder.lead, d: decoder.output as u8, ..Record::default() }
}

fn lead(decoder: &Decoder) -> u8 {
    match decoder {
        Decoder::Big5(pairs) | Decoder::EucKr(pairs) => pairs.lead,
        Decoder::ShiftJis(decoder) => decoder.lead,
        _ => unreachable!(),
    }
}

fn of_euc_kr(c: &EucKrCandidate) -> Record {
    Record {
        a: lead(&c.decoder),
        b: c.prev_byte,
        c: c.prev_was_euc_range as u8,
        d: match c.prev {
            LatinKorean::AsciiLetter => 0,
            LatinKorean::Hangul => 1,
            LatinKorean::Hanja => 2,
            LatinKorean::Other => 3,
        },
        e: c.pending_score.is_some() as u8,
        x: c.current_word_len,
        z: c.pending_score.unwrap_or(0),
        ..Record::default()
    }
}

fn of_big5(c: &Big5Candidate) -> Record {
    Record {
        a: lead(&c.decoder),
        b: c.prev_byte,
        d: match c.prev {
            LatinCj::AsciiLetter => 0,
            LatinCj::Cj => 1,
            LatinCj::Other => 2,
        },
        e: c.pending_score.is_some() as u8,
        z: c.pending_score.unwrap_or(0),
        ..Record::default()
    }
}

fn of_caseless(c: &CaselessCandidate) -> Record {
    let (x, y) = (c.current_word_len, c.longest_word);
    Record { a: c.prev, b: c.prev_ascii as u8, x, y, ..Record::default() }
}

fn of_logical(c: &LogicalCandidate) -> Record {
    let (x, y, z) = (c.current_word_len, c.longest_word, c.plausible_punctuation as i64);
    Record { a: c.prev, b: c.prev_ascii as u8, x, y, z, ..Record::default() }
}

fn of_visual(c: &VisualCandidate) -> Record {
    Record {
        a: c.prev,
        b: c.prev_ascii as u8,
        c: c.prev_punctuation as u8,
        x: c.current_word_len,
        y: c.longest_word,
        z: c.plausible_punctuation as i64,
        ..Record::default()
    }
}

fn of_arabic_french(c: &ArabicFrenchCandidate) -> Record {
    Record {
        a: c.prev,
        b: c.prev_ascii as u8,
        c: match c.case_state {
            LatinCaseState::Space => 0,
            LatinCaseState::Upper => 1,
            LatinCaseState::Lower => 2,
            LatinCaseState::AllCaps => 3,
        },
        x: c.current_word_len,
        y: c.longest_word,
        ..Record::default()
    }
}

fn of_shift_jis(c: &ShiftJisCandidate) -> Record {
    Record { a: lead(&c.decoder), ..Record::default() }
}
