//! Why a place has no score. The Rust says only that it has none; this is
//! worked out from the record that the place had before the byte.

use crate::order::SHIFT_JIS;
use crate::record::Record;

/// The numbers are those of a record's second byte.
#[derive(Clone, Copy, PartialEq)]
pub enum Reason {
    Class255 = 1,
    BadByte,
    BadSecondByte,
    BrokenEscape,
    CutAtClose,
    NotInSlate,
}

impl Reason {
    pub const ALL: [Reason; 6] = [
        Reason::Class255,
        Reason::BadByte,
        Reason::BadSecondByte,
        Reason::BrokenEscape,
        Reason::CutAtClose,
        Reason::NotInSlate,
    ];

    pub fn of_number(number: u8) -> Option<Reason> {
        Reason::ALL.into_iter().find(|&reason| reason as u8 == number)
    }

    pub fn name(self) -> &'static str {
        match self {
            Reason::Class255 => "class-255",
            Reason::BadByte => "bad-byte",
            Reason::BadSecondByte => "bad-second-byte",
            Reason::BrokenEscape => "broken-escape",
            Reason::CutAtClose => "cut-at-close",
            Reason::NotInSlate => "not-in-slate",
        }
    }

    /// Whether a place of this kind can have it.
    pub fn fits(self, place: u8) -> bool {
        match self {
            Reason::Class255 => single_byte(place),
            Reason::BadByte | Reason::CutAtClose => !single_byte(place),
            Reason::BadSecondByte => matches!(place, 2 | 3),
            Reason::BrokenEscape => place == 1,
            Reason::NotInSlate => true,
        }
    }

    /// Of a byte that fails after this record.
    pub fn of_byte(place: u8, before: &Record) -> Reason {
        match place {
            0 | SHIFT_JIS => Reason::BadByte,
            1 if in_escape(before) => Reason::BrokenEscape,
            1 => Reason::BadByte,
            2 | 3 if lead_waits(before) => Reason::BadSecondByte,
            2 | 3 => Reason::BadByte,
            _ => Reason::Class255,
        }
    }
}

fn single_byte(place: u8) -> bool {
    matches!(place, 4..=7)
}

/// ISO-2022-JP: the escape byte has come, and perhaps the one after it. A byte
/// that fails here does not go on with it, or ends it straight after another.
fn in_escape(before: &Record) -> bool {
    matches!(before.a, 5 | 6)
}

/// EUC-KR and Big5.
fn lead_waits(before: &Record) -> bool {
    before.a != 0
}

/// The record of a place that fails at the close of so many bytes: for the
/// single-byte places by the space, which is one byte more.
pub fn at_close(place: u8, bytes: u64) -> Record {
    match single_byte(place) {
        true => Record::none(Reason::Class255, bytes + 1),
        false => Record::none(Reason::CutAtClose, bytes),
    }
}
