//! One place alone, which is fed byte by byte, so that the byte is known by
//! which it drops out.

use crate::reason::{at_close, Reason};
use crate::record::Record;
use crate::Candidate;

pub struct Alone {
    place: u8,
    candidate: Candidate,
    record: Record,
}

impl Alone {
    pub fn start(place: u8, record: &Record) -> Self {
        Alone { place, candidate: record.candidate(place), record: *record }
    }

    /// The record after a byte; `at` is the byte's place.
    pub fn byte(&mut self, byte: u8, at: u64) -> Record {
        if self.record.live {
            self.candidate.feed(&[byte], false);
            self.record = Record::of(&self.candidate)
                .unwrap_or_else(|| Record::none(Reason::of_byte(self.place, &self.record), at));
        }
        self.record
    }

    /// The record after the close of so many bytes.
    pub fn close(&mut self, bytes: u64) -> Record {
        if self.record.live {
            self.candidate.feed(&[], true);
            self.record =
                Record::of(&self.candidate).unwrap_or_else(|| at_close(self.place, bytes));
        }
        self.record
    }
}

/// The record at the end of bytes with their places, and of the close if
/// `close` says how many bytes it closes.
pub fn end(
    place: u8,
    start: &Record,
    bytes: impl Iterator<Item = (u8, u64)>,
    close: Option<u64>,
) -> Record {
    let mut alone = Alone::start(place, start);
    for (byte, at) in bytes {
        if !alone.byte(byte, at).live {
            return alone.record;
        }
    }
    if let Some(count) = close {
        alone.close(count);
    }
    alone.record
}
