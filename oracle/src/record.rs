//! One place's record as 40 bytes.

mod candidate;
mod of;

use crate::reason::Reason;

pub const SIZE: usize = 40;

/// README.md says what the fields mean for each place.
#[derive(Clone, Copy, Default, PartialEq)]
pub struct Record {
    pub live: bool,
    pub a: u8,
    pub b: u8,
    pub c: u8,
    pub d: u8,
    pub e: u8,
    pub score: i64,
    pub x: u64,
    pub y: u64,
    pub z: i64,
}

impl Record {
    /// Of a place without a score, and the place of the byte that failed.
    pub fn none(reason: Reason, at: u64) -> Self {
        Record { a: reason as u8, x: at, ..Record::default() }
    }

    pub fn to_bytes(self) -> [u8; SIZE] {
        let mut bytes = [0; SIZE];
        bytes[..6].copy_from_slice(&[self.live as u8, self.a, self.b, self.c, self.d, self.e]);
        bytes[8..16].copy_from_slice(&self.score.to_le_bytes());
        bytes[16..24].copy_from_slice(&self.x.to_le_bytes());
        bytes[24..32].copy_from_slice(&self.y.to_le_bytes());
        bytes[32..].copy_from_slice(&self.z.to_le_bytes());
        bytes
    }

    pub fn from_bytes(bytes: &[u8; SIZE]) -> Self {
        let number = |at: usize| u64::from_le_bytes(bytes[at..at + 8].try_into().unwrap());
        Record {
            live: bytes[0] != 0,
            a: bytes[1],
            b: bytes[2],
            c: bytes[3],
            d: bytes[4],
            e: bytes[5],
            score: number(8) as i64,
            x: number(16),
            y: number(24),
            z: number(32) as i64,
        }
    }
}
