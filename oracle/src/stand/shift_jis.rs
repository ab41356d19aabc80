//! The Standard's Shift_JIS decoder, with its variable.

use super::Decoded;
use super::DecoderResult::{InputEmpty, Malformed, OutputFull};
use crate::lent;
use std::sync::atomic::Ordering::Relaxed;

pub struct ShiftJis {
    pub lead: u8,
}

enum Step {
    Continue,
    CodePoint(u16),
    Error,
}

impl ShiftJis {
    #[inline]
    fn step(&mut self, byte: u8) -> Step {
        if self.lead != 0 {
            let lead = std::mem::take(&mut self.lead);
            return pair(lead, byte);
        }
        match byte {
            0..=0x80 => Step::CodePoint(u16::from(byte)),
            0xA1..=0xDF => Step::CodePoint(0xFF61 - 0xA1 + u16::from(byte)),
            0x81..=0x9F | 0xE0..=0xFC => {
                self.lead = byte;
                Step::Continue
            }
            _ => Step::Error,
        }
    }

    pub fn decode(&mut self, src: &[u8], dst: &mut [u16], last: bool) -> Decoded {
        let mut written = 0;
        for (read, &byte) in src.iter().enumerate() {
            if written == dst.len() {
                return (OutputFull, read, written);
            }
            match self.step(byte) {
                Step::Continue => {}
                Step::CodePoint(unit) => {
                    dst[written] = unit;
                    written += 1;
                }
                // The Standard restores an ASCII byte that makes no pair. Here
                // nothing is asked after an error.
                Step::Error => return (Malformed(1, ()), read + 1, written),
            }
        }
        if last && self.lead != 0 {
            self.lead = 0;
            return (Malformed(1, ()), src.len(), written);
        }
        (InputEmpty, src.len(), written)
    }
}

fn pair(lead: u8, byte: u8) -> Step {
    let lead_offset = if lead < 0xA0 { 0x81 } else { 0xC1 };
    let offset = if byte < 0x7F { 0x40 } else { 0x41 };
    if !matches!(byte, 0x40..=0x7E | 0x80..=0xFC) {
        return Step::Error;
    }
    match usize::from(lead - lead_offset) * 188 + usize::from(byte - offset) {
        // Private use, whatever the index has there.
        pointer @ 8836..=10715 => Step::CodePoint(0xE000 + (pointer - 8836) as u16),
        pointer => match lent::JIS[pointer].load(Relaxed) {
            entry @ (0x80..=0xD7FF | 0xE000..=0xFFFF) => Step::CodePoint(entry as u16),
            _ => Step::Error,
        },
    }
}
