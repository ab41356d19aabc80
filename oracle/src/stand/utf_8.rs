//! The Standard's UTF-8 decoder, with its variables.

use super::Decoded;
use super::DecoderResult::{InputEmpty, Malformed, OutputFull};

pub struct Utf8 {
    pub needed: u8,
    pub seen: u8,
    pub lower: u8,
    pub upper: u8,
    code_point: u32,
}

enum Step {
    Continue,
    CodePoint(u32),
    Error,
}

impl Utf8 {
    pub fn new() -> Self {
        Utf8::within(0, 0x80, 0xBF)
    }

    /// In the midst of a sequence that still needs `needed` bytes. Its code
    /// point is unknown, which only what is written could tell.
    pub fn within(needed: u8, lower: u8, upper: u8) -> Self {
        Utf8 { needed, seen: 0, lower, upper, code_point: 0 }
    }

    #[inline]
    fn first(&mut self, byte: u8) -> Step {
        match byte {
            0..=0x7F => return Step::CodePoint(u32::from(byte)),
            0xC2..=0xDF => {
                self.needed = 1;
                self.code_point = u32::from(byte & 0x1F);
            }
            0xE0..=0xEF => {
                match byte {
                    0xE0 => self.lower = 0xA0,
                    0xED => self.upper = 0x9F,
                    _ => {}
                }
                self.needed = 2;
                self.code_point = u32::from(byte & 0xF);
            }
            0xF0..=0xF4 => {
                match byte {
                    0xF0 => self.lower = 0x90,
                    0xF4 => self.upper = 0x8F,
                    _ => {}
                }
                self.needed = 3;
                self.code_point = u32::from(byte & 0x7);
            }
            _ => return Step::Error,
        }
        Step::Continue
    }

    #[inline]
    fn step(&mut self, byte: u8) -> Step {
        if self.needed == 0 {
            return self.first(byte);
        }
        if !(self.lower..=self.upper).contains(&byte) {
            *self = Utf8::new();
            return Step::Error;
        }
        self.lower = 0x80;
        self.upper = 0xBF;
        self.code_point = self.code_point << 6 | u32::from(byte & 0x3F);
        self.seen += 1;
        if self.seen != self.needed {
            return Step::Continue;
        }
        let code_point = self.code_point;
        *self = Utf8::new();
        Step::CodePoint(code_point)
    }

    pub fn decode(&mut self, src: &[u8], dst: &mut [u8], last: bool) -> Decoded {
        let mut written = 0;
        for (read, &byte) in src.iter().enumerate() {
            if dst.len() - written < 4 {
                return (OutputFull, read, written);
            }
            match self.step(byte) {
                Step::Continue => {}
                Step::CodePoint(code_point) => written += write(code_point, &mut dst[written..]),
                // The given feed asks neither for the length nor what was read.
                Step::Error => return (Malformed(1, ()), read + 1, written),
            }
        }
        if last && self.needed != 0 {
            self.needed = 0;
            return (Malformed(1, ()), src.len(), written);
        }
        (InputEmpty, src.len(), written)
    }
}

#[inline]
fn write(code_point: u32, dst: &mut [u8]) -> usize {
    let trail = |shift: u32| 0x80 | (code_point >> shift & 0x3F) as u8;
    match code_point {
        0..=0x7F => dst[0] = code_point as u8,
        0x80..=0x7FF => dst[..2].copy_from_slice(&[0xC0 | (code_point >> 6) as u8, trail(0)]),
        0x800..=0xFFFF => {
            let lead = 0xE0 | (code_point >> 12) as u8;
            dst[..3].copy_from_slice(&[lead, trail(6), trail(0)]);
        }
        _ => {
            let lead = 0xF0 | (code_point >> 18) as u8;
            dst[..4].copy_from_slice(&[lead, trail(12), trail(6), trail(0)]);
        }
    }
    match code_point {
        0..=0x7F => 1,
        0x80..=0x7FF => 2,
        0x800..=0xFFFF => 3,
        _ => 4,
    }
}
