//! The Standard's ISO-2022-JP decoder, with its variables.

use super::Decoded;
use super::DecoderResult::{InputEmpty, Malformed, OutputFull};
use crate::lent;
use std::sync::atomic::Ordering::Relaxed;

/// The Standard's decoder states; the first four are its output states too.
#[derive(Clone, Copy, PartialEq)]
pub enum State {
    Ascii,
    Roman,
    Katakana,
    LeadByte,
    TrailByte,
    EscapeStart,
    Escape,
}

impl State {
    /// By their numbers in a record.
    pub const ALL: [State; 7] = [
        State::Ascii,
        State::Roman,
        State::Katakana,
        State::LeadByte,
        State::TrailByte,
        State::EscapeStart,
        State::Escape,
    ];
}

pub struct Iso2022Jp {
    pub state: State,
    pub output_state: State,
    pub lead: u8,
    pub output: bool,
}

enum Step {
    Continue,
    CodePoint(u16),
    Error,
}

impl Iso2022Jp {
    pub fn new() -> Self {
        let (state, output_state) = (State::Ascii, State::Ascii);
        Iso2022Jp { state, output_state, lead: 0, output: false }
    }

    #[inline]
    fn step(&mut self, byte: u8) -> Step {
        match self.state {
            State::Ascii if byte != 0x1B => self.text(byte, u16::from(byte)),
            State::Roman if byte != 0x1B => self.text(byte, roman(byte)),
            State::Katakana if byte != 0x1B => self.katakana(byte),
            State::LeadByte if byte != 0x1B => self.lead_byte(byte),
            State::TrailByte => self.trail_byte(byte),
            State::EscapeStart => self.escape_start(byte),
            State::Escape => self.escape(byte),
            _ => {
                self.state = State::EscapeStart;
                Step::Continue
            }
        }
    }

    /// ASCII and Roman, which differ in two code points.
    #[inline]
    fn text(&mut self, byte: u8, code_point: u16) -> Step {
        self.output = false;
        match byte {
            0x0E | 0x0F | 0x80..=0xFF => Step::Error,
            _ => Step::CodePoint(code_point),
        }
    }

    fn katakana(&mut self, byte: u8) -> Step {
        self.output = false;
        match byte {
            0x21..=0x5F => Step::CodePoint(0xFF61 - 0x21 + u16::from(byte)),
            _ => Step::Error,
        }
    }

    fn lead_byte(&mut self, byte: u8) -> Step {
        self.output = false;
        match byte {
            0x21..=0x7E => {
                self.lead = byte;
                self.state = State::TrailByte;
                Step::Continue
            }
            _ => Step::Error,
        }
    }

    #[inline]
    fn trail_byte(&mut self, byte: u8) -> Step {
        if byte == 0x1B {
            self.state = State::EscapeStart;
            return Step::Error;
        }
        self.state = State::LeadByte;
        if !matches!(byte, 0x21..=0x7E) {
            return Step::Error;
        }
        // The Standard leaves the lead, which nothing reads before it is set
        // anew; a record shows it only while it waits.
        let lead = std::mem::take(&mut self.lead);
        let pointer = usize::from(lead - 0x21) * 94 + usize::from(byte - 0x21);
        match lent::JIS[pointer].load(Relaxed) {
            entry @ (0x80..=0xD7FF | 0xE000..=0xFFFF) => Step::CodePoint(entry as u16),
            _ => Step::Error,
        }
    }

    fn escape_start(&mut self, byte: u8) -> Step {
        if matches!(byte, 0x24 | 0x28) {
            self.lead = byte;
            self.state = State::Escape;
            return Step::Continue;
        }
        self.give_up()
    }

    fn escape(&mut self, byte: u8) -> Step {
        let state = match (std::mem::take(&mut self.lead), byte) {
            (0x28, 0x42) => State::Ascii,
            (0x28, 0x4A) => State::Roman,
            (0x28, 0x49) => State::Katakana,
            (0x24, 0x40 | 0x42) => State::LeadByte,
            _ => return self.give_up(),
        };
        self.state = state;
        self.output_state = state;
        match std::mem::replace(&mut self.output, true) {
            true => Step::Error,
            false => Step::Continue,
        }
    }

    /// Not an escape after all: back to the output state.
    fn give_up(&mut self) -> Step {
        self.output = false;
        self.state = self.output_state;
        Step::Error
    }

    /// Whether the end of the stream here is an error.
    fn unfinished(&self) -> bool {
        matches!(self.state, State::TrailByte | State::EscapeStart | State::Escape)
    }

    pub fn decode(&mut self, src: &[u8], dst: &mut [u16], last: bool) -> Decoded {
        let mut written = 0;
        for (read, &byte) in src.iter().enumerate() {
            if written == dst.len() {
                return (OutputFull, read, written);
            }
            match self.step(byte) {
                Step::Continue => {}
                Step::CodePoint(unit) => {
                    dst[written] = unit;
                    written += 1;
                }
                // The given feed asks neither for the length nor what was read.
                Step::Error => return (Malformed(1, ()), read + 1, written),
            }
        }
        if last && self.unfinished() {
            return (Malformed(1, ()), src.len(), written);
        }
        (InputEmpty, src.len(), written)
    }
}

fn roman(byte: u8) -> u16 {
    match byte {
        0x5C => 0x00A5,
        0x7E => 0x203E,
        _ => u16::from(byte),
    }
}
