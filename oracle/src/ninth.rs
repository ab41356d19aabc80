//! The ninth place, a validator of Shift_JIS. The given text has none, for its
//! own candidate of that name scores; this one is in that one's place, is made
//! as the validators of UTF-8 and ISO-2022-JP are, and is fed as they are.

use crate::stand::{Decoder, DecoderResult, SHIFT_JIS};

pub struct ShiftJisCandidate {
    pub decoder: Decoder,
}

impl ShiftJisCandidate {
    pub fn new() -> Self {
        ShiftJisCandidate { decoder: SHIFT_JIS.new_decoder_without_bom_handling() }
    }

    pub fn feed(&mut self, buffer: &[u8], last: bool) -> Option<i64> {
        let mut dst = [0u16; 1024];
        let mut rest = buffer;
        loop {
            let (result, read, _) =
                self.decoder.decode_to_utf16_without_replacement(rest, &mut dst, last);
            rest = &rest[read..];
            match result {
                DecoderResult::InputEmpty => return Some(0),
                DecoderResult::Malformed(_, _) => return None,
                DecoderResult::OutputFull => continue,
            }
        }
    }
}
