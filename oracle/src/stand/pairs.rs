//! What the Standard's Big5 and EUC-KR decoders share: lead, ASCII, errors.
//! What a pair of bytes means they ask of `look_up`.

use super::Decoded;
use super::DecoderResult::{InputEmpty, Malformed, OutputFull};

pub struct Pairs {
    pub lead: u8,
}

impl Pairs {
    /// `look_up` takes lead and second byte, writes the pair's UTF-16 units
    /// and says how many, 0 if the bytes make no pair.
    ///
    /// The Standard restores an ASCII byte that makes no pair: it counts as
    /// not read. The given feeds do not deliver it again, so it is dropped.
    #[inline]
    pub fn decode(
        &mut self,
        look_up: impl Fn(u8, u8, &mut [u16]) -> usize,
        src: &[u8],
        dst: &mut [u16],
        last: bool,
    ) -> Decoded {
        let mut written = 0;
        for (read, &byte) in src.iter().enumerate() {
            if dst.len() - written < 2 {
                return (OutputFull, read, written);
            }
            if self.lead != 0 {
                let lead = std::mem::take(&mut self.lead);
                match look_up(lead, byte, &mut dst[written..]) {
                    0 if byte.is_ascii() => return (Malformed(1, ()), read, written),
                    0 => return (Malformed(2, ()), read + 1, written),
                    units => written += units,
                }
            } else if byte.is_ascii() {
                dst[written] = u16::from(byte);
                written += 1;
            } else if matches!(byte, 0x81..=0xFE) {
                self.lead = byte;
            } else {
                return (Malformed(1, ()), read + 1, written);
            }
        }
        if last && self.lead != 0 {
            self.lead = 0;
            return (Malformed(1, ()), src.len(), written);
        }
        (InputEmpty, src.len(), written)
    }
}
