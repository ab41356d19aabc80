//! The Standard's Big5: what a lead and a second byte give.

use crate::lent;
use std::sync::atomic::Ordering::Relaxed;

#[inline]
pub fn look_up(lead: u8, byte: u8, dst: &mut [u16]) -> usize {
    let offset = if byte < 0x7F { 0x40 } else { 0x62 };
    if !matches!(byte, 0x40..=0x7E | 0xA1..=0xFE) {
        return 0;
    }
    let pointer = usize::from(lead - 0x81) * 157 + usize::from(byte - offset);
    let units = match pointer {
        1133 => [0x00CA, 0x0304],
        1135 => [0x00CA, 0x030C],
        1164 => [0x00EA, 0x0304],
        1166 => [0x00EA, 0x030C],
        _ => match lent::BIG5[pointer].load(Relaxed) {
            entry @ (0x80..=0xD7FF | 0xE000..=0xFFFF) => {
                dst[0] = entry as u16;
                return 1;
            }
            entry @ 0x2_0000..=0x2_FFFF => surrogates(entry),
            _ => return 0,
        },
    };
    dst[..2].copy_from_slice(&units);
    2
}

fn surrogates(code_point: u32) -> [u16; 2] {
    let above = code_point - 0x1_0000;
    [0xD800 + (above >> 10) as u16, 0xDC00 + (above & 0x3FF) as u16]
}
