//! The Standard's EUC-KR: what a lead and a second byte give.

use crate::lent;
use std::sync::atomic::Ordering::Relaxed;

#[inline]
pub fn look_up(lead: u8, byte: u8, dst: &mut [u16]) -> usize {
    if !matches!(byte, 0x41..=0xFE) {
        return 0;
    }
    let pointer = usize::from(lead - 0x81) * 190 + usize::from(byte - 0x41);
    match lent::EUC_KR[pointer].load(Relaxed) {
        entry @ (0x80..=0xD7FF | 0xE000..=0xFFFF) => {
            dst[0] = entry as u16;
            1
        }
        _ => 0,
    }
}
