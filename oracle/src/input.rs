//! Reading binary input piece by piece; `None` where it is cut short.

use crate::lent;
use std::io::Read;

/// The longest chunk a command may carry.
pub const CHUNK: u32 = 65_536;

pub struct Input<R: Read>(pub R);

impl<R: Read> Input<R> {
    pub fn bytes(&mut self, length: usize) -> Option<Vec<u8>> {
        let mut bytes = vec![0; length];
        self.0.read_exact(&mut bytes).ok()?;
        Some(bytes)
    }

    pub fn byte(&mut self) -> Option<u8> {
        let mut byte = [0];
        self.0.read_exact(&mut byte).ok()?;
        Some(byte[0])
    }

    /// A byte that is 0 or 1.
    pub fn flag(&mut self) -> Option<bool> {
        match self.byte()? {
            0 => Some(false),
            1 => Some(true),
            _ => None,
        }
    }

    /// A length of four bytes and as many bytes as it says.
    pub fn chunk(&mut self) -> Option<Vec<u8>> {
        let length = u32::from_le_bytes(self.bytes(4)?.try_into().ok()?);
        if length > CHUNK {
            return None;
        }
        self.bytes(length as usize)
    }

    /// Lent data, taken over at once.
    pub fn tables(&mut self) -> Option<()> {
        lent::load(&self.bytes(lent::SIZE)?);
        Some(())
    }
}
