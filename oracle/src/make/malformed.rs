//! Malformed commands of each kind, and well-formed ones beside them: cases
//! for `replay --cases`, each a length and its bytes.

use std::io::{Result, Write};

/// Commands of every kind, whole; cut anywhere, some are not.
const WHOLE: &[u8] = b"S\xFF\x01F\x00\x03\x00\x00\x00ab\xE0QF\x01\x02\x00\x00\x00\xE1.F\x00\x00\x00\x00\x00S\x0F\x00QF\x00\x02\x00\x00\x00\x1B(S\x0F\x02QF\x00\x01\x00\x00\x00\xE0T\x00\x01\x02";

/// A start, a chunk and what it led to, to stand before a command.
const BEFORE: &[u8] = b"S\xFF\x01F\x00\x02\x00\x00\x00a\xE0";

/// A feed's operands.
fn feed(last: u8, length: u32, chunk: &[u8]) -> Vec<u8> {
    [&[b'F', last][..], &length.to_le_bytes(), chunk].concat()
}

pub fn run(out: &mut impl Write) -> Result<()> {
    let mut case = |parts: &[&[u8]]| {
        let bytes = parts.concat();
        out.write_all(&(bytes.len() as u32).to_le_bytes())?;
        out.write_all(&bytes)
    };
    for length in 0..=WHOLE.len() {
        case(&[&WHOLE[..length]])?;
    }
    for command in 0..=255 {
        case(&[BEFORE, &[command], b"Q"])?;
    }
    for last in [1, 2, 3, 0x30, 0x31, 0x80, 0xFF] {
        case(&[BEFORE, &feed(last, 1, b"."), b"Q"])?;
    }
    for length in [65_537, 65_792, 0x0002_0000, 0x0100_0000, 0x7FFF_FFFF, 0x8000_0000, 0xFFFF_FFFF] {
        case(&[BEFORE, &feed(0, length, b"."), b"Q"])?;
    }
    for length in [65_535, 65_536] {
        let chunk = vec![b'\xE0'; length as usize];
        case(&[BEFORE, &feed(1, length, &chunk), b"Q"])?;
        case(&[BEFORE, &feed(1, length, &chunk[1..])])?;
    }
    Ok(())
}
