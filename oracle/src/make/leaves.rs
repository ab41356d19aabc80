//! Cases for the leaf functions.

use crate::random::Random;
use std::io::{Result, Write};

const BYTES: [u8; 12] = [0x1A, 0x1B, 0x1C, 0x7F, 0x80, 0xFF, 0x2E, 0x40, 0x41, 0x5A, 0x5B, 0x61];

const FEW: [u8; 6] = [0x1A, 0x1B, 0x7F, 0x80, 0x2E, 0x41];

/// All chunks of these bytes up to a length, shorter ones first.
fn chunks(bytes: &[u8], longest: usize) -> Vec<Vec<u8>> {
    let mut all = vec![vec![]];
    let mut from = 0;
    for _ in 0..longest {
        let to = all.len();
        for at in from..to {
            for &byte in bytes {
                all.push([all[at].as_slice(), &[byte]].concat());
            }
        }
        from = to;
    }
    all
}

fn case(out: &mut impl Write, chunks: &[&[u8]]) -> Result<()> {
    out.write_all(&[chunks.len() as u8])?;
    for chunk in chunks {
        out.write_all(&[chunk.len() as u8])?;
        out.write_all(chunk)?;
    }
    Ok(())
}

/// One chunk of up to three bytes, two of up to two (over few), three of up to
/// one; then `count` random cases.
pub fn run(seed: u64, count: u64, out: &mut impl Write) -> Result<()> {
    for chunk in &chunks(&BYTES, 3) {
        case(out, &[chunk])?;
    }
    let short = chunks(&FEW, 2);
    for first in &short {
        for second in &short {
            case(out, &[first, second])?;
        }
    }
    let shorter = chunks(&BYTES, 1);
    for first in &shorter {
        for second in &shorter {
            for third in &shorter {
                case(out, &[first, second, third])?;
            }
        }
    }
    random(seed, count, out)
}

fn random(seed: u64, count: u64, out: &mut impl Write) -> Result<()> {
    let mut random = Random::new(seed);
    for _ in 0..count {
        let chunks: Vec<Vec<u8>> = (0..random.below(5)).map(|_| chunk(&mut random)).collect();
        let parts: Vec<&[u8]> = chunks.iter().map(Vec::as_slice).collect();
        case(out, &parts)?;
    }
    Ok(())
}

/// Up to 40 bytes: often small letters with one telling byte among them.
fn chunk(random: &mut Random) -> Vec<u8> {
    let length = random.below(41);
    let style = random.below(3);
    let mut bytes: Vec<u8> = (0..length)
        .map(|_| match style {
            0 => random.byte(),
            1 => *random.pick(&BYTES),
            _ => random.within(b'a', b'z'),
        })
        .collect();
    if style == 2 && length > 0 && !random.once_in(4) {
        let at = random.below(length) as usize;
        bytes[at] = *random.pick(&BYTES);
    }
    bytes
}
