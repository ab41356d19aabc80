//! The replay format: whole streams.

use crate::digest;
use crate::input::Input;
use crate::lent;
use crate::stream::{refused, EVERY};
use crate::trace::Trace;
use std::io::{Read, Write};

/// The reply's number of a start that is refused.
const REFUSED: u8 = 12;

pub fn run(input: impl Read, out: &mut impl Write) -> std::io::Result<()> {
    let mut input = Input(input);
    if input.tables().is_none() {
        return writeln!(out, "bad input");
    }
    let mut stream = Trace::start(EVERY);
    while let Some(command) = input.byte() {
        match answer(command, &mut input, &mut stream) {
            Some(text) => out.write_all(text.as_bytes())?,
            None => return writeln!(out, "bad input"),
        }
    }
    Ok(())
}

/// Many short inputs over the same lent data: a length and the bytes that
/// follow the lent data for each. Prints the digest of each one's answers.
pub fn cases(input: impl Read, out: &mut impl Write) -> std::io::Result<()> {
    let mut input = Input(input);
    let Some(lent) = input.bytes(lent::SIZE) else {
        return writeln!(out, "bad input");
    };
    while let Some(length) = input.bytes(4) {
        let length = length.iter().rev().fold(0, |sum, &byte| sum << 8 | usize::from(byte));
        let Some(bytes) = input.bytes(length) else {
            return writeln!(out, "bad input");
        };
        let mut answers = Vec::new();
        run(&[&lent[..], &bytes].concat()[..], &mut answers)?;
        writeln!(out, "{}", digest::run(&answers[..])?)?;
    }
    Ok(())
}

/// How many streams, chunks and bytes fed the commands have; they stand
/// without the lent data before them.
pub fn count(input: impl Read, out: &mut impl Write) -> std::io::Result<()> {
    let mut input = Input(input);
    let (mut streams, mut chunks, mut bytes) = (0, 0, 0);
    while let Some(command) = input.byte() {
        let passed = match command {
            b'S' => input.bytes(2).map(|_| streams += 1),
            b'F' => input.bytes(1).and_then(|_| input.chunk()).map(|chunk| {
                chunks += 1;
                bytes += chunk.len();
            }),
            b'T' => input.bytes(lent::SIZE).map(|_| ()),
            _ => Some(()),
        };
        if passed.is_none() {
            break;
        }
    }
    writeln!(out, "{streams} {chunks} {bytes}")
}

/// What one command prints; `None` if it is malformed.
fn answer<R: Read>(command: u8, input: &mut Input<R>, stream: &mut Trace) -> Option<String> {
    match command {
        b'S' => {
            let bits = u16::from_le_bytes(input.bytes(2)?.try_into().ok()?);
            *stream = Trace::start(bits);
            return Some(if refused(bits) { format!("start {REFUSED}\n") } else { String::new() });
        }
        b'F' => {
            let last = input.flag()?;
            let (number, flag) = stream.feed(&input.chunk()?, last);
            return Some(format!("reply {number} {}\n", flag as u8));
        }
        b'Q' => return Some(stream.show()),
        b'T' => input.tables()?,
        _ => return None,
    }
    Some(String::new())
}
