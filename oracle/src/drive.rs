//! One place alone: from a record, byte by byte.

use crate::alone::{self, Alone};
use crate::digest::Digest;
use crate::input::Input;
use crate::order::{in_order, PLACES};
use crate::record::{Record, SIZE};
use crate::sheet;
use std::io::{Error, Read, Result, Write};

/// How the records of a command are written.
pub enum Form {
    Binary,
    Text,
    Digest,
}

pub fn run(input: impl Read, out: &mut impl Write, form: Form) -> Result<()> {
    let mut input = Input(input);
    let bad = |number: u64| Error::other(format!("bad input at case {number}"));
    input.tables().ok_or_else(|| bad(0))?;
    let mut number = 0;
    while let Some(command) = input.byte() {
        number += 1;
        let (place, records) = match command {
            b'M' => case(&mut input).ok_or_else(|| bad(number))?,
            b'A' => all(&mut input).ok_or_else(|| bad(number))?,
            b'L' => {
                let (place, records) = whole(&mut input).ok_or_else(|| bad(number))?;
                write(out, form.line(), place, &records)?;
                continue;
            }
            b'N' => {
                let name = name(&mut input).ok_or_else(|| bad(number))?;
                form.named(out, &name)?;
                continue;
            }
            b'T' => {
                input.tables().ok_or_else(|| bad(number))?;
                continue;
            }
            _ => return Err(bad(number)),
        };
        write(out, &form, place, &records)?;
    }
    Ok(())
}

impl Form {
    /// How a line is written: in words unless all is binary.
    fn line(&self) -> &Form {
        match self {
            Form::Binary => self,
            _ => &Form::Text,
        }
    }

    /// A name, which a line follows.
    fn named(&self, out: &mut impl Write, name: &[u8]) -> Result<()> {
        match self {
            Form::Binary => Ok(()),
            _ => out.write_all(&[name, b": "].concat()),
        }
    }
}

fn name<R: Read>(input: &mut Input<R>) -> Option<Vec<u8>> {
    let length = input.byte()?;
    input.bytes(usize::from(length))
}

fn write(out: &mut impl Write, form: &Form, place: u8, records: &[Record]) -> Result<()> {
    let mut digest = Digest::new();
    for record in records {
        match form {
            Form::Binary => out.write_all(&record.to_bytes())?,
            Form::Text => out.write_all(sheet::line(place, record).as_bytes())?,
            Form::Digest => digest.add(&record.to_bytes()),
        }
    }
    match form {
        Form::Digest => writeln!(out, "{digest}"),
        _ => Ok(()),
    }
}

/// A place and a starting record in order.
fn start<R: Read>(input: &mut Input<R>) -> Option<(u8, Record)> {
    let place = input.byte().filter(|&place| place < PLACES)?;
    let given: [u8; SIZE] = input.bytes(SIZE)?.try_into().ok()?;
    let start = Record::from_bytes(&given);
    (start.to_bytes() == given && in_order(place, &start)).then_some((place, start))
}

/// One case's place, and its records after each byte and after the close.
fn case<R: Read>(input: &mut Input<R>) -> Option<(u8, Vec<Record>)> {
    let (place, start) = start(input)?;
    let close = input.flag()?;
    let bytes = input.chunk()?;
    let mut records = Vec::with_capacity(bytes.len() + 1);
    drive(place, &start, &bytes, close, &mut records);
    Some((place, records))
}

/// A case whose bytes are fed in one call: its record at the end.
fn whole<R: Read>(input: &mut Input<R>) -> Option<(u8, Vec<Record>)> {
    let (place, start) = start(input)?;
    let close = input.flag()?;
    let bytes = input.chunk()?;
    let mut candidate = start.candidate(place);
    candidate.feed(&bytes, close);
    let told = || {
        let close = close.then_some(bytes.len() as u64);
        alone::end(place, &start, bytes.iter().copied().zip(1..), close)
    };
    Some((place, vec![Record::of(&candidate).unwrap_or_else(told)]))
}

/// Every two-byte stream from one record, closed, in the order of the bytes.
fn all<R: Read>(input: &mut Input<R>) -> Option<(u8, Vec<Record>)> {
    let (place, start) = start(input)?;
    let mut records = Vec::with_capacity(3 << 16);
    for stream in 0..=u16::MAX {
        drive(place, &start, &stream.to_be_bytes(), true, &mut records);
    }
    Some((place, records))
}

fn drive(place: u8, start: &Record, bytes: &[u8], close: bool, records: &mut Vec<Record>) {
    let mut alone = Alone::start(place, start);
    for (&byte, at) in bytes.iter().zip(1..) {
        records.push(alone.byte(byte, at));
    }
    if close {
        records.push(alone.close(bytes.len() as u64));
    }
}
