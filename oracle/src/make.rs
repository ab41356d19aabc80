//! The generator: lent data, and cases for each of the other modes. Equal
//! arguments give equal bytes.

mod cuts;
mod drive;
mod hebrew;
mod leaves;
mod malformed;
mod named;
mod reasons;
mod records;
mod shift_jis;
mod starts;
mod streams;
pub mod tables;
pub mod text;

use crate::order::PLACES;
use crate::random::Random;
use std::io::{Error, Result, Write};

pub fn run(args: &[&str], out: &mut impl Write) -> Result<()> {
    let known = match args {
        ["tables", "standard", folder] => {
            out.write_all(&tables::standard(folder)?.bytes)?;
            true
        }
        ["tables", name, seed @ ..] => match tables::named(name, number(seed.first())?) {
            Some(tables) => out.write_all(&tables.bytes).map(|()| true)?,
            None => false,
        },
        ["streams", kind, seed, count] => {
            streams::run(kind, number(Some(seed))?, number(Some(count))?, out)?
        }
        ["drive", place, kind, seed, count] => {
            let (place, seed) = (number(Some(place))?, number(Some(seed))?);
            place < u64::from(PLACES)
                && drive::run(place as u8, kind, seed, number(Some(count))?, out)?
        }
        ["text", name, seed, length] => match text::named(name) {
            Some(kind) => {
                let (mut random, length) =
                    (Random::new(number(Some(seed))?), number(Some(length))?);
                let bytes = text::text(&mut random, kind, length as usize);
                out.write_all(&bytes[..length as usize]).map(|()| true)?
            }
            None => false,
        },
        ["leaves", seed, count] => {
            leaves::run(number(Some(seed))?, number(Some(count))?, out).map(|()| true)?
        }
        ["malformed"] => malformed::run(out).map(|()| true)?,
        ["named"] => named::run(out).map(|()| true)?,
        _ => false,
    };
    match known {
        true => Ok(()),
        false => Err(Error::other(format!("gen: not known: {}", args.join(" ")))),
    }
}

fn number(arg: Option<&&str>) -> Result<u64> {
    let text = arg.copied().unwrap_or("0");
    text.parse().map_err(|_| Error::other(format!("not a number: {text}")))
}

/// Bytes at which some rule turns, for inputs made over few bytes.
pub const TELLING: [u8; 24] = [
    0x00, 0x1B, 0x20, 0x24, 0x28, 0x2E, 0x41, 0x42, 0x61, 0x7B, 0x7F, 0x80, 0x81, 0x91, 0xA0, 0xA1,
    0xA4, 0xB0, 0xC9, 0xE0, 0xED, 0xF4, 0xFE, 0xFF,
];

/// Thins a fixed list of cases evenly: whether case `index` of `total` is
/// among the `count` kept; 0 keeps all.
pub fn kept(index: u64, total: u64, count: u64) -> bool {
    count == 0 || count >= total || {
        let upto = |n: u64| (u128::from(n) * u128::from(count) / u128::from(total)) as u64;
        upto(index + 1) > upto(index)
    }
}
