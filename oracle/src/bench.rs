//! One thing over all of standard input, for counting instructions.

use crate::lent;
use crate::make::tables;
use crate::order::{fresh, PLACES};
use crate::stand::{memchr, Encoding};
use crate::stream::Stream;
use crate::{contains_upper_case_period_or_non_ascii, count_non_ascii};
use std::hint::black_box;

/// The line to print, or `None` if the arguments make no sense.
pub fn run(args: &[&str], bytes: &[u8]) -> Option<String> {
    let bytes = black_box(bytes);
    match args {
        ["count_non_ascii"] => Some(count_non_ascii(bytes).to_string()),
        ["scan"] => Some(scan(bytes).to_string()),
        ["contains"] => {
            let found = contains_upper_case_period_or_non_ascii(bytes);
            Some((found as u8).to_string())
        }
        ["place", place, chunk, tables @ ..] => {
            let place = place.parse().ok().filter(|&place| place < PLACES)?;
            load(tables)?;
            Some(one_place(place, bytes, chunk.parse().ok()?))
        }
        ["all", bits, chunk, tables @ ..] => {
            load(tables)?;
            Some(whole(bits.parse().ok()?, bytes, chunk.parse().ok()?))
        }
        _ => None,
    }
}

/// The tables of a file, or the demonstration's.
fn load(file: &[&str]) -> Option<()> {
    let tables = match file {
        [] => tables::demo().bytes,
        [path] => std::fs::read(path).ok().filter(|read| read.len() == lent::SIZE)?,
        _ => return None,
    };
    lent::load(&tables);
    Some(())
}

/// The two calls by which `EncodingDetector::feed` looks for a trigger. Both
/// are stand-ins; the real ones go by whole words.
fn scan(bytes: &[u8]) -> usize {
    let up_to = Encoding::ascii_valid_up_to(bytes);
    memchr::memchr(0x1B, &bytes[..up_to]).unwrap_or(up_to)
}

fn score(score: Option<i64>) -> String {
    score.map_or("none".into(), |number| number.to_string())
}

fn one_place(place: u8, bytes: &[u8], chunk: usize) -> String {
    let mut candidate = fresh(place).candidate(place);
    for part in bytes.chunks(chunk.max(1)) {
        candidate.feed(part, false);
    }
    score(candidate.score)
}

fn whole(bits: u16, bytes: &[u8], chunk: usize) -> String {
    let mut stream = Stream::start(bits);
    for part in bytes.chunks(chunk.max(1)) {
        stream.feed(part, false);
    }
    let scores: Vec<String> = stream.detector.candidates.iter().map(|c| score(c.score)).collect();
    scores.join(" ")
}
