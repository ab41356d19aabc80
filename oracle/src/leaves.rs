//! The given leaf functions, asked one by one.

use crate::input::Input;
use crate::lent;
use crate::stream::Stream;
use crate::{
    contains_upper_case_period_or_non_ascii, count_non_ascii, is_ascii_punctuation,
    problematic_lead, BeforeNonAscii, InnerCandidate,
};
use std::io::{Error, Read, Write};

pub fn run(input: impl Read, out: &mut impl Write) -> std::io::Result<()> {
    every_byte_alphabetic();
    for byte in 0..=255 {
        let tests = is_ascii_punctuation(byte) as u8
            | (problematic_lead(byte) as u8) << 1
            | (contains_upper_case_period_or_non_ascii(&[byte]) as u8) << 2;
        out.write_all(&[tests])?;
    }
    let mut input = Input(input);
    while let Some(chunks) = input.byte() {
        let answer = case(chunks, &mut input).ok_or(Error::other("a case is cut short"))?;
        out.write_all(&answer)?;
    }
    Ok(())
}

fn case<R: Read>(chunks: u8, input: &mut Input<R>) -> Option<Vec<u8>> {
    let mut answer = vec![chunks];
    let mut context = BeforeNonAscii::None;
    for _ in 0..chunks {
        let length = input.byte()?;
        let chunk = input.bytes(usize::from(length))?;
        context.push(&chunk);
        let saved = context.as_slice();
        let byte = |at: usize| saved.get(at).copied().unwrap_or(0);
        let (trigger, offset) = scan(&chunk);
        answer.push(length);
        answer.extend(&chunk);
        answer.extend([saved.len() as u8, byte(0), byte(1)]);
        answer.push(count_non_ascii(&chunk) as u8);
        answer.extend([trigger, offset]);
        answer.push(contains_upper_case_period_or_non_ascii(&chunk) as u8);
    }
    Some(answer)
}

/// Tables over which every byte fed lengthens place 4's word by one.
fn every_byte_alphabetic() {
    let mut tables = vec![0; lent::SIZE];
    tables[lent::CLASSES] = 1;
    lent::load(&tables);
}

/// The trigger (0 none, 1 escape, 2 non-ASCII) and its offset, which are not a
/// function in the given text but seen from outside: two letters before the
/// chunk put the trigger at 2 or more, so the detector feeds from two bytes
/// before it, and place 4's word tells how many bytes that were.
fn scan(chunk: &[u8]) -> (u8, u8) {
    let mut stream = Stream::start(1 << 4);
    stream.feed(&[b"ab", chunk].concat(), false);
    let detector = &stream.detector;
    let InnerCandidate::Caseless(place) = &detector.candidates[4].inner else { unreachable!() };
    let offset = match place.current_word_len as usize {
        0 => chunk.len(),
        fed => chunk.len() + 2 - fed,
    };
    let trigger = match (detector.esc_seen, detector.non_ascii_seen) {
        (true, _) => 1,
        (false, 0) => 0,
        (false, _) => 2,
    };
    (trigger, offset as u8)
}
