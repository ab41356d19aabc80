//! Cases for one place alone.

use super::text::{damage, text, Text, ALL, VALID};
use super::{kept, records, TELLING};
use crate::order::{fresh, SHIFT_JIS};
use crate::random::Random;
use crate::record::Record;
use std::io::{Result, Write};

/// First bytes of the three-byte streams.
const FIRST: [u8; 12] = [0x61, 0x20, 0xA0, 0xA4, 0xB0, 0xC9, 0xFD, 0xFE, 0xFF, 0x80, 0x81, 0x84];

struct Cases<'a, W: Write> {
    place: u8,
    out: &'a mut W,
}

impl<W: Write> Cases<'_, W> {
    fn case(&mut self, start: &Record, bytes: &[u8], close: bool) -> Result<()> {
        self.out.write_all(&[b'M', self.place])?;
        self.out.write_all(&start.to_bytes())?;
        self.out.write_all(&[close as u8])?;
        self.out.write_all(&(bytes.len() as u32).to_le_bytes())?;
        self.out.write_all(bytes)
    }

    /// Every pair of a record and an input, thinned to `count`.
    fn product(
        &mut self,
        starts: &[Record],
        inputs: &[Vec<u8>],
        close: bool,
        count: u64,
    ) -> Result<()> {
        let total = (starts.len() * inputs.len()) as u64;
        for index in (0..total).filter(|&index| kept(index, total, count)) {
            let (start, input) = (index as usize / inputs.len(), index as usize % inputs.len());
            self.case(&starts[start], &inputs[input], close)?;
        }
        Ok(())
    }

    fn random(&mut self, seed: u64, count: u64) -> Result<()> {
        let mut random = Random::new(seed);
        for _ in 0..count {
            let start = records::random(self.place, &mut random);
            let length = *random.pick(&[0, 1, 2, 3, 8, 40]);
            let kind = *random.pick(&ALL);
            let mut bytes = text(&mut random, kind, length);
            if !random.once_in(3) {
                let first = records::going_on(self.place, &start, &mut random);
                bytes.splice(0..0, first);
            }
            self.case(&start, &bytes, random.once_in(2))?;
        }
        Ok(())
    }

    fn mostly_valid(&mut self, seed: u64, count: u64) -> Result<()> {
        let mut random = Random::new(seed);
        let own = own_text(self.place);
        for _ in 0..count {
            let kind = if random.once_in(8) { *random.pick(&VALID) } else { own };
            let length = random.below(80) as usize;
            let mut bytes = text(&mut random, kind, length);
            if random.once_in(8) {
                damage(&mut random, &mut bytes);
            }
            self.case(&fresh(self.place), &bytes, random.once_in(2))?;
        }
        Ok(())
    }

    /// ASCII of 0 to 8 bytes, then a little text.
    fn heads(&mut self, seed: u64, count: u64) -> Result<()> {
        let mut random = Random::new(seed);
        for number in 0..count {
            let mut bytes = text(&mut random, Text::Ascii, number as usize % 9);
            let kind = *random.pick(&[own_text(self.place), Text::Telling]);
            bytes.extend(text(&mut random, kind, 6));
            self.case(&fresh(self.place), &bytes, random.once_in(2))?;
        }
        Ok(())
    }
}

/// The text that the place is for.
fn own_text(place: u8) -> Text {
    match place {
        0 => Text::Utf8,
        1 => Text::Iso2022Jp,
        2 => Text::EucKr,
        3 => Text::Big5,
        SHIFT_JIS => Text::ShiftJis,
        _ => Text::Single,
    }
}

/// Gives false for a kind that it does not know.
pub fn run(place: u8, kind: &str, seed: u64, count: u64, out: &mut impl Write) -> Result<bool> {
    let mut cases = Cases { place, out };
    let fresh = [fresh(place)];
    let one: Vec<Vec<u8>> = (0..=255).map(|byte| vec![byte]).collect();
    match kind {
        "pairs" => {
            cases.product(&fresh, &two(), false, count)?;
            let telling = longer(&longer(&[vec![]], &TELLING), &TELLING);
            cases.product(&records::bounds(place), &telling, false, count)?;
        }
        "steps" => cases.product(&records::states(place), &one, false, count)?,
        "close" => {
            cases.product(&records::states(place), &[vec![]], true, count)?;
            cases.product(&records::bounds(place), &one, true, count)?;
        }
        "class255" => {
            cases.product(&records::bounds(place), &one, true, count)?;
            cases.product(&fresh, &longer(&longer(&[vec![]], &TELLING), &every()), true, count)?;
        }
        "dropped" => {
            let inputs = [vec![], vec![0x61], vec![0xE0, 0x80, 0x61]];
            cases.product(&records::dropped(place), &inputs, false, count)?;
            cases.product(&records::dropped(place), &inputs, true, count)?;
        }
        "two" => cases.product(&fresh, &two(), true, count)?,
        "three" => {
            let first = longer(&[vec![]], &FIRST);
            let inputs = longer(&longer(&first, &every()), &every());
            cases.product(&fresh, &inputs, true, count)?;
        }
        "heads" => cases.heads(seed, count)?,
        "random" => cases.random(seed, count)?,
        "mostly-valid" => cases.mostly_valid(seed, count)?,
        _ => return Ok(false),
    }
    Ok(true)
}

fn every() -> Vec<u8> {
    (0..=255).collect()
}

fn two() -> Vec<Vec<u8>> {
    longer(&longer(&[vec![]], &every()), &every())
}

/// Each input with each of the bytes after it.
fn longer(inputs: &[Vec<u8>], bytes: &[u8]) -> Vec<Vec<u8>> {
    let with = |input: &Vec<u8>, byte: u8| [input.as_slice(), &[byte]].concat();
    inputs.iter().flat_map(|input| bytes.iter().map(move |&byte| with(input, byte))).collect()
}
