//! Whole streams: commands of the replay format, to stand after lent data.

use super::cuts::{cut_up, cuts, CUT};
use super::hebrew::HEBREW;
use super::shift_jis::SHIFT_JIS;
use super::text::{damage, text, Text, ALL, VALID};
use super::{kept, reasons, starts, tables, TELLING};
use crate::order::LIMIT;
use crate::random::Random;
use crate::stream::EVERY;
use std::io::{Result, Write};

struct Script<'a, W: Write> {
    out: &'a mut W,
    random: Random,
}

/// How a stream ends.
#[derive(Clone, Copy)]
enum End {
    Open,
    /// Its last chunk closes it.
    Closed,
    /// An empty chunk closes it, and more chunks come after.
    ClosedByEmpty,
}

const ENDS: [End; 3] = [End::Open, End::Closed, End::ClosedByEmpty];
const CLOSED: [End; 2] = [End::Closed, End::ClosedByEmpty];

const JAPANESE: [Text; 2] = [Text::ShiftJis, Text::Japanese];

/// How a stream that is cut is fed.
#[derive(Clone, Copy)]
struct Way {
    /// Whether empty chunks stand between the others.
    with_empty: bool,
    end: End,
}

impl<W: Write> Script<'_, W> {
    fn start(&mut self, bits: u16) -> Result<()> {
        self.out.write_all(b"S")?;
        self.out.write_all(&bits.to_le_bytes())
    }

    fn feed(&mut self, chunk: &[u8], last: bool) -> Result<()> {
        self.out.write_all(&[b'F', last as u8])?;
        self.out.write_all(&(chunk.len() as u32).to_le_bytes())?;
        self.out.write_all(chunk)
    }

    fn show(&mut self) -> Result<()> {
        self.out.write_all(b"Q")
    }

    /// The chunks in turn, the end, and what it led to.
    fn chunks(&mut self, chunks: &[&[u8]], end: End) -> Result<()> {
        for (number, chunk) in chunks.iter().enumerate() {
            let last = number + 1 == chunks.len() && matches!(end, End::Closed);
            self.feed(chunk, last)?;
        }
        if matches!(end, End::ClosedByEmpty) {
            self.show()?;
            self.feed(b"", true)?;
            self.feed(b"\xE0a", false)?;
        }
        self.show()
    }

    /// Random bits, cuts, empty chunks, shows between and end.
    fn at_random(&mut self, bytes: &[u8]) -> Result<()> {
        let bits = match self.random.below(16) {
            0 => self.random.next() as u16,
            1..=3 => self.random.next() as u16 & EVERY,
            _ => EVERY,
        };
        self.start(bits)?;
        let mut rest = bytes;
        while !rest.is_empty() {
            let longest = *self.random.pick(&[1, 2, 3, 20, 1000]);
            let length = self.random.below(longest.min(rest.len() as u64) + 1) as usize;
            let (chunk, later) = rest.split_at(length);
            self.feed(chunk, false)?;
            rest = later;
            if self.random.once_in(4) {
                self.show()?;
            }
        }
        let end = *self.random.pick(&ENDS);
        self.chunks(&[b""], end)
    }

    /// All inputs of up to two bytes, and of three over some; each both at
    /// once closed and first shown open.
    fn short(&mut self, count: u64) -> Result<()> {
        let some: Vec<u8> = TELLING.iter().copied().step_by(2).chain([0xFD, 0xA1]).collect();
        let few = (some.len() as u64).pow(3);
        let total = 1 + 256 + 65_536 + few;
        for index in (0..total).filter(|&index| kept(index, total, count)) {
            let bytes: Vec<u8> = match index {
                0 => vec![],
                1..=256 => vec![(index - 1) as u8],
                257..=65_792 => ((index - 257) as u16).to_be_bytes().to_vec(),
                _ => digits(index - 65_793, &some, 3),
            };
            for end in [End::Closed, End::ClosedByEmpty] {
                self.start(EVERY)?;
                self.chunks(&[&bytes], end)?;
            }
        }
        Ok(())
    }

    /// Every cut of each stream, every end, with and without empty chunks
    /// between.
    fn cuts(&mut self, streams: &[&[u8]], count: u64) -> Result<()> {
        let ways = [false, true].map(|with_empty| ENDS.map(|end| Way { with_empty, end }));
        self.every_cut(streams, &ways.concat(), count)
    }

    /// Every cut of each stream, closed both ways.
    fn closed_cuts<S: AsRef<[u8]>>(&mut self, streams: &[S], count: u64) -> Result<()> {
        let ways = CLOSED.map(|end| Way { with_empty: false, end });
        self.every_cut(streams, &ways, count)
    }

    /// Three cuts of each stream: none, every byte alone, and any.
    fn few_cuts<S: AsRef<[u8]>>(&mut self, streams: &[S], count: u64) -> Result<()> {
        let total = streams.len() * 3;
        for index in (0..total).filter(|&index| kept(index as u64, total as u64, count)) {
            let stream = streams[index / 3].as_ref();
            let cut = match index % 3 {
                0 => 0,
                1 => cuts(stream) - 1,
                _ => self.random.below(cuts(stream)),
            };
            self.start(EVERY)?;
            self.chunks(&cut_up(stream, cut, false), CLOSED[index % 2])?;
        }
        Ok(())
    }

    /// Every cut of each stream, in each of the ways; of them all `count`.
    fn every_cut<S: AsRef<[u8]>>(&mut self, all: &[S], ways: &[Way], count: u64) -> Result<()> {
        let streams = || all.iter().map(AsRef::as_ref);
        let total = streams().map(cuts).sum::<u64>() * ways.len() as u64;
        let mut index = 0;
        for stream in streams() {
            for (cut, way) in
                (0..cuts(stream)).flat_map(|cut| ways.iter().map(move |way| (cut, way)))
            {
                if kept(index, total, count) {
                    self.start(EVERY)?;
                    self.chunks(&cut_up(stream, cut, way.with_empty), way.end)?;
                }
                index += 1;
            }
        }
        Ok(())
    }

    /// Each start on one stream, byte by byte, shown after each.
    fn starts(&mut self, starts: &[u16], count: u64) -> Result<()> {
        let total = starts.len() as u64;
        for (&bits, _) in starts.iter().zip(0..).filter(|&(_, n)| kept(n, total, count)) {
            self.start(bits)?;
            for (byte, left) in starts::STREAM.chunks(1).zip((0..starts::STREAM.len()).rev()) {
                self.feed(byte, left == 0)?;
                self.show()?;
            }
        }
        Ok(())
    }

    /// Each of all 65,536 starts on a stream of two bytes.
    fn all_starts(&mut self, count: u64) -> Result<()> {
        for bits in (0..=u16::MAX).filter(|&bits| kept(u64::from(bits), 1 << 16, count)) {
            self.start(bits)?;
            self.chunks(&[b"a\xE0"], End::Open)?;
        }
        Ok(())
    }

    /// ASCII heads of many lengths, cut anywhere, then text or an escape.
    fn heads(&mut self, count: u64) -> Result<()> {
        for number in 0..count {
            let length = match number % 16 {
                15 => self.random.below(3000) as usize,
                short => short as usize,
            };
            let mut bytes = text(&mut self.random, Text::Ascii, length);
            let kind = *self.random.pick(&ALL);
            bytes.extend(text(&mut self.random, kind, 12));
            self.at_random(&bytes)?;
        }
        Ok(())
    }

    fn texts(&mut self, kinds: &[Text], damaged: bool, count: u64) -> Result<()> {
        for _ in 0..count {
            let kind = *self.random.pick(kinds);
            let longest = *self.random.pick(&[8, 8, 30, 120, 400]);
            let length = self.random.below(longest) as usize;
            let mut bytes = text(&mut self.random, kind, length);
            if damaged {
                damage(&mut self.random, &mut bytes);
            }
            self.at_random(&bytes)?;
        }
        Ok(())
    }

    /// New tables in the midst of each stream.
    fn switch(&mut self, count: u64) -> Result<()> {
        for number in 0..count {
            let kind = *self.random.pick(&VALID);
            let (first, second) =
                (text(&mut self.random, kind, 20), text(&mut self.random, kind, 20));
            let name = ["mild", "random", "demo"][number as usize % 3];
            let lent = tables::named(name, self.random.next()).expect("a known name");
            self.start(EVERY)?;
            self.chunks(&[&first], End::Open)?;
            self.out.write_all(b"T")?;
            self.out.write_all(&lent.bytes)?;
            self.chunks(&[&second], End::ClosedByEmpty)?;
        }
        Ok(())
    }

    /// One stream of exactly the limit's bytes; one more is refused, none is
    /// not. The head takes nearly all, so that it is quickly read.
    fn limit(&mut self) -> Result<()> {
        let chunk = [b'a'; 65_536];
        self.start(EVERY)?;
        for _ in 1..LIMIT / 65_536 {
            self.feed(&chunk, false)?;
        }
        self.feed(&[&chunk[..65_533], b"\xE0\xE1"].concat(), false)?;
        self.show()?;
        self.feed(b"ab", true)?;
        self.feed(b".", false)?;
        self.feed(b".", false)?;
        self.feed(b"", false)?;
        self.show()?;
        self.feed(b"", true)?;
        self.feed(b"a", true)?;
        self.show()
    }
}

/// The `count` digits of a number in a base of bytes.
fn digits(mut number: u64, base: &[u8], count: usize) -> Vec<u8> {
    let mut all = Vec::new();
    for _ in 0..count {
        all.push(base[(number % base.len() as u64) as usize]);
        number /= base.len() as u64;
    }
    all
}

/// Gives false for a kind that it does not know.
pub fn run(kind: &str, seed: u64, count: u64, out: &mut impl Write) -> Result<bool> {
    let mut script = Script { out, random: Random::new(seed) };
    match kind {
        "short" => script.short(count)?,
        "cuts" => script.cuts(CUT, count)?,
        "shift-jis" => script.cuts(SHIFT_JIS, count)?,
        "shift-jis-few" => script.few_cuts(SHIFT_JIS, count)?,
        "shift-jis-text" => script.texts(&JAPANESE, false, count)?,
        "shift-jis-damaged" => script.texts(&JAPANESE, true, count)?,
        "starts" => script.starts(&starts::few(), count)?,
        "starts-all" => script.all_starts(count)?,
        "reasons" => script.closed_cuts(&reasons::streams(), count)?,
        "reasons-few" => script.few_cuts(&reasons::streams(), count)?,
        "hebrew" => script.closed_cuts(HEBREW, count)?,
        "hebrew-few" => script.few_cuts(HEBREW, count)?,
        "hebrew-text" => script.texts(&[Text::Hebrew], false, count)?,
        "heads" => script.heads(count)?,
        "random" => script.texts(&ALL, false, count)?,
        "mostly-valid" => script.texts(&VALID, false, count)?,
        "damaged" => script.texts(&VALID, true, count)?,
        "switch" => script.switch(count)?,
        "limit" => script.limit()?,
        _ => return Ok(false),
    }
    Ok(true)
}
