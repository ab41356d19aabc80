//! Checks of the stand-ins, which no comparison with the given text can find
//! wrong.

use crate::alone::{self, Alone};
use crate::lent;
use crate::make::{tables, text};
use crate::order::{fresh, in_order, PLACES};
use crate::random::Random;
use crate::reach::Front;
use crate::record::Record;
use crate::stand::DecoderResult::{InputEmpty, Malformed, OutputFull};
use crate::stand::{Decoder, DecoderResult, Encoding, BIG5, EUC_KR, ISO_2022_JP, SHIFT_JIS, UTF_8};
use crate::stream::EVERY;
use crate::trace::Trace;
use std::io::{Error, Result, Write};

/// Prints one line a check; fails at the first that does not hold.
pub fn run(folder: &str, out: &mut impl Write) -> Result<()> {
    lent::load(&tables::standard(folder)?.bytes);
    let checks: [(&str, fn() -> bool); 14] = [
        ("big5: 18590 pairs and 4 specials", || mapped(&BIG5) == (18_594, 1_713 + 4)),
        ("euc-kr: 17048 pairs", || mapped(&EUC_KR) == (17_048, 0)),
        ("iso-2022-jp: 7336 pairs", || japanese_pairs() == 7_336),
        ("iso-2022-jp: escapes", japanese_escapes),
        ("shift_jis: 7724 pairs and 1880 of private use", || shift_jis_pairs() == (7_724, 1_880)),
        ("shift_jis: single bytes", shift_jis_single),
        ("shift_jis: code points", shift_jis_points),
        ("shift_jis: as the Standard's steps, two bytes", shift_jis_steps),
        ("utf-8: as std, up to three bytes", || utf_8_short().all(|bytes| utf_8_agrees(&bytes))),
        ("utf-8: as std, four bytes", || utf_8_long().all(|bytes| utf_8_agrees(&bytes))),
        ("pairs: what is read", what_is_read),
        ("long inputs: output full", output_full),
        ("records: byte by byte as at once", records_carry_all),
        ("front: what reaches the places", reached_as_fed),
    ];
    for (name, holds) in checks {
        if !holds() {
            return Err(Error::other(format!("selftest: {name}")));
        }
        writeln!(out, "holds: {name}")?;
    }
    Ok(())
}

/// One call that takes all of `src` in a fresh decoder.
fn decode(encoding: &Encoding, src: &[u8], last: bool) -> (DecoderResult, usize, Vec<u16>) {
    let mut dst = [0; 64];
    let mut decoder = encoding.new_decoder_without_bom_handling();
    let (result, read, written) = decoder.decode_to_utf16_without_replacement(src, &mut dst, last);
    (result, read, dst[..written].to_vec())
}

/// How many pairs give units, and how many of them give two.
fn mapped(encoding: &Encoding) -> (usize, usize) {
    let (mut all, mut double) = (0, 0);
    for (lead, second) in (0x81..=0xFE).flat_map(|lead| (0..=255).map(move |b| (lead, b))) {
        let (result, read, units) = decode(encoding, &[lead, second], true);
        if matches!(result, InputEmpty) && read == 2 {
            all += 1;
            double += (units.len() == 2) as usize;
        }
    }
    (all, double)
}

fn japanese_pairs() -> usize {
    let pairs = (0..=255).flat_map(|first| (0..=255).map(move |second| [first, second]));
    let lives = |pair: &[u8; 2]| {
        let src = [b"\x1B$B".as_slice(), pair, b"\x1B(B"].concat();
        let (result, _, units) = decode(&ISO_2022_JP, &src, true);
        matches!(result, InputEmpty) && units.len() == 1
    };
    pairs.filter(lives).count()
}

/// Whether ISO-2022-JP lives to the close.
fn japanese(src: &[u8]) -> bool {
    matches!(decode(&ISO_2022_JP, src, true).0, InputEmpty)
}

fn japanese_escapes() -> bool {
    let good: [&[u8]; 9] = [
        b"",
        b"a~\\",
        b"\x1B(B",
        b"a\x1B(Bb\x1B(J~",
        b"\x1B(I!_",
        b"\x1B$@0!",
        b"\x1B$B0!\x1B(B",
        b"\x1B(B \x1B(B",
        b"\x1B$B",
    ];
    let bad: [&[u8]; 15] = [
        b"\x0E",
        b"\x0F",
        b"\x80",
        b"\xFF",
        b"\x1B",
        b"\x1B(",
        b"\x1B$",
        b"\x1B(C",
        b"\x1B$C",
        b"\x1B\x1B(B",
        b"\x1B(I`",
        b"\x1B(I ",
        b"\x1B$B0",
        b"\x1B$B0\x1B(B",
        b"\x1B(B\x1B(B",
    ];
    good.into_iter().all(japanese) && !bad.into_iter().any(japanese)
}

/// How many pairs the index maps, and how many are of private use.
fn shift_jis_pairs() -> (usize, usize) {
    let (mut mapped, mut private) = (0, 0);
    for pair in (0x80..=0xFF).flat_map(|lead| (0..=255).map(move |second| [lead, second])) {
        let (result, _, units) = decode(&SHIFT_JIS, &pair, true);
        match (result, units.as_slice()) {
            (InputEmpty, [0xE000..=0xE757]) => private += 1,
            (InputEmpty, [_]) => mapped += 1,
            _ => {}
        }
    }
    (mapped, private)
}

/// 00 to 80 and half-width katakana stand alone; leads are open; four are bad.
fn shift_jis_single() -> bool {
    (0..=255u8).all(|byte| {
        let (open, _, units) = decode(&SHIFT_JIS, &[byte], false);
        let closed = decode(&SHIFT_JIS, &[byte], true).0;
        match byte {
            0..=0x80 => units == [u16::from(byte)],
            0xA1..=0xDF => units == [0xFF00 + u16::from(byte) - 0x40],
            0xA0 | 0xFD..=0xFF => matches!(open, Malformed(1, _)),
            _ => matches!((open, closed), (InputEmpty, Malformed(_, _))) && units.is_empty(),
        }
    })
}

/// Some pairs and what they stand for, as is known of Japanese text.
fn shift_jis_points() -> bool {
    let text = b"\x93\xFA\x96\x7B \x82\xA0\x83A\xB1\x81\x42\x87\x40\xF0\x40\xF9\xFC\xFC\x4B";
    let points =
        "\u{65E5}\u{672C} \u{3042}\u{30A2}\u{FF71}\u{3002}\u{2460}\u{E000}\u{E757}\u{9ED1}";
    let (result, read, units) = decode(&SHIFT_JIS, text, true);
    matches!(result, InputEmpty)
        && read == text.len()
        && units.iter().copied().eq(points.encode_utf16())
}

/// Two bytes live by the Standard's words, which are said once more here, in
/// one expression, over the index.
fn shift_jis_steps() -> bool {
    let maps = |lead: u32, byte: u32| {
        let pointer = (lead - if lead < 0xA0 { 0x81 } else { 0xC1 }) * 188 + byte
            - if byte < 0x7F { 0x40 } else { 0x41 };
        let private = (8836..10716).contains(&pointer);
        private || lent::JIS[pointer as usize].load(std::sync::atomic::Ordering::Relaxed) != 0
    };
    let single = |byte: u32| byte <= 0x80 || (0xA1..0xE0).contains(&byte);
    let lead = |byte: u32| (0x81..0xA0).contains(&byte) || (0xE0..0xFD).contains(&byte);
    let trail = |byte: u32| (0x40..0xFD).contains(&byte) && byte != 0x7F;
    (0..0x1_0000u32).all(|both| {
        let (first, second) = (both >> 8, both & 0xFF);
        let expected = match lead(first) {
            true => trail(second) && maps(first, second),
            false => single(first) && single(second),
        };
        let told = decode(&SHIFT_JIS, &[first as u8, second as u8], true).0;
        expected == matches!(told, InputEmpty)
    })
}

/// At its end, at each shorter length and fed byte by byte, the stand-in says
/// what the standard library says.
fn utf_8_agrees(bytes: &[u8]) -> bool {
    let std = std::str::from_utf8(bytes);
    let incomplete = matches!(std, Err(error) if error.error_len().is_none());
    let closed = lives(bytes, bytes.len().max(1), true);
    let open = lives(bytes, 1, false);
    closed == std.is_ok() && open == (std.is_ok() || incomplete)
}

fn lives(bytes: &[u8], chunk: usize, last: bool) -> bool {
    let mut decoder = UTF_8.new_decoder_without_bom_handling();
    let mut step = |part: &[u8], last| step_lives(&mut decoder, part, last);
    bytes.chunks(chunk).all(|part| step(part, false)) && (!last || step(b"", true))
}

fn step_lives(decoder: &mut Decoder, part: &[u8], last: bool) -> bool {
    let mut dst = [0; 16];
    let (result, _, written) = decoder.decode_to_utf8_without_replacement(part, &mut dst, last);
    // What a whole sequence gives is the sequence itself.
    let same = written != part.len() || dst[..written] == *part;
    matches!(result, InputEmpty) && same
}

fn utf_8_short() -> impl Iterator<Item = Vec<u8>> {
    let all = |length: u32| (0..1u32 << (8 * length)).map(move |n| (n, length));
    let lead_first = |&(n, length): &(u32, u32)| length < 3 || n & 0xFF >= 0x80;
    let bytes = |(n, length): (u32, u32)| n.to_le_bytes()[..length as usize].to_vec();
    (0..=3).flat_map(all).filter(lead_first).map(bytes)
}

/// Every lead of four with second to fourth bytes around the boundaries.
fn utf_8_long() -> impl Iterator<Item = Vec<u8>> {
    const EDGES: [u8; 14] =
        [0, 0x61, 0x7F, 0x80, 0x81, 0x8F, 0x90, 0x9F, 0xA0, 0xBE, 0xBF, 0xC0, 0xF0, 0xFF];
    let edge = |n: usize, power: u32| EDGES[n / 14usize.pow(power) % 14];
    let four = move |lead: u8| {
        (0..14usize.pow(3)).map(move |n| vec![lead, edge(n, 0), edge(n, 1), edge(n, 2)])
    };
    (0x80..=0xFF).flat_map(four)
}

/// The table of conventions: result, its length, bytes read of the last call.
fn what_is_read() -> bool {
    let fed = |lead: &[u8], src: &[u8], last: bool| {
        let mut decoder = BIG5.new_decoder_without_bom_handling();
        let mut dst = [0; 2];
        decoder.decode_to_utf16_without_replacement(lead, &mut dst, false);
        decoder.decode_to_utf16_without_replacement(src, &mut dst, last)
    };
    matches!(fed(b"", b"\x81", false), (InputEmpty, 1, 0))
        && matches!(fed(b"", b"\x80", false), (Malformed(1, _), 1, 0))
        && matches!(fed(b"", b"\xFF", false), (Malformed(1, _), 1, 0))
        && matches!(fed(b"\x81", b"a", false), (Malformed(1, _), 0, 0))
        && matches!(fed(b"\x81", b"\xFF", false), (Malformed(2, _), 1, 0))
        && matches!(fed(b"\x81", b"", true), (Malformed(_, _), 0, 0))
        && matches!(fed(b"\xA4", b"\x40", true), (InputEmpty, 1, 1))
        && matches!(fed(b"\x88", b"\x62", true), (InputEmpty, 1, 2))
}

/// More than the output holds is given back piece by piece, and whole.
fn output_full() -> bool {
    let mut decoder = UTF_8.new_decoder_without_bom_handling();
    let src = "a\u{E9}\u{20AC}\u{1F600}".repeat(50).into_bytes();
    let (mut rest, mut got, mut calls) = (src.as_slice(), Vec::<u8>::new(), 0);
    loop {
        let mut dst = [0; 16];
        let (result, read, written) =
            decoder.decode_to_utf8_without_replacement(rest, &mut dst, true);
        got.extend(&dst[..written]);
        rest = &rest[read..];
        calls += 1;
        match result {
            OutputFull => continue,
            InputEmpty => return got == src && rest.is_empty() && calls > 30,
            Malformed(_, _) => return false,
        }
    }
}

/// A place that is made anew from its record before each byte ends as the
/// place of a detector that gets all bytes in one closing chunk.
fn records_carry_all() -> bool {
    let mut random = Random::new(1);
    (0..16_000u32).all(|number| {
        let place = (number % u32::from(PLACES)) as u8;
        let kind = *random.pick(&text::ALL);
        let mut bytes = text::text(&mut random, kind, 24);
        if bytes[0] != 0x1B {
            // The front end lets everything through from here.
            bytes.insert(0, 0x1B);
        }
        let mut trace = Trace::start(1 << place);
        trace.feed(&bytes, true);
        trace.places[usize::from(place)] == byte_by_byte(place, &bytes)
    })
}

fn byte_by_byte(place: u8, bytes: &[u8]) -> Record {
    let mut record = fresh(place);
    let anew = |record: Record| {
        assert!(in_order(place, &record));
        Alone::start(place, &Record::from_bytes(&record.to_bytes()))
    };
    for (&byte, at) in bytes.iter().zip(1..) {
        record = anew(record).byte(byte, at);
    }
    anew(record).close(bytes.len() as u64)
}

/// What is worked out to reach the places is what the Rust feeds them: each
/// place, a live one too, that gets it byte by byte ends as the Rust's.
fn reached_as_fed() -> bool {
    let mut random = Random::new(2);
    (0..8_000).all(|_| {
        let length = random.below(6) as usize;
        let mut bytes = text::text(&mut random, text::Text::Ascii, length);
        let kind = *random.pick(&text::ALL);
        bytes.extend(text::text(&mut random, kind, 8));
        cut_as_fed(&mut random, &bytes)
    })
}

/// The same of one stream, which is cut anywhere and closed.
fn cut_as_fed(random: &mut Random, bytes: &[u8]) -> bool {
    let (mut trace, mut front) = (Trace::start(EVERY), Front::new());
    let mut rest = bytes;
    while !rest.is_empty() {
        let (chunk, later) = rest.split_at(1 + random.below(rest.len().min(6) as u64) as usize);
        let last = later.is_empty();
        let mut expected = trace.places;
        if let Some(reached) = front.reach(chunk) {
            let close = last.then_some(front.body);
            for (place, record) in expected.iter_mut().enumerate() {
                *record = alone::end(place as u8, record, reached.with_places(), close);
            }
        }
        trace.feed(chunk, last);
        if trace.places != expected {
            return false;
        }
        rest = later;
    }
    true
}
