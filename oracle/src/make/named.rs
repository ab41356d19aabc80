//! Cases with names, for `drive`: held scores at the close, states that no
//! stream reaches, the previous-byte rule, mapped private use, the specials,
//! the held leads of Korean, document 01's edge lines on EUC-KR and Big5, each
//! reason for which a place drops out, and Shift_JIS. They are meant for the
//! tables `named`.

use crate::order::fresh;
use crate::reason::Reason;
use crate::record::Record;
use std::io::{Result, Write};

const UTF_8: u8 = 0;
const ISO_2022_JP: u8 = 1;
const EUC_KR: u8 = 2;
const BIG5: u8 = 3;
const CASELESS: u8 = 4;
const SHIFT_JIS: u8 = 8;

struct Line {
    name: &'static str,
    place: u8,
    start: Record,
    bytes: Vec<u8>,
    close: bool,
}

pub fn run(out: &mut impl Write) -> Result<()> {
    let before_103 =
        [edges(), held(), unreachable(), previous_byte(), mapped(), leads(), reasons()];
    let shift_jis = [single_bytes(), second_bytes(), entries(), private_use(), open_leads()];
    for line in before_103.into_iter().chain(shift_jis).flatten() {
        out.write_all(&[b'N', line.name.len() as u8])?;
        out.write_all(line.name.as_bytes())?;
        out.write_all(&[b'L', line.place])?;
        out.write_all(&line.start.to_bytes())?;
        out.write_all(&[line.close as u8])?;
        out.write_all(&(line.bytes.len() as u32).to_le_bytes())?;
        out.write_all(&line.bytes)?;
    }
    Ok(())
}

/// From fresh, left open.
fn open(place: u8, name: &'static str, bytes: &[u8]) -> Line {
    Line { name, place, start: fresh(place), bytes: bytes.to_vec(), close: false }
}

fn closed(place: u8, name: &'static str, bytes: &[u8]) -> Line {
    Line { close: true, ..open(place, name, bytes) }
}

fn from(place: u8, name: &'static str, start: Record, bytes: &[u8]) -> Line {
    Line { start, ..open(place, name, bytes) }
}

fn edges() -> Vec<Line> {
    let hangul = |count: usize| [0xB0, 0xA1].repeat(count);
    vec![
        open(BIG5, "01 FD FF, extension twice", &[0xFD, 0xFF]),
        open(BIG5, "01 FD 61 unmapped, PUA once", &[0xFD, 0x61]),
        open(BIG5, "01 A4 FF", &[0xA4, 0xFF]),
        open(BIG5, "01 lone 80", &[0x80]),
        open(EUC_KR, "01 five Hangul, no long word", &hangul(5)),
        open(EUC_KR, "01 six Hangul, long word once", &hangul(6)),
        open(EUC_KR, "01 seven Hangul, long word twice", &hangul(7)),
        open(EUC_KR, "01 pair ending in 81, then lone FF, extension twice", &[0xB0, 0x81, 0xFF]),
    ]
}

fn held() -> Vec<Line> {
    vec![
        open(EUC_KR, "5.4 held", &[0xB0, 0x81]),
        closed(EUC_KR, "5.4 held at the close, counts nothing and stays", &[0xB0, 0x81]),
        open(EUC_KR, "5.4 held, then a Hangul releases it", &[0xB0, 0x81, 0xB0, 0xA1]),
        open(BIG5, "5.4 held", &[0xB0, 0x40]),
        closed(BIG5, "5.4 held at the close, counts nothing and stays", &[0xB0, 0x40]),
        open(BIG5, "5.4 held, then a Hanzi releases it", &[0xB0, 0x40, 0xB0, 0x40]),
    ]
}

/// From states in order that no stream leads to, each beside its neighbour
/// that a stream does lead to.
fn unreachable() -> Vec<Line> {
    let live = Record { live: true, ..Record::default() };
    let big5 = |b: u8| Record { a: 0xA4, b, d: 2, ..live };
    let korean = |c: u8, d: u8| Record { a: 0xB0, b: 0xB0, c, d, ..live };
    let flag_false = "5.6 lead B0, range flag false, Hangul at A1 is non-EUC";
    let flag_true = "5.6 lead B0, range flag true, Hangul at A1 is EUC";
    vec![
        from(BIG5, "5.6 lead A4, previous byte 00, then unmapped A1", big5(0x00), &[0xA1]),
        from(BIG5, "5.6 lead A4, previous byte A4, then unmapped A1", big5(0xA4), &[0xA1]),
        from(EUC_KR, flag_false, korean(0, 1), &[0xA1]),
        from(EUC_KR, "5.6 the same after no Hangul, held", korean(0, 3), &[0xA1]),
        from(EUC_KR, flag_true, korean(1, 1), &[0xA1]),
    ]
}

/// The rule reads the previous byte, not a pending lead.
fn previous_byte() -> Vec<Line> {
    vec![
        open(EUC_KR, "5.7 pair ending in 81, then FF", &[0xB0, 0x81, 0xFF]),
        open(EUC_KR, "5.7 pair ending in 82, then FF", &[0xB0, 0x82, 0xFF]),
        open(EUC_KR, "5.7 pair ending in 83, then FF", &[0xB0, 0x83, 0xFF]),
        open(EUC_KR, "5.7 pair ending in 84, then FF", &[0xB0, 0x84, 0xFF]),
        open(EUC_KR, "5.7 pair ending in 85, then FF", &[0xB0, 0x85, 0xFF]),
        open(EUC_KR, "5.7 pair ending in 81, then 80", &[0xB0, 0x81, 0x80]),
        open(EUC_KR, "5.7 pair ending in 84, then 80", &[0xB0, 0x84, 0x80]),
        open(EUC_KR, "5.7 lone FF", &[0xFF]),
        open(BIG5, "5.7 pair ending in FD, then FF", &[0xB0, 0xFD, 0xFF]),
        open(BIG5, "5.7 pair ending in FE, then FF", &[0xB0, 0xFE, 0xFF]),
        open(BIG5, "5.7 pair ending in FC, then FF", &[0xB0, 0xFC, 0xFF]),
        open(BIG5, "5.7 held, then FF drops it", &[0xB0, 0x40, 0xFF]),
    ]
}

fn mapped() -> Vec<Line> {
    vec![
        open(BIG5, "5.8 mapped private use is CJK other", &[0x88, 0x63]),
        open(BIG5, "5.8 unmapped pair is PUA", &[0xA4, 0xA1]),
        open(EUC_KR, "5.8 mapped private use is CJK other", &[0xC9, 0xA2]),
        open(EUC_KR, "5.8 unmapped pair is PUA", &[0xC9, 0xA1]),
        open(BIG5, "5.8 special 88 62 over a mapped entry", &[0x88, 0x62]),
        open(BIG5, "5.8 special 88 64 over a mapped entry", &[0x88, 0x64]),
        open(BIG5, "5.8 special 88 A3 over a mapped entry", &[0x88, 0xA3]),
        open(BIG5, "5.8 special 88 A5 over a mapped entry", &[0x88, 0xA5]),
    ]
}

/// Where document 01 stands and the text as given differs.
fn leads() -> Vec<Line> {
    let name = "5.2 lead 82 then 20, counted; the Rust as given holds and drops it";
    let at_close = "5.2 lead 82 at the close, counted; the Rust as given holds it";
    vec![open(EUC_KR, name, &[0x82, 0x41, 0x20]), closed(EUC_KR, at_close, &[0x82, 0x41])]
}

/// Each reason in each kind that can have it.
fn reasons() -> Vec<Line> {
    let escape = "101 ISO-2022-JP, an escape straight after another, at its last byte";
    let trail = "101 ISO-2022-JP, an escape byte where a trail byte is due";
    vec![
        open(UTF_8, "101 UTF-8, bad byte", b"a\xC3a"),
        closed(UTF_8, "101 UTF-8, cut at the close", b"a\xE2\x82"),
        open(ISO_2022_JP, "101 ISO-2022-JP, bad byte", b"a\x0E"),
        open(ISO_2022_JP, trail, b"\x1B$B0\x1B"),
        open(ISO_2022_JP, "101 ISO-2022-JP, unknown escape", b"\x1B(C"),
        open(ISO_2022_JP, escape, b"\x1B(B\x1B(J"),
        closed(ISO_2022_JP, "101 ISO-2022-JP, cut at the close", b"\x1B("),
        open(EUC_KR, "101 EUC-KR, bad second byte", b"\xB0\xFF"),
        open(EUC_KR, "101 EUC-KR, bad second byte that is ASCII", b"a\xA4 "),
        closed(EUC_KR, "101 EUC-KR, cut at the close", b"a\xB0"),
        open(BIG5, "101 Big5, bad byte", b"a\x80"),
        open(BIG5, "101 Big5, bad second byte that is ASCII", b"\xA4 "),
        closed(BIG5, "101 Big5, cut at the close", b"\xB0"),
        open(CASELESS, "101 caseless, class 255", b"ab\xFF"),
        from(CASELESS, "101 caseless, not in the slate", Record::none(Reason::NotInSlate, 0), b"a"),
    ]
}

/// Shift_JIS: each range of bytes that are no second ones, at its ends.
fn single_bytes() -> Vec<Line> {
    vec![
        open(SHIFT_JIS, "103 ASCII and 80", &[0x00, 0x1B, 0x7F, 0x80]),
        open(SHIFT_JIS, "103 lead 81", &[0x81]),
        open(SHIFT_JIS, "103 lead 9F", &[0x9F]),
        open(SHIFT_JIS, "103 A0, bad byte", &[0x61, 0xA0]),
        open(SHIFT_JIS, "103 half-width katakana A1 and DF", &[0xA1, 0xDF]),
        open(SHIFT_JIS, "103 lead E0", &[0xE0]),
        open(SHIFT_JIS, "103 lead FC", &[0xFC]),
        open(SHIFT_JIS, "103 FD, bad byte", &[0x61, 0xFD]),
        open(SHIFT_JIS, "103 FF, bad byte", &[0xFF]),
    ]
}

/// Private use takes every second byte that is one.
fn second_bytes() -> Vec<Line> {
    vec![
        open(SHIFT_JIS, "103 second byte 3F, bad byte", &[0xF0, 0x3F]),
        open(SHIFT_JIS, "103 second byte 40", &[0xF0, 0x40]),
        open(SHIFT_JIS, "103 second byte 7E", &[0xF0, 0x7E]),
        open(SHIFT_JIS, "103 second byte 7F, bad byte", &[0xF0, 0x7F]),
        open(SHIFT_JIS, "103 second byte 80", &[0xF0, 0x80]),
        open(SHIFT_JIS, "103 second byte FC", &[0xF0, 0xFC]),
        open(SHIFT_JIS, "103 second byte FD, bad byte", &[0xF0, 0xFD]),
    ]
}

fn entries() -> Vec<Line> {
    vec![
        open(SHIFT_JIS, "103 entry 7F, bad byte", &[0x81, 0x40]),
        open(SHIFT_JIS, "103 entry 80", &[0x81, 0x41]),
        open(SHIFT_JIS, "103 entry D7FF", &[0x81, 0x42]),
        open(SHIFT_JIS, "103 entry D800, bad byte", &[0x81, 0x43]),
        open(SHIFT_JIS, "103 entry DFFF, bad byte", &[0x81, 0x44]),
        open(SHIFT_JIS, "103 entry E000", &[0x81, 0x45]),
        open(SHIFT_JIS, "103 entry FFFF", &[0x81, 0x46]),
        open(SHIFT_JIS, "103 entry 10000, bad byte", &[0x81, 0x47]),
        open(SHIFT_JIS, "103 entry 0, bad byte", &[0x81, 0x48]),
        open(SHIFT_JIS, "103 the last entry", &[0xFC, 0xFC]),
    ]
}

fn private_use() -> Vec<Line> {
    vec![
        open(SHIFT_JIS, "103 pointer 8834 is asked of the index, bad byte", &[0xEF, 0xFB]),
        open(SHIFT_JIS, "103 pointer 8835, mapped", &[0xEF, 0xFC]),
        open(SHIFT_JIS, "103 pointer 8836, private use over no entry", &[0xF0, 0x40]),
        open(SHIFT_JIS, "103 pointer 8837, private use over entry D800", &[0xF0, 0x41]),
        open(SHIFT_JIS, "103 pointer 10714, private use over entry 10000", &[0xF9, 0xFB]),
        open(SHIFT_JIS, "103 pointer 10715, private use over no entry", &[0xF9, 0xFC]),
        open(SHIFT_JIS, "103 pointer 10716, mapped", &[0xFA, 0x40]),
        open(SHIFT_JIS, "103 pointer 10717 is asked of the index, bad byte", &[0xFA, 0x41]),
    ]
}

fn open_leads() -> Vec<Line> {
    let lead = Record { live: true, a: 0xF0, ..Record::default() };
    let none = Record::none(Reason::NotInSlate, 0);
    vec![
        closed(SHIFT_JIS, "103 a lead at the close, cut", &[0x61, 0x81]),
        closed(SHIFT_JIS, "103 a whole pair at the close", &[0xF0, 0x40]),
        closed(SHIFT_JIS, "103 nothing at the close, and no space is fed", &[]),
        from(SHIFT_JIS, "103 from a lead, its second byte", lead, &[0x40]),
        from(SHIFT_JIS, "103 from a lead, an escape byte, bad byte", lead, &[0x1B]),
        from(SHIFT_JIS, "103 not in the slate", none, &[0xA0]),
    ]
}
