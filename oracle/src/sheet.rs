//! A place's line in the replay format.

use crate::reason::Reason;
use crate::record::Record;

pub const NAMES: [&str; 9] = [
    "utf-8",
    "iso-2022-jp",
    "euc-kr",
    "big5",
    "caseless",
    "logical",
    "visual",
    "arabic-french",
    "shift_jis",
];

const STATES: [&str; 7] = ["ascii", "roman", "katakana", "lead", "trail", "escape-start", "escape"];
const KOREAN: [&str; 4] = ["letter", "hangul", "hanja", "other"];
const CHINESE: [&str; 3] = ["letter", "cj", "other"];
const CASES: [&str; 4] = ["space", "upper", "lower", "caps"];

fn name<'a>(names: &[&'a str], number: u8) -> &'a str {
    names[usize::from(number)]
}

pub fn line(place: u8, record: &Record) -> String {
    let head = name(&NAMES, place);
    if !record.live {
        let reason = Reason::of_number(record.a).expect("a record in order");
        return format!("{head} none {} {}\n", reason.name(), record.x);
    }
    format!("{head} {} {}\n", record.score, fields(place, record))
}

fn fields(place: u8, record: &Record) -> String {
    let &Record { a, b, c, d, e, x, y, z, .. } = record;
    let held = if e == 0 { "none".to_string() } else { z.to_string() };
    match place {
        0 => format!("need={a} lo={b:02x} hi={c:02x}"),
        1 => {
            let (state, out) = (name(&STATES, a), name(&STATES, b));
            format!("state={state} out={out} lead={c:02x} output={d}")
        }
        2 => {
            let prev = name(&KOREAN, d);
            format!("lead={a:02x} byte={b:02x} euc={c} prev={prev} word={x} held={held}")
        }
        3 => format!("lead={a:02x} byte={b:02x} prev={} held={held}", name(&CHINESE, d)),
        4 => format!("prev={a} ascii={b} word={x} longest={y}"),
        5 => format!("prev={a} ascii={b} punct={z} word={x} longest={y}"),
        6 => format!("prev={a} ascii={b} prevpunct={c} punct={z} word={x} longest={y}"),
        7 => format!("prev={a} ascii={b} case={} word={x} longest={y}", name(&CASES, c)),
        _ => format!("lead={a:02x}"),
    }
}
