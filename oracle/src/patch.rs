//! Single entries of lent data set by hand: `pair4:2=100` and the like.

use crate::lent;
use crate::make::tables::{Part, Tables};

/// `bytes` with each change made, or what is wrong with a change.
pub fn run(changes: &[&str], bytes: Vec<u8>) -> Result<Vec<u8>, String> {
    if bytes.len() != lent::SIZE {
        return Err("not lent data".into());
    }
    let mut tables = Tables { bytes };
    for change in changes {
        let (part, entry, value) = parse(change).ok_or(format!("not a change: {change}"))?;
        tables.set(part, entry, value);
    }
    Ok(tables.bytes)
}

fn parse(change: &str) -> Option<(Part, usize, i64)> {
    let (key, value) = change.split_once('=')?;
    let (name, entry) = key.split_once(':')?;
    let part = part(name)?;
    let entry = usize::try_from(number(entry)?).ok()?;
    (entry < part.layout().1).then_some((part, entry, number(value)?))
}

fn part(name: &str) -> Option<Part> {
    match name {
        "big5" => return Some(Part::Big5),
        "euckr" => return Some(Part::EucKr),
        "jis" => return Some(Part::Jis),
        "extra" => return Some(Part::Extra),
        "weight" => return Some(Part::Weight),
        _ => {}
    }
    let (table, place) = name.split_at_checked(name.len().checked_sub(1)?)?;
    let place = place.parse().ok().filter(|place| (4..8).contains(place))?;
    match table {
        "class" => Some(Part::Class(place)),
        "mark" => Some(Part::Mark(place)),
        "pair" => Some(Part::Pair(place)),
        _ => None,
    }
}

/// Decimal, or hexadecimal after `0x`.
fn number(text: &str) -> Option<i64> {
    match text.strip_prefix("0x") {
        Some(digits) => i64::from_str_radix(digits, 16).ok(),
        None => text.parse().ok(),
    }
}
