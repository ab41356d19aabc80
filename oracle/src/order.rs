//! Which records a place can hold, as document 01 calls it in order. The
//! drive takes no other, and the generator makes no other.

use crate::reason::Reason;
use crate::record::Record;

/// How many places there are, and that of Shift_JIS, which is the last.
pub const PLACES: u8 = 9;
pub const SHIFT_JIS: u8 = 8;
/// The bytes of the longest stream, and so the bound on every count.
pub const LIMIT: u64 = 268_435_456;
/// What one byte can add to a score, and the bound on a score held.
pub const STEP: i64 = 10_737_418_240;
pub const HELD: i64 = 2_147_483_648;
/// UTF-8's need, lower and upper boundary: its eight states.
pub const UTF_8: [[u8; 3]; 8] = [
    [0, 0x80, 0xBF],
    [1, 0x80, 0xBF],
    [2, 0x80, 0xBF],
    [2, 0xA0, 0xBF],
    [2, 0x80, 0x9F],
    [3, 0x80, 0xBF],
    [3, 0x90, 0xBF],
    [3, 0x80, 0x8F],
];

/// A place's record at the start of a stream.
pub fn fresh(place: u8) -> Record {
    let fields = match place {
        0 => Record { b: 0x80, c: 0xBF, ..Record::default() },
        1 | SHIFT_JIS => Record::default(),
        2 => Record { d: 3, ..Record::default() },
        3 => Record { d: 2, ..Record::default() },
        _ => Record { b: 1, ..Record::default() },
    };
    Record { live: true, ..fields }
}

pub fn in_order(place: u8, record: &Record) -> bool {
    if !record.live {
        return Reason::of_number(record.a).is_some_and(|reason| none(place, record, reason));
    }
    let score = record.score.unsigned_abs() <= STEP as u64 * LIMIT;
    score && kept(place, record) && !stray(place, record)
}

/// Without a score: a reason that the kind can have, and where.
fn none(place: u8, record: &Record, reason: Reason) -> bool {
    let furthest = match reason {
        Reason::NotInSlate => 0,
        // The space that the close feeds is one byte more.
        Reason::Class255 => LIMIT + 1,
        _ => LIMIT,
    };
    reason.fits(place) && record.x <= furthest && *record == Record::none(reason, record.x)
}

fn kept(place: u8, r: &Record) -> bool {
    let lead = r.a == 0 || matches!(r.a, 0x81..=0xFE);
    let held = r.e <= 1 && r.z.unsigned_abs() <= HELD as u64 && (r.e == 1 || r.z == 0);
    let single = r.a < 128 && r.b <= 1 && r.x <= LIMIT && r.y <= LIMIT;
    let counted = (0..=LIMIT as i64).contains(&r.z);
    match place {
        0 => UTF_8.contains(&[r.a, r.b, r.c]),
        1 => r.a <= 6 && r.b <= 3 && r.d <= 1 && escape_or_pair(r.a, r.c),
        2 => lead && r.c <= 1 && r.d <= 3 && held && r.x <= LIMIT,
        3 => lead && r.d <= 2 && held,
        4 => single,
        5 => single && counted,
        6 => single && counted && r.c <= 1,
        7 => single && r.c <= 3,
        _ => matches!(r.a, 0 | 0x81..=0x9F | 0xE0..=0xFC),
    }
}

fn escape_or_pair(state: u8, lead: u8) -> bool {
    match state {
        4 => matches!(lead, 0x21..=0x7E),
        6 => matches!(lead, 0x24 | 0x28),
        _ => lead == 0,
    }
}

/// Whether a field that the place does not use is other than zero.
fn stray(place: u8, r: &Record) -> bool {
    let counts = r.x != 0 || r.y != 0;
    match place {
        0 => r.d != 0 || r.e != 0 || counts || r.z != 0,
        1 => r.e != 0 || counts || r.z != 0,
        2 => r.y != 0,
        3 => r.c != 0 || counts,
        4 => r.c != 0 || r.d != 0 || r.e != 0 || r.z != 0,
        5 => r.c != 0 || r.d != 0 || r.e != 0,
        6 => r.d != 0 || r.e != 0,
        7 => r.d != 0 || r.e != 0 || r.z != 0,
        _ => r.b != 0 || r.c != 0 || r.d != 0 || r.e != 0 || counts || r.z != 0,
    }
}
