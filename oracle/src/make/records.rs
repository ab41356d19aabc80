//! Records in order, to drive one place from.

use crate::order::{fresh, in_order, HELD, LIMIT, SHIFT_JIS, STEP, UTF_8};
use crate::random::Random;
use crate::reason::Reason;
use crate::record::Record;

/// Any record that the place can hold.
pub fn random(place: u8, random: &mut Random) -> Record {
    let fields = match place {
        0 => utf_8(*random.pick(&UTF_8)),
        1 => iso_2022_jp(random),
        2 | 3 => pairs(place, random),
        SHIFT_JIS => shift_jis(lead(random)),
        _ => single(place, random),
    };
    let bound = STEP * random.below(LIMIT + 1) as i64;
    let size = *random.pick(&[1000, bound, STEP * LIMIT as i64]);
    let score = random.signed(size);
    Record { live: true, score, ..fields }
}

fn utf_8([a, b, c]: [u8; 3]) -> Record {
    Record { a, b, c, ..Record::default() }
}

/// A lead of Shift_JIS, or none.
fn lead(random: &mut Random) -> u8 {
    match random.below(3) {
        0 => 0,
        1 => random.within(0x81, 0x9F),
        _ => random.within(0xE0, 0xFC),
    }
}

fn shift_jis(a: u8) -> Record {
    Record { a, ..Record::default() }
}

fn iso_2022_jp(random: &mut Random) -> Record {
    let a = random.within(0, 6);
    let c = match a {
        4 => random.within(0x21, 0x7E),
        6 => *random.pick(&[0x24, 0x28]),
        _ => 0,
    };
    Record { a, b: random.within(0, 3), c, d: random.within(0, 1), ..Record::default() }
}

fn count(random: &mut Random) -> u64 {
    match random.below(4) {
        0 => LIMIT - random.below(3),
        1 => random.below(LIMIT + 1),
        _ => random.below(9),
    }
}

fn pairs(place: u8, random: &mut Random) -> Record {
    let lead = if random.once_in(3) { 0 } else { random.within(0x81, 0xFE) };
    let byte = if random.once_in(3) { random.byte() } else { lead };
    let held = random.once_in(2);
    let korean = place == 2;
    Record {
        a: lead,
        b: byte,
        c: (korean && random.once_in(2)) as u8,
        d: random.within(0, if korean { 3 } else { 2 }),
        e: held as u8,
        x: if korean { count(random) } else { 0 },
        z: if held { random.signed(HELD) } else { 0 },
        ..Record::default()
    }
}

fn single(place: u8, random: &mut Random) -> Record {
    let classes = *random.pick(&[3, 22, 128]);
    Record {
        a: random.below(classes) as u8,
        b: random.within(0, 1),
        c: random.within(0, [0, 0, 1, 3][usize::from(place - 4)]),
        x: count(random),
        y: count(random),
        z: if matches!(place, 5 | 6) { count(random) as i64 } else { 0 },
        ..Record::default()
    }
}

/// Bytes that mostly go on with what the record has under way.
pub fn going_on(place: u8, record: &Record, random: &mut Random) -> Vec<u8> {
    match (place, record.a) {
        (0, 1..) => {
            let second = random.within(record.b, record.c);
            let more = (1..record.a).map(|_| random.within(0x80, 0xBF));
            std::iter::once(second).chain(more).collect()
        }
        (1, 4) => vec![random.within(0x21, 0x7E)],
        (1, 5) => vec![0x28, *random.pick(b"BJI")],
        (1, 6) if record.c == 0x24 => vec![0x42],
        (1, 6) => vec![*random.pick(b"BJI")],
        (2 | 3, 1..) => vec![random.within(0x41, 0xFE)],
        (SHIFT_JIS, 1..) => vec![random.within(0x40, 0xFC)],
        _ => vec![],
    }
}

/// Records at their bounds: the greatest scores and counts over some states.
pub fn bounds(place: u8) -> Vec<Record> {
    let most = STEP * LIMIT as i64;
    let all = states(place);
    let single = matches!(place, 4..=7);
    // An odd stride, so that fields with two values take both.
    let chosen = all.iter().step_by(1 + all.len() / 12 | 1);
    let at_bounds = |(number, record): (usize, &Record)| Record {
        score: if number % 2 == 0 { most } else { -most },
        x: if record.x != 0 || single { LIMIT } else { record.x },
        y: if single { LIMIT - number as u64 % 2 } else { 0 },
        z: match place {
            2 | 3 if record.e == 1 => record.z.signum() * HELD,
            5 | 6 => LIMIT as i64,
            _ => 0,
        },
        ..*record
    };
    chosen.enumerate().map(at_bounds).collect()
}

/// Records without a score: each reason that the place can have, at some
/// places of bytes.
pub fn dropped(place: u8) -> Vec<Record> {
    let fits = |at: u64| {
        let with = Reason::ALL.map(|reason| Record::none(reason, at));
        with.into_iter().filter(|record| in_order(place, record))
    };
    [0, 1, 7, LIMIT].into_iter().flat_map(fits).collect()
}

/// Every state of the place, its counts and scores apart; for EUC-KR and Big5
/// the previous byte is the lead or one that is not.
pub fn states(place: u8) -> Vec<Record> {
    let fields: Vec<Record> = match place {
        0 => UTF_8.map(utf_8).to_vec(),
        1 => iso_2022_jp_states(),
        2 | 3 => pair_states(place),
        SHIFT_JIS => [0].into_iter().chain(0x81..=0x9F).chain(0xE0..=0xFC).map(shift_jis).collect(),
        _ => single_states(place),
    };
    let live = |record: Record| Record { live: true, ..record };
    fields.into_iter().map(live).collect()
}

fn iso_2022_jp_states() -> Vec<Record> {
    let mut all = Vec::new();
    for a in 0..7 {
        let leads: Vec<u8> = match a {
            4 => (0x21..=0x7E).collect(),
            6 => vec![0x24, 0x28],
            _ => vec![0],
        };
        for c in leads {
            for (b, d) in (0..4).flat_map(|b| [(b, 0), (b, 1)]) {
                all.push(Record { a, b, c, d, ..Record::default() });
            }
        }
    }
    all
}

/// Previous bytes that are not the lead, taken in turn.
const OTHERS: [u8; 9] = [0x00, 0x61, 0x81, 0x91, 0xA0, 0xA1, 0xC9, 0xFD, 0xFE];

fn pair_states(place: u8) -> Vec<Record> {
    let (kinds, flags) = if place == 2 { (4, 2) } else { (3, 1) };
    let mut all = Vec::new();
    for a in std::iter::once(0).chain(0x81..=0xFE) {
        for (d, c) in (0..kinds).flat_map(|d| (0..flags).map(move |c| (d, c))) {
            for e in [0, 1] {
                let other = OTHERS[all.len() / 2 % OTHERS.len()];
                let x = if place == 2 { [0, 4, 5][all.len() / 2 % 3] } else { 0 };
                let z = if e == 1 { [77, -77][all.len() / 4 % 2] } else { 0 };
                let record = Record { a, b: a, c, d, e, x, z, ..Record::default() };
                all.extend([record, Record { b: other, ..record }]);
            }
        }
    }
    all
}

fn single_states(place: u8) -> Vec<Record> {
    let flags = [1, 1, 2, 4][usize::from(place - 4)];
    let mut all = Vec::new();
    for a in 0..128 {
        for (b, c) in (0..2).flat_map(|b| (0..flags).map(move |c| (b, c))) {
            let (x, y) = [(0, 0), (3, 2), (2, 3), (2, 2)][all.len() % 4];
            all.push(Record { a, b, c, x, y, ..fresh(place) });
        }
    }
    all
}
