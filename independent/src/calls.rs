//! Calls made up from a seed, with the stores that they lend: whole models and removals.

use crate::frames::{read_checked, written};
use crate::gen::{damaged, model, Rng, STYLES};
use crate::model::{
    Tables, MILLION, MOST_CLOCKS, MOST_LOCATIONS, MOST_PARAMETERS, MOST_TRANSITIONS,
};
use crate::row::NUMBERS;
use crate::store::{Lengths, Lent, LEAST};

/// A call for a region.
pub struct RegionCall {
    pub input: Vec<u8>,
    pub lent: Lent,
    pub budget: u64,
}

/// A call for a removal.
pub struct RemovalCall {
    pub first: Vec<i32>,
    pub second: Vec<i32>,
    pub count: usize,
    pub variables: Vec<u8>,
}

/// Models as people write them; their own budgets would take the independent program long.
const WRITTEN: [&str; 17] = [
    include_str!("../../models/toy.hex"),
    include_str!("../../models/opposed_guards.hex"),
    include_str!("../../models/heartbeat_one_way.hex"),
    include_str!("../../models/link_both_directions.hex"),
    include_str!("../../models/lease_nine_rounds.hex"),
    include_str!("../../models/disk_lease.hex"),
    include_str!("../../models/restart_grace.hex"),
    include_str!("../../models/election.hex"),
    include_str!("../../models/quorum_of_four.hex"),
    include_str!("../../models/commit_two_phases.hex"),
    include_str!("../../models/retransmission.hex"),
    include_str!("../../models/doubling_backoff.hex"),
    include_str!("../../models/session_table.hex"),
    include_str!("../../models/three_clocks.hex"),
    include_str!("../../models/six_clocks.hex"),
    include_str!("../../models/two_links_in_rounds.hex"),
    include_str!("../../models/watchdog_fractions.hex"),
];

impl RegionCall {
    pub fn drawn(rng: &mut Rng) -> RegionCall {
        let input = input(rng);
        let lengths = lengths(rng);
        let budget = match rng.below(20) {
            0..=6 => rng.below(12) as u64,
            7..=14 => 150,
            15..=18 => 500,
            // Few records keep this short.
            _ if lengths.records < 5 => u64::MAX,
            _ => rng.below(80) as u64,
        };
        RegionCall {
            input,
            lent: filled(rng, &lengths),
            budget,
        }
    }
}

fn input(rng: &mut Rng) -> Vec<u8> {
    let tables = if rng.chance(20) {
        altered(rng)
    } else {
        let style = *rng.pick(&STYLES);
        model(rng, style)
    };
    let tables = enlarged(rng, tables);
    let text = written(&tables);
    match rng.below(100) {
        0..=13 => damaged(rng, &text),
        14..=17 => twice_damaged(rng, &text),
        18 => around_the_longest(rng, &text),
        _ => text.into_bytes(),
    }
}

/// A written model with a few numbers, rows and resets changed.
fn altered(rng: &mut Rng) -> Tables {
    let text = *rng.pick(&WRITTEN);
    let mut tables = read_checked(text.as_bytes()).expect("a stored model");
    for _ in 0..rng.below(4) {
        let rows = tables.rows.len();
        let transitions = tables.transitions.len();
        match rng.below(6) {
            0 | 1 => *pick_mut(rng, &mut tables.numerators) = rng_value(rng),
            2 if rows > 0 => drop(tables.rows.remove(rng.below(rows))),
            3 if rows > 0 => {
                let row = &mut tables.rows[rng.below(rows)];
                row.strict = 1 - row.strict;
            }
            4 if rows > 0 => {
                let row = &mut tables.rows[rng.below(rows)];
                let at = rng.below(row.entries.len());
                if row.entries[at] != 0 {
                    row.entries[at] = rng.between(1, 7) * row.entries[at].signum();
                }
            }
            5 if transitions > 0 => {
                let clocks = tables.header.clocks;
                let transition = &mut tables.transitions[rng.below(transitions)];
                transition.resets = rng.below(1 << clocks) as u8;
            }
            _ => {}
        }
    }
    tables.row_count = tables.rows.len();
    tables
}

fn pick_mut<'a, T>(rng: &mut Rng, items: &'a mut [T]) -> &'a mut T {
    &mut items[rng.below(items.len())]
}

fn rng_value(rng: &mut Rng) -> i64 {
    if rng.chance(90) {
        rng.between(0, 40)
    } else {
        rng.between(0, MILLION)
    }
}

/// Now and then more clocks, parameters, locations, transitions or rows, up to the most and one beyond.
fn enlarged(rng: &mut Rng, mut tables: Tables) -> Tables {
    if rng.chance(20) {
        widen(rng, &mut tables);
    }
    if rng.chance(6) {
        lengthen(rng, &mut tables);
    }
    if rng.chance(2) && !tables.rows.is_empty() {
        let wanted = 120 + rng.below(10);
        while tables.rows.len() < wanted {
            let again = rng.pick(&tables.rows).clone();
            tables.rows.push(again);
        }
        tables.row_count = tables.rows.len();
    }
    tables
}

fn widen(rng: &mut Rng, tables: &mut Tables) {
    let header = &mut tables.header;
    header.clocks = MOST_CLOCKS.min(header.clocks + rng.below(4) as u8);
    header.parameters = MOST_PARAMETERS.min(header.parameters + rng.below(6) as u8);
    let parameters = usize::from(header.parameters);
    tables
        .numerators
        .resize_with(parameters, || rng.between(0, 9));
}

fn lengthen(rng: &mut Rng, tables: &mut Tables) {
    let header = &mut tables.header;
    header.locations = MOST_LOCATIONS.min(header.locations + rng.below(33) as u8);
    let wanted = MOST_TRANSITIONS.min(header.transitions + rng.below(65) as u8);
    let locations = usize::from(header.locations);
    let Some(&last) = tables.transitions.last() else {
        return;
    };
    header.transitions = wanted;
    tables.transitions.resize_with(usize::from(wanted), || {
        let mut another = last;
        another.source = rng.below(locations) as u8;
        another.target = rng.below(locations) as u8;
        another.action = rng.below(256) as u8;
        another
    });
}

fn twice_damaged(rng: &mut Rng, text: &str) -> Vec<u8> {
    let once = damaged(rng, text);
    match String::from_utf8(once) {
        Ok(text) if !text.is_empty() => damaged(rng, &text),
        Ok(text) => text.into_bytes(),
        Err(bytes) => bytes.into_bytes(),
    }
}

/// Lines repeated to 65,536 bytes and a few more or fewer.
fn around_the_longest(rng: &mut Rng, text: &str) -> Vec<u8> {
    let length = 65_530 + rng.below(12);
    let mut bytes = text.repeat(length / text.len() + 1).into_bytes();
    bytes.truncate(length);
    bytes
}

fn lengths(rng: &mut Rng) -> Lengths {
    let [first, second, result] = [(); 3].map(|()| length(rng));
    let few = rng.chance(30);
    let rows = match rng.below(10) {
        _ if few => rng.below(25),
        0 => 900 + rng.below(200),
        1 => rng.below(200),
        _ => 900,
    };
    let records = match rng.below(4) {
        0 if few => 0,
        _ if few => rng.below(5),
        0 => rng.below(300),
        _ => 256,
    };
    Lengths {
        first,
        second,
        result,
        rows: rows * NUMBERS + rng.below(NUMBERS),
        records,
    }
}

fn length(rng: &mut Rng) -> usize {
    match rng.below(100) {
        0 => rng.below(LEAST),
        1 => LEAST - 1 - rng.below(20),
        2..=30 => LEAST,
        _ => LEAST + rng.below(40),
    }
}

/// One number everywhere, or numbers of all sizes.
fn filled(rng: &mut Rng, lengths: &Lengths) -> Lent {
    let mut lent = Lent::filled(lengths, rng.between(-128, 127) as i8);
    if rng.chance(50) {
        for store in [
            &mut lent.first,
            &mut lent.second,
            &mut lent.rows,
            &mut lent.result,
        ] {
            store.fill_with(|| rng.draw() as i32);
        }
        lent.roll
            .fill_with(|| [(); 3].map(|()| rng.draw() as i32 & i32::MAX));
    }
    lent
}

impl RemovalCall {
    pub fn drawn(rng: &mut Rng) -> RemovalCall {
        RemovalCall {
            first: store(rng),
            second: store(rng),
            count: match rng.below(40) {
                0 => 127 + rng.below(4),
                1 => usize::MAX - rng.below(3),
                2..=9 => rng.below(129),
                _ => rng.below(30),
            },
            variables: (0..*rng.pick(&[0, 1, 1, 2, 2, 3, 4, 6, 15]))
                .map(|_| variable(rng))
                .collect(),
        }
    }
}

fn variable(rng: &mut Rng) -> u8 {
    if rng.chance(1) {
        *rng.pick(&[0, 16, 17, 127, 128, 255])
    } else {
        rng.between(1, 15) as u8
    }
}

/// A store of rows whose entries are mostly small, sometimes all large.
fn store(rng: &mut Rng) -> Vec<i32> {
    let top = *rng.pick(&[1, 1, 3, 100, 100_000, 1_000_000_000, i64::from(i32::MAX)]);
    let density = *rng.pick(&[5, 10, 25, 40]);
    let mut store: Vec<i32> = (0..length(rng))
        .map(|place| match place % NUMBERS {
            16 => i32::from(rng.chance(30)),
            _ if rng.chance(density) => rng.between(-top - 1, top) as i32,
            _ => 0,
        })
        .collect();
    if rng.chance(30) {
        one_large_row(rng, &mut store);
    }
    if rng.chance(3) {
        let rows = store.len() / NUMBERS;
        let flag = rng.below(30.min(rows + 1)) * NUMBERS + NUMBERS - 1;
        if let Some(place) = store.get_mut(flag) {
            *place = *rng.pick(&[2, -1, 256, i32::MIN, i32::MAX]);
        }
    }
    store
}

/// Large entries among small ones, so that 9 and 10 can meet in one step.
fn one_large_row(rng: &mut Rng, store: &mut [i32]) {
    let rows = store.chunks_exact_mut(NUMBERS);
    if let Some(row) = rows.take(20).nth(rng.below(20)) {
        for entry in row[..NUMBERS - 1].iter_mut().filter(|entry| **entry != 0) {
            *entry = rng.between(-999_999_999, 999_999_999) as i32;
        }
    }
}
