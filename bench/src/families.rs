//! Models that grow with one number, written in the hex exchange.

use independent::frames::{line, reference_frame, row_frame};

/// A family: what its size counts, and its models.
pub struct Family {
    pub name: &'static str,
    pub counts: &'static str,
    pub largest: u8,
    pub model: fn(u8) -> String,
}

pub const FAMILIES: [Family; 4] = [
    Family {
        name: "states",
        counts: "rounds of one lease",
        largest: 15,
        model: lease_rounds,
    },
    Family {
        name: "parallel",
        counts: "leases side by side",
        largest: 4,
        model: parallel_leases,
    },
    Family {
        name: "clocks",
        counts: "clocks that are reset together",
        largest: 6,
        model: clocks,
    },
    Family {
        name: "rows",
        counts: "upper and lower rows on one clock",
        largest: 10,
        model: rows,
    },
];

const INVARIANT: u8 = 1;
const GUARD: u8 = 2;
/// Entries of the first parameters and clocks.
const P1: u8 = 1;
const P2: u8 = 2;
const P3: u8 = 3;
const X1: u8 = 9;
const X2: u8 = 10;

/// Transitions and rows of a model that is being written.
#[derive(Default)]
struct Draft {
    moves: Vec<[u8; 4]>,
    rows: String,
}

impl Draft {
    /// A transition; the rows that guard it come with its number.
    fn go(&mut self, source: u8, target: u8, resets: u8, guard: &[&[(u8, i32)]]) {
        let number = self.moves.len() as u8;
        self.moves.push([source, number, target, resets]);
        for terms in guard {
            self.row(GUARD, number, terms);
        }
    }

    fn row(&mut self, kind: u8, owner: u8, terms: &[(u8, i32)]) {
        self.rows += &line(&row_frame(kind, owner, 0, terms));
    }

    fn written(&self, clocks: u8, locations: u8, reference: &[i32]) -> String {
        let sizes = [clocks, reference.len() as u8, locations];
        let mut text = line(&[1, sizes[0], sizes[1], sizes[2], self.moves.len() as u8]);
        text += &line(&reference_frame(1, reference));
        for [source, action, target, resets] in &self.moves {
            text += &line(&[4, *source, *action, *target, *resets]);
        }
        text + &self.rows
    }
}

/// A holder asks to renew after p2 and is answered within p3, or stops when its lease is
/// p1 old. Each round has two locations of its own; x1 is the age, x2 the wait.
fn lease_rounds(rounds: u8) -> String {
    let mut draft = Draft::default();
    let stopped = 2 * rounds + 1;
    for round in 0..rounds {
        let (hold, ask) = (2 * round, 2 * round + 1);
        draft.go(hold, ask, 0b10, &[&[(P2, 1), (X1, -1)]]);
        draft.go(ask, hold + 2, 0b11, &[]);
        draft.go(ask, stopped, 0b00, &[&[(P1, 1), (X1, -1)]]);
    }
    for round in 0..rounds {
        let (hold, ask) = (2 * round, 2 * round + 1);
        draft.row(INVARIANT, hold, &[(P1, -1), (X1, 1)]);
        draft.row(INVARIANT, ask, &[(P1, -1), (X1, 1)]);
        draft.row(INVARIANT, ask, &[(P3, -1), (X2, 1)]);
    }
    draft.written(2, stopped + 1, &[60, 20, 3])
}

/// Each holder renews once, in any order, p1 or more after the one before it; the round
/// ends at p2. A location for each set of holders that have; x1 is the round, x2 the wait.
fn parallel_leases(holders: u8) -> String {
    let mut draft = Draft::default();
    let sets = 1u8 << holders;
    for set in 0..sets {
        for holder in (0..holders).filter(|h| set >> h & 1 == 0) {
            draft.go(set, set | 1 << holder, 0b10, &[&[(P1, 1), (X2, -1)]]);
        }
    }
    for set in 0..sets {
        draft.row(INVARIANT, set, &[(P2, -1), (X1, 1)]);
    }
    draft.written(2, sets, &[4, 30])
}

/// A node hears all its peers, each p1 or more after the last time, and starts every
/// clock anew; or is cut off when one clock reaches p2.
fn clocks(clocks: u8) -> String {
    let mut draft = Draft::default();
    let heard: Vec<[(u8, i32); 2]> = (0..clocks).map(|c| [(P1, 1), (X1 + c, -1)]).collect();
    let heard: Vec<&[(u8, i32)]> = heard.iter().map(|row| row.as_slice()).collect();
    draft.go(0, 0, (1 << clocks) - 1, &heard);
    draft.go(0, 1, 0, &[&[(P2, 1), (X1, -1)]]);
    draft.row(INVARIANT, 0, &[(P2, -1), (X1, 1)]);
    draft.written(clocks, 2, &[4, 9])
}

/// A guard of so many upper and so many lower rows, all of which a reset pairs.
fn rows(count: u8) -> String {
    let mut draft = Draft::default();
    draft.go(0, 1, 0b01, &[]);
    for i in 1..=i32::from(count) {
        draft.row(GUARD, 0, &[(0, -i), (P1, -1), (X1, 1)]);
        draft.row(GUARD, 0, &[(0, -100 * i), (P2, 1), (X1, -1)]);
    }
    draft.written(1, 2, &[9, 1])
}
