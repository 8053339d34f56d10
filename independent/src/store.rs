//! What the lent stores must hold at the end, worked out from their first contents and
//! the answer alone.

use crate::frames;
use crate::method::{search, Answer, Limits};
use crate::model::Tables;
use crate::row::{Row, NUMBERS};
use crate::set::MOST;

/// The least length of a work store and of the result store.
pub const LEAST: usize = MOST * NUMBERS;

/// Length of the whole rows; what lies beyond is never touched.
pub fn whole(length: usize) -> usize {
    length / NUMBERS * NUMBERS
}

pub fn zero_whole(store: &mut [i32]) {
    let end = whole(store.len());
    store[..end].fill(0);
}

/// Writes rows at the front and leaves the rest.
pub fn put_rows(store: &mut [i32], rows: &[Row]) {
    for (place, row) in store.chunks_exact_mut(NUMBERS).zip(rows) {
        place.copy_from_slice(&row.numbers());
    }
}

/// Everything lent to the method. A record is location, first row, row count.
#[derive(Clone, Debug, PartialEq, Eq)]
pub struct Lent {
    pub first: Vec<i32>,
    pub second: Vec<i32>,
    pub rows: Vec<i32>,
    pub result: Vec<i32>,
    pub roll: Vec<[i32; 3]>,
}

impl Lent {
    /// Stores of these lengths with one number everywhere; the roll takes its size.
    pub fn filled(lengths: &Lengths, filler: i8) -> Lent {
        let number = i32::from(filler);
        Lent {
            first: vec![number; lengths.first],
            second: vec![number; lengths.second],
            rows: vec![number; lengths.rows],
            result: vec![number; lengths.result],
            roll: vec![[number.abs(); 3]; lengths.records],
        }
    }

    fn too_short(&self) -> bool {
        [&self.first, &self.second, &self.result]
            .iter()
            .any(|store| store.len() < LEAST)
    }

    /// Brings the stores to their end for an answer.
    fn settle(&mut self, answer: &Answer) {
        if matches!(answer.outcome, 1..=8 | 13) {
            return;
        }
        for store in [&mut self.first, &mut self.second, &mut self.rows] {
            zero_whole(store);
        }
        self.roll.fill([0; 3]);
        if answer.outcome == 0 {
            put_rows(&mut self.result, &answer.region);
        }
    }
}

#[derive(Clone, Copy, Debug, PartialEq, Eq)]
pub struct Lengths {
    pub first: usize,
    pub second: usize,
    pub result: usize,
    pub rows: usize,
    pub records: usize,
}

impl Lengths {
    /// Work and result stores just long enough, 900 rows, 256 records: what the program lends.
    pub fn usual() -> Lengths {
        Lengths {
            first: LEAST,
            second: LEAST,
            result: LEAST,
            rows: 900 * NUMBERS,
            records: 256,
        }
    }
}

/// The whole method on hex bytes, with lent stores.
pub fn run_bytes(bytes: &[u8], lent: &mut Lent, budget: u64) -> Answer {
    run(|| frames::read_checked(bytes), lent, budget)
}

/// The whole method on tables, with lent stores.
pub fn run_tables(tables: &Tables, lent: &mut Lent, budget: u64) -> Answer {
    run(|| tables.checked().map(|()| tables.clone()), lent, budget)
}

/// Short stores are met before the model is looked at.
fn run(model: impl FnOnce() -> Result<Tables, u8>, lent: &mut Lent, budget: u64) -> Answer {
    if lent.too_short() {
        return Answer::refusal(13);
    }
    let answer = match model() {
        Err(outcome) => Answer::refusal(outcome),
        Ok(model) => search(&model, &limits(lent, budget)),
    };
    lent.settle(&answer);
    answer
}

fn limits(lent: &Lent, budget: u64) -> Limits {
    Limits {
        rows: lent.rows.len() / NUMBERS,
        records: lent.roll.len(),
        budget,
    }
}
