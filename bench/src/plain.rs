//! The rules in plain safe Rust: fixed stores lent by the caller, no heap.

pub mod alone;
mod model;
mod read;
mod row;
mod search;
mod set;
mod work;

use model::Model;
use row::{Row, NUMBERS};
use search::{Own, Search};
use set::MOST;
use work::Work;

// One type for both where the library is built in, so that no roll is copied.
#[cfg(feature = "library")]
pub use zimbralosa::Record;

/// A kept state: its location, the place of its first row, its number of rows.
#[cfg(not(feature = "library"))]
#[derive(Clone, Copy, Debug, Default, PartialEq, Eq)]
pub struct Record {
    pub location: usize,
    pub first: usize,
    pub rows: usize,
}

/// What a caller lends.
pub struct Lent<'a> {
    pub first: &'a mut [i32],
    pub second: &'a mut [i32],
    pub rows: &'a mut [i32],
    pub result: &'a mut [i32],
    pub roll: &'a mut [Record],
}

#[derive(Clone, Copy, Debug, Default, PartialEq, Eq)]
pub struct Answer {
    pub outcome: u8,
    pub states: u64,
    pub attempts: u64,
    pub formed: u64,
    pub rows: u64,
}

/// The outcomes but 0, by their numbers.
#[repr(u8)]
#[derive(Clone, Copy, Debug, PartialEq, Eq)]
pub enum Refusal {
    NoFrame = 1,
    Order = 2,
    Header = 3,
    Reference = 4,
    Undeclared = 5,
    Terms = 6,
    Initial = 7,
    Start = 8,
    TooLarge = 9,
    TooMany = 10,
    NoRoom = 11,
    Budget = 12,
    Short = 13,
}

/// The region of a model in the hex exchange.
pub fn region(input: &[u8], lent: Lent, budget: u64) -> Answer {
    let mut model = Model::empty();
    match checked(input, &lent, &mut model) {
        Ok(()) => explore(&model, lent, budget),
        Err(refusal) => Answer {
            outcome: refusal as u8,
            ..Answer::default()
        },
    }
}

/// The refusals that leave every store as it was.
fn checked(input: &[u8], lent: &Lent, model: &mut Model) -> Result<(), Refusal> {
    let stores = [&lent.first, &lent.second, &lent.result];
    if stores.iter().any(|store| store.len() < MOST * NUMBERS) {
        return Err(Refusal::Short);
    }
    read::read(input, model)?;
    model.check_reference()
}

fn explore(model: &Model, lent: Lent, budget: u64) -> Answer {
    let mut own = Own::new();
    let work = Work::new(lent.first, lent.second).expect("lengths are checked");
    let (rows, _) = lent.rows.as_chunks_mut::<NUMBERS>();
    let answer = Search::new(model, work, rows, lent.roll, &mut own, budget).run(lent.result);
    for store in [lent.first, lent.second, lent.rows] {
        zero_rows(store);
    }
    lent.roll.fill(Record::default());
    answer
}

/// Whole rows only: numbers beyond the last are never touched.
fn zero_rows(store: &mut [i32]) {
    let rows: &mut [Row] = store.as_chunks_mut().0;
    rows.as_flattened_mut().fill(0);
}
