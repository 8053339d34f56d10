//! Lent stores that a harness owns, and their two conversions.

use crate::plain::{self, Answer, Lent, Record};
use independent::store;

/// As the program lends them.
pub const BUDGET: u64 = 100_000;

/// A call that takes the input, the stores and the budget.
pub type Region = fn(&[u8], &mut Stores, u64) -> Answer;

#[derive(Clone, Debug, PartialEq, Eq)]
pub struct Stores {
    pub first: Vec<i32>,
    pub second: Vec<i32>,
    pub rows: Vec<i32>,
    pub result: Vec<i32>,
    pub roll: Vec<Record>,
}

impl Stores {
    /// The same numbers as the independent program's stores.
    pub fn of(lent: &store::Lent) -> Stores {
        let record = |numbers: &[i32; 3]| {
            let [location, first, rows] = numbers.map(|x| x as usize);
            Record {
                location,
                first,
                rows,
            }
        };
        Stores {
            first: lent.first.clone(),
            second: lent.second.clone(),
            rows: lent.rows.clone(),
            result: lent.result.clone(),
            roll: lent.roll.iter().map(record).collect(),
        }
    }

    /// Two work stores and a result store of 128 rows, 900 rows, 256 records.
    pub fn usual() -> Stores {
        Stores::of(&store::Lent::filled(&store::Lengths::usual(), 0))
    }

    pub fn lend(&mut self) -> Lent<'_> {
        Lent {
            first: &mut self.first,
            second: &mut self.second,
            rows: &mut self.rows,
            result: &mut self.result,
            roll: &mut self.roll,
        }
    }
}

/// The plain program on stores that a harness owns.
pub fn plain_region(input: &[u8], stores: &mut Stores, budget: u64) -> Answer {
    plain::region(input, stores.lend(), budget)
}

/// The independent program's answer in the terms of the plain one.
pub fn answer_of(answer: &independent::method::Answer) -> Answer {
    Answer {
        outcome: answer.outcome,
        states: answer.states as u64,
        attempts: answer.attempts as u64,
        formed: answer.formed,
        rows: answer.region.len() as u64,
    }
}
