//! The library on stores that a harness owns.

use crate::plain::Answer;
use crate::stores::Stores;

pub fn library_region(input: &[u8], stores: &mut Stores, budget: u64) -> Answer {
    let lent = zimbralosa::Stores {
        first: &mut stores.first,
        second: &mut stores.second,
        rows: &mut stores.rows,
        result: &mut stores.result,
        roll: &mut stores.roll,
    };
    let (outcome, counts) = zimbralosa::region(input, lent, budget as usize);
    let [states, attempts, formed, rows] = counts;
    Answer {
        outcome,
        states,
        attempts,
        formed,
        rows,
    }
}
