//! `measure MODEL.hex ..`: what each model takes of every limit, as rows of a table: name,
//! outcome, rows of the largest set, rows kept, states, new attempts, successors, rows of
//! the region, largest entry.

use independent::input::{model, LENT};
use independent::method::search_counting;
use independent::set::take_largest;

fn main() {
    for path in std::env::args().skip(1) {
        let tables = model(&path);
        take_largest();
        let (answer, kept) = search_counting(&tables, &LENT);
        let (largest, entry) = take_largest();
        let name = path.rsplit('/').next().unwrap_or(&path);
        println!(
            "| {} | {} | {largest} | {kept} | {} | {} | {} | {} | {entry} |",
            name.trim_end_matches(".hex"),
            answer.outcome,
            answer.states,
            answer.attempts,
            answer.formed,
            answer.region.len(),
        );
    }
}
