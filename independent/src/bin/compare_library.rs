//! The library against this program, call for call: `compare_library N SEED`, or `model SEED` or `removal SEED`
//! for one call.
//!
//! N made-up models and N removals called alone. Both sides get equal stores; outcome, counts and every number of
//! every store and record are compared. Ends with 1 where they differ.

use independent::calls::{RegionCall, RemovalCall};
use independent::gen::Rng;
use independent::removal::alone;
use independent::store::{run_bytes, Lent};
use independent::text::{runs, tally};
use zimbralosa::{region_counted, remove_answered, Record, Stores};

/// How many differences are printed in full.
const SHOWN: usize = 3;

#[derive(Default)]
struct Seen {
    outcomes: [usize; 14],
    differences: usize,
}

impl Seen {
    fn count(&mut self, outcome: u8, difference: Option<String>) {
        self.outcomes[usize::from(outcome)] += 1;
        let Some(words) = difference else { return };
        self.differences += 1;
        if self.differences <= SHOWN {
            println!("DIFFERENCE\n{words}");
        }
    }

    fn report(&self, what: &str) {
        let cases: usize = self.outcomes.iter().sum();
        println!("{what} {cases}: {}", tally(&self.outcomes));
        println!("differences {}", self.differences);
    }
}

fn main() {
    let words: Vec<String> = std::env::args().skip(1).collect();
    let seed = words.get(1).and_then(|word| word.parse().ok());
    let (Some(word), Some(seed)) = (words.first(), seed) else {
        eprintln!("compare_library N SEED, or model SEED or removal SEED for one call");
        std::process::exit(2);
    };
    let (mut models, mut removals) = (Seen::default(), Seen::default());
    match (word.as_str(), word.parse()) {
        ("model", _) => one_model(seed, &mut models),
        ("removal", _) => one_removal(seed, &mut removals),
        (_, Ok(count)) => all(count, seed, &mut models, &mut removals),
        _ => std::process::exit(2),
    }
    models.report("models");
    removals.report("removals");
    if models.differences + removals.differences > 0 {
        std::process::exit(1);
    }
}

/// Each call has a seed of its own, so that it can be made again alone.
fn all(count: u64, seed: u64, models: &mut Seen, removals: &mut Seen) {
    let mut rng = Rng::new(seed);
    for _ in 0..count {
        one_model(rng.draw(), models);
        one_removal(rng.draw(), removals);
    }
}

/// Counts as lent: junk, and too few of them now and then.
fn junk(rng: &mut Rng, usual: usize) -> Vec<u64> {
    let length = if rng.chance(10) {
        rng.below(usual + 3)
    } else {
        usual
    };
    (0..length).map(|_| rng.draw()).collect()
}

/// What lent counts must hold: written where there is room for all, else left.
fn written_to<const N: usize>(lent: &[u64], numbers: [u64; N]) -> Vec<u64> {
    let mut counts = lent.to_vec();
    if let Some(front) = counts.get_mut(..N) {
        front.copy_from_slice(&numbers);
    }
    counts
}

fn one_model(seed: u64, seen: &mut Seen) {
    let mut rng = Rng::new(seed);
    let call = RegionCall::drawn(&mut rng);
    let before = junk(&mut rng, 4);
    let mut want = call.lent.clone();
    let answer = run_bytes(&call.input, &mut want, call.budget);
    let rows = answer.region.len() as u64;
    let numbers = [
        answer.states as u64,
        answer.attempts as u64,
        answer.formed,
        rows,
    ];
    let want_counts = written_to(&before, numbers);

    let mut got = call.lent.clone();
    let mut roll: Vec<Record> = got.roll.iter().map(record).collect();
    let mut counts = before.clone();
    let stores = Stores {
        first: &mut got.first,
        second: &mut got.second,
        rows: &mut got.rows,
        result: &mut got.result,
        roll: &mut roll,
    };
    let outcome = region_counted(&call.input, stores, call.budget as usize, &mut counts);
    let want_roll: Vec<Record> = want.roll.iter().map(record).collect();
    let same_stores = got.first == want.first
        && got.second == want.second
        && got.rows == want.rows
        && got.result == want.result
        && roll == want_roll;
    let same = outcome == answer.outcome && counts == want_counts && same_stores;
    let difference = (!same).then(|| {
        got.roll = roll
            .iter()
            .map(|r| [r.location, r.first, r.rows].map(|x| x as i32))
            .collect();
        format!(
            "model, seed {seed}, budget {}\ninput:\n{}\nstores lent:\n{}expected outcome {} counts {want_counts:?}\n{}\
             library outcome {outcome} counts {counts:?}\n{}",
            call.budget,
            String::from_utf8_lossy(&call.input),
            shown(&call.lent),
            answer.outcome,
            shown(&want),
            shown(&got),
        )
    });
    seen.count(answer.outcome, difference);
}

fn record(numbers: &[i32; 3]) -> Record {
    let [location, first, rows] = numbers.map(|x| x as usize);
    Record {
        location,
        first,
        rows,
    }
}

fn shown(lent: &Lent) -> String {
    runs("first", &lent.first)
        + &runs("second", &lent.second)
        + &runs("rows", &lent.rows)
        + &runs("result", &lent.result)
        + &runs("roll", &lent.roll.concat())
}

fn one_removal(seed: u64, seen: &mut Seen) {
    let mut rng = Rng::new(seed);
    let call = RemovalCall::drawn(&mut rng);
    let before = junk(&mut rng, 2);
    let (mut first, mut second) = (call.first.clone(), call.second.clone());
    let (want, in_second, rows) = alone(&mut first, &mut second, call.count, &call.variables);
    let want_answer = written_to(&before, [u64::from(in_second), rows as u64]);

    let (mut a, mut b) = (call.first.clone(), call.second.clone());
    let mut answer = before.clone();
    let got = remove_answered(&mut a, &mut b, call.count, &call.variables, &mut answer);
    let same = got == want && answer == want_answer && a == first && b == second;
    let difference = (!same).then(|| {
        format!(
            "removal, seed {seed}, count {}, variables {:?}\nstores lent:\n{}{}expected outcome {want} answer {want_answer:?}\n{}{}\
             library outcome {got} answer {answer:?}\n{}{}",
            call.count,
            call.variables,
            runs("first", &call.first),
            runs("second", &call.second),
            runs("first", &first),
            runs("second", &second),
            runs("first", &a),
            runs("second", &b),
        )
    });
    seen.count(want, difference);
}
