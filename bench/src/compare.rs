//! Answers and every number of every store, held against the independent program.

use crate::plain::alone::{remove, Part};
use crate::stores::{answer_of, Region, Stores};
use independent::calls::{RegionCall, RemovalCall};
use independent::gen::Rng;
use independent::store::{run_bytes, Lengths, Lent};
use independent::text::runs;

/// How many cases met each outcome, how many differed, and words on the first that did.
#[derive(Clone, Debug, Default, PartialEq, Eq)]
pub struct Tally {
    pub outcomes: [usize; 14],
    pub differences: usize,
    pub first: Option<String>,
}

impl Tally {
    pub fn cases(&self) -> usize {
        self.outcomes.iter().sum()
    }

    fn count(&mut self, outcome: u8, same: bool, words: impl Fn() -> String) {
        if !same && self.first.is_none() {
            self.first = Some(format!("case {}: {}", self.cases(), words()));
        }
        self.outcomes[usize::from(outcome)] += 1;
        self.differences += usize::from(!same);
    }
}

/// One stored call: its input, its stores and its budget.
struct Case {
    input: Vec<u8>,
    lengths: Lengths,
    budget: u64,
    filler: i8,
}

/// Made-up models, some damaged, with stores of many lengths.
pub fn seeded(region: Region, count: usize, seed: u64) -> Tally {
    let mut rng = Rng::new(seed);
    let mut tally = Tally::default();
    for _ in 0..count {
        let RegionCall {
            input,
            mut lent,
            budget,
        } = RegionCall::drawn(&mut rng);
        let mut stores = Stores::of(&lent);
        let want = answer_of(&run_bytes(&input, &mut lent, budget));
        let got = region(&input, &mut stores, budget);
        let same_stores = stores == Stores::of(&lent);
        tally.count(want.outcome, got == want && same_stores, || {
            let input = String::from_utf8_lossy(&input);
            format!("{want:?}, not {got:?}; stores equal: {same_stores}; of\n{input}")
        });
    }
    tally
}

/// Removals called alone on made-up rows.
pub fn removals(count: usize, seed: u64) -> Tally {
    let mut rng = Rng::new(seed);
    let mut tally = Tally::default();
    for _ in 0..count {
        let call = RemovalCall::drawn(&mut rng);
        let (mut a, mut b) = (call.first.clone(), call.second.clone());
        let (mut c, mut d) = (call.first, call.second);
        let (outcome, in_second, rows) =
            independent::removal::alone(&mut a, &mut b, call.count, &call.variables);
        let want = Part {
            outcome,
            in_second,
            rows,
        };
        let got = remove(&mut c, &mut d, call.count, &call.variables);
        tally.count(outcome, got == want && a == c && b == d, || {
            format!("{want:?}, not {got:?}")
        });
    }
    tally
}

/// Stored cases of the whole method and the text that they must give.
pub fn vectors(region: Region, cases: &[u8], expected: &str) -> Tally {
    let mut tally = Tally::default();
    let mut blocks = expected.split_inclusive("\ncase ");
    let mut source = Bytes(cases);
    let mut index = 0;
    while let Some(case) = source.case() {
        let mut stores = Stores::of(&Lent::filled(&case.lengths, case.filler));
        let answer = region(&case.input, &mut stores, case.budget);
        let head = format!(
            "{index} outcome {} states {} attempts {} formed {} rows {}\n",
            answer.outcome, answer.states, answer.attempts, answer.formed, answer.rows
        );
        let block = blocks.next().unwrap_or_default();
        let want = block.trim_start_matches("case ").trim_end_matches("case ");
        let got = head + &store_lines(&stores);
        tally.count(answer.outcome, got == want, || format!("{want}not\n{got}"));
        index += 1;
    }
    tally.differences += blocks.count();
    tally
}

fn store_lines(stores: &Stores) -> String {
    let record = |r: &crate::plain::Record| [r.location, r.first, r.rows].map(|x| x as i32);
    let roll: Vec<i32> = stores.roll.iter().flat_map(record).collect();
    runs("first", &stores.first)
        + &runs("second", &stores.second)
        + &runs("rows", &stores.rows)
        + &runs("result", &stores.result)
        + &runs("roll", &roll)
}

/// What is left of a file of cases; its numbers are big-endian.
struct Bytes<'a>(&'a [u8]);

impl Bytes<'_> {
    fn number(&mut self, width: usize) -> usize {
        self.take(width)
            .iter()
            .fold(0, |n, &b| n << 8 | usize::from(b))
    }

    fn take(&mut self, length: usize) -> &[u8] {
        let (front, rest) = self.0.split_at(length);
        self.0 = rest;
        front
    }

    /// The next case; a length of FFFFFFFF ends the file.
    fn case(&mut self) -> Option<Case> {
        let length = self.number(4);
        if length == 0xFFFF_FFFF {
            return None;
        }
        let input = self.take(length).to_vec();
        let [first, second, result] = [2, 2, 2].map(|width| self.number(width));
        Some(Case {
            input,
            lengths: Lengths {
                first,
                second,
                result,
                rows: self.number(4),
                records: self.number(2),
            },
            budget: self.number(4) as u64,
            filler: self.number(1) as u8 as i8,
        })
    }
}
