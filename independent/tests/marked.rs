//! The marked examples of document 01, and the cases it asks to be run besides.

use independent::explore::{traces, Setting};
use independent::frames::{answer_lines, read_checked};
use independent::method::{search, Answer, Limits};
use independent::removal::{alone, without};
use independent::row::{Fate, Row};
use independent::set::{Fault, Set};
use independent::store::{run_bytes, run_tables, Lengths, Lent};

const M9: &str = "0102030302
0200000001000000040000000200000006
04000A0101
04000B0200
030100000201FFFFFFFF0900000001
030200000202000000010AFFFFFFFF
0302010002030000000109FFFFFFFF
";

const M9_ANSWER: &str = "0500000200010000000405
030000000101FFFFFFFF
030000000201FFFFFFFF0200000001
030000000102FFFFFFFF
030000000103FFFFFFFF
0300000102010000000103FFFFFFFF
";

const M10: &str = "0101020201
02000000010000000000000000
0400000100
0302000003000000000101FFFFFFFF0200000001
03020000030000000001010000000102FFFFFFFF
";

const X1: usize = 9;

fn set(rows: &[Row]) -> Set {
    Set::gather(rows.iter().cloned()).expect("a set")
}

fn answer(text: &str, budget: u64) -> Answer {
    let mut lent = Lent::filled(&Lengths::usual(), 7);
    run_bytes(text.as_bytes(), &mut lent, budget)
}

#[test]
fn m1_strictness_survives_pairing() {
    let rows = [
        Row::of(&[(X1, 1), (1, -1)], false),
        Row::of(&[(2, 1), (X1, -1)], true),
    ];
    let want = [Row::of(&[(2, 1), (1, -1)], true)];
    assert_eq!(without(&set(&rows), X1).unwrap().rows(), want);
}

#[test]
fn m2_divides_down() {
    let row = Row::of(&[(1, 4), (2, -6)], false);
    assert_eq!(
        row.reduced(),
        Fate::Stays(Row::of(&[(1, 2), (2, -3)], false))
    );
}

#[test]
fn m3_and_m4_rows_without_variables() {
    assert_eq!(Row::of(&[], true).reduced(), Fate::Stays(Row::falsehood()));
    assert_eq!(Row::of(&[(0, -3)], false).reduced(), Fate::Dropped);
}

#[test]
fn m5_negation() {
    let row = Row::of(&[(3, 1), (1, -1)], false);
    assert_eq!(row.negated(), Row::of(&[(1, 1), (3, -1)], true));
}

#[test]
fn m6_pairs_with_weights() {
    let rows = [
        Row::of(&[(X1, 2), (1, -1)], false),
        Row::of(&[(2, 1), (X1, -3)], false),
    ];
    let want = [Row::of(&[(2, 2), (1, -3)], false)];
    assert_eq!(without(&set(&rows), X1).unwrap().rows(), want);
}

#[test]
fn m7_too_large_a_pair() {
    let rows = [
        Row::of(&[(X1, 999_999), (1, -999_983)], false),
        Row::of(&[(2, 999_979), (X1, -1_000_000)], false),
    ];
    assert_eq!(without(&set(&rows), X1), Err(Fault::TooLarge));
}

#[test]
fn m8_the_bound_of_a_row() {
    let taken = Row::of(&[(1, 1), (0, -1_000_000_000)], false);
    assert_eq!(taken.reduced(), Fate::Stays(taken.clone()));
    let refused = Row::of(&[(1, 1), (0, -1_000_000_001)], false);
    assert_eq!(refused.reduced(), Fate::TooLarge);
}

#[test]
fn m9_the_toy_automaton() {
    let found = answer(M9, 100_000);
    assert_eq!(answer_lines(&found), M9_ANSWER);
    assert!(found.region.iter().all(|r| !r.broken_by(1, &[4, 4, 6])));
    assert!(found.region.iter().any(|r| r.broken_by(1, &[6, 2, 6])));
}

#[test]
fn m9_stores_end_as_they_must() {
    let mut lengths = Lengths::usual();
    lengths.rows += 5;
    lengths.result += 9;
    let mut lent = Lent::filled(&lengths, -3);
    assert_eq!(run_bytes(M9.as_bytes(), &mut lent, 4).outcome, 0);
    assert!(lent.first.iter().chain(&lent.second).all(|&n| n == 0));
    assert_eq!(lent.rows[15_299..], [0, -3, -3, -3, -3, -3]);
    assert!(lent.roll.iter().flatten().all(|&n| n == 0));
    assert_eq!(lent.result[0..3], [0, -1, 0]);
    assert!(lent.result[85..].iter().all(|&n| n == -3));
}

#[test]
fn m10_one_new_attempt() {
    let found = answer(M10, 100_000);
    assert_eq!((found.outcome, found.attempts, found.formed), (0, 1, 2));
    let want = [
        Row::of(&[(0, -1), (1, 1), (2, -1)], true),
        Row::of(&[(1, -1)], false),
        Row::of(&[(2, -1)], false),
    ];
    assert_eq!(found.region, want);
}

#[test]
fn also_run() {
    assert_eq!(answer("", 100_000), Answer::refusal(2));
    let still = "0101010100\n020000000100000000\n";
    let found = answer(still, 0);
    assert_eq!((found.outcome, found.states, found.formed), (0, 1, 0));
    let three = answer(M9, 3);
    assert_eq!((three.outcome, three.attempts, three.formed), (12, 1, 3));
    assert_eq!(answer(M9, 4).outcome, 0);
    let halves = M9.replace(
        "0200000001000000040000000200000006",
        "020000000200000008000000040000000C",
    );
    assert_eq!(answer_lines(&answer(&halves, 100_000)), M9_ANSWER);
}

#[test]
fn reading_examples() {
    let h = "0101010100\n";
    let r = "020000000100000000\n";
    let outcome = |text: &str| read_checked(text.as_bytes()).err().unwrap_or(0);
    for (text, want) in [
        ("02", 1),
        ("020\n", 1),
        ("0200\n", 2),
        ("\n", 1),
        ("0101010100\n04\n", 1),
        ("0101010100\n0109090909\n", 2),
        ("0101010100\n0400000000\n", 2),
    ] {
        assert_eq!(outcome(text), want, "{text:?}");
    }
    let strict_two = format!("{h}{r}03000002010100000000\n");
    assert_eq!(outcome(&strict_two), 5);
    let sixteen = format!("{h}{r}0300000010{}\n", "0000000001".repeat(16));
    assert_eq!(outcome(&sixteen), 6);
    let named = format!("{h}{r}0300000010{}0F00000001\n", "0000000001".repeat(15));
    assert_eq!(outcome(&named), 5);
}

#[test]
fn full_set_meets_ten_when_time_passes() {
    let rows: String = (1..=125)
        .map(|i: i32| {
            let terms = [(0, -i), (1, -1)];
            independent::frames::line(&independent::frames::row_frame(0, 0, 0, &terms))
        })
        .collect();
    let text = format!("0101010100\n020000000100000000\n{rows}");
    assert_eq!(answer(&text, 9), Answer::refusal(10));
}

#[test]
fn tables_are_refused_like_frames() {
    let good = read_checked(M9.as_bytes()).unwrap();
    assert_eq!(good.checked(), Ok(()));
    let with = |change: &dyn Fn(&mut independent::model::Tables)| {
        let mut tables = good.clone();
        change(&mut tables);
        tables.checked().err().unwrap_or(0)
    };
    assert_eq!(with(&|t| t.header.clocks = 7), 3);
    assert_eq!(with(&|t| t.denominator = 0), 4);
    assert_eq!(with(&|t| t.transitions[1].resets = 4), 5);
    assert_eq!(with(&|t| t.rows[0].entries = [0; 16]), 6);
    assert_eq!(with(&|t| t.rows[0].entries[15] = 1), 5);
    assert_eq!(with(&|t| t.rows[2].entries[3] = 1_000_001), 6);
    assert_eq!(with(&|t| t.row_count = 129), 2);
    assert_eq!(with(&|t| (t.row_count, t.rows[2].strict) = (129, 2)), 5);
    assert_eq!(with(&|t| t.rows[0].entries[0] = 5), 8);
    let mut lent = Lent::filled(&Lengths::usual(), 0);
    assert_eq!(
        answer_lines(&run_tables(&good, &mut lent, 100_000)),
        M9_ANSWER
    );
}

#[test]
fn short_stores_come_first() {
    for short in 0..3 {
        let mut lengths = Lengths::usual();
        match short {
            0 => lengths.first -= 1,
            1 => lengths.second -= 1,
            _ => lengths.result -= 1,
        }
        let mut lent = Lent::filled(&lengths, 4);
        let before = lent.clone();
        assert_eq!(run_bytes(b"zz", &mut lent, 1), Answer::refusal(13));
        assert_eq!(lent, before);
    }
}

#[test]
fn no_room_is_eleven_at_the_start() {
    let model = read_checked(M9.as_bytes()).unwrap();
    let none = Limits {
        rows: 900,
        records: 0,
        budget: 9,
    };
    assert_eq!(search(&model, &none), Answer::refusal(11));
    let few = Limits {
        rows: 0,
        records: 256,
        budget: 9,
    };
    assert_eq!(search(&model, &few), Answer::refusal(11));
}

#[test]
fn alone_with_nothing_given() {
    let (mut first, mut second) = (vec![5; 2180], vec![6; 2176]);
    assert_eq!(alone(&mut first, &mut second, 0, &[]), (0, false, 0));
    assert!(first[..2176].iter().chain(&second).all(|&n| n == 0));
    assert_eq!(first[2176..], [5; 4]);
}

#[test]
fn alone_moves_at_every_variable() {
    let row = Row::of(&[(1, 2), (0, -4)], false);
    for vars in [vec![], vec![9], vec![9, 9], vec![15, 14, 13]] {
        let (mut first, mut second) = (vec![1; 2176], vec![1; 2176]);
        first[..17].copy_from_slice(&row.numbers());
        let got = alone(&mut first, &mut second, 1, &vars);
        assert_eq!(got, (0, vars.len() % 2 == 1, 1));
        let (holder, other) = if got.1 {
            (second, first)
        } else {
            (first, second)
        };
        assert_eq!(holder[..3], [-2, 1, 0]);
        assert!(holder[2..].iter().chain(&other).all(|&n| n == 0));
    }
}

#[test]
fn traces_of_the_toy_automaton() {
    let model = read_checked(M9.as_bytes()).unwrap();
    let at = |numerators: [i128; 3]| {
        let setting = Setting {
            numerators: numerators.to_vec(),
            denominators: vec![1; 3],
        };
        traces(&model, &setting, 3).unwrap()
    };
    let reference = at([4, 2, 6]);
    assert_eq!(
        reference.into_iter().collect::<Vec<_>>(),
        [vec![0], vec![0, 0x0A, 1]]
    );
    assert_eq!(at([4, 4, 6]), at([4, 2, 6]));
    assert_ne!(at([6, 2, 6]), at([4, 2, 6]));
}
