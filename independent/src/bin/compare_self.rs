//! A long run over made-up models: `compare_self N SEED`.
//!
//! Every answer is held against facts that don't come from the method: the reference is
//! inside, scaling it changes nothing, and settings inside have the reference's traces.

use independent::explore::{traces, Setting, Trace};
use independent::frames::{read_checked, written};
use independent::gen::{damaged, model, Rng, STYLES};
use independent::method::{search, Answer, Limits};
use independent::model::Tables;
use independent::removal::without;
use independent::row::{Fate, Row};
use independent::set::Set;
use independent::text::tally;
use std::collections::BTreeSet;

const DEPTH: usize = 3;
const LIMITS: Limits = Limits {
    rows: 900,
    records: 256,
    budget: 150,
};

#[derive(Default)]
struct Seen {
    outcomes: [usize; 14],
    damaged: [usize; 14],
    settings: usize,
    on_the_edge: usize,
    given_up: usize,
    other_traces_outside: usize,
    points: usize,
}

fn main() {
    let numbers: Vec<u64> = std::env::args().skip(1).flat_map(|a| a.parse()).collect();
    let [count, seed] = numbers.as_slice() else {
        eprintln!("two numbers: N SEED");
        std::process::exit(2);
    };
    let mut rng = Rng::new(*seed);
    let mut seen = Seen::default();
    for turn in 0..*count {
        let tables = model(&mut rng, STYLES[(turn % 4) as usize]);
        one_model(&mut rng, &tables, &mut seen);
        removal_points(&mut rng, &mut seen);
    }
    report(&seen);
}

fn report(seen: &Seen) {
    println!("outcomes {}", tally(&seen.outcomes));
    println!("damaged copies {}", tally(&seen.damaged));
    println!(
        "settings inside {} ({} on an edge), given up {}, other traces outside {}",
        seen.settings, seen.on_the_edge, seen.given_up, seen.other_traces_outside
    );
    println!("points held against removals {}", seen.points);
}

fn one_model(rng: &mut Rng, tables: &Tables, seen: &mut Seen) {
    let text = written(tables);
    let read = read_checked(text.as_bytes());
    assert_eq!(read.as_ref().err(), tables.checked().as_ref().err());
    let broken = damaged(rng, &text);
    let outcome = read_checked(&broken).err().unwrap_or(0);
    seen.damaged[usize::from(outcome)] += 1;
    let answer = match read {
        Err(outcome) => Answer::refusal(outcome),
        Ok(read) => {
            assert_eq!(&read, tables, "reading gives back what was written");
            search(&read, &LIMITS)
        }
    };
    seen.outcomes[usize::from(answer.outcome)] += 1;
    if answer.outcome == 0 {
        well_formed(tables, &answer);
        scaled(tables, &answer);
        same_traces(rng, tables, &answer, seen);
    }
}

fn well_formed(tables: &Tables, answer: &Answer) {
    let rows = &answer.region;
    assert!(rows.len() <= 128 && answer.states >= 1);
    assert!(rows.windows(2).all(|two| two[0] < two[1]), "sorted, once");
    let parameters = usize::from(tables.header.parameters);
    for row in rows {
        assert_eq!(row.reduced(), Fate::Stays(row.clone()));
        assert!(row.entries[parameters + 1..].iter().all(|&e| e == 0));
        assert!(!row.broken_by(tables.scale(), &tables.reference()));
    }
}

/// The same reference written with another denominator.
fn scaled(tables: &Tables, answer: &Answer) {
    let mut other = tables.clone();
    other.denominator *= 7;
    for numerator in &mut other.numerators {
        *numerator *= 7;
    }
    assert_eq!(&search(&other, &LIMITS), answer);
}

fn same_traces(rng: &mut Rng, tables: &Tables, answer: &Answer, seen: &mut Seen) {
    let here = Setting {
        numerators: tables.reference(),
        denominators: vec![tables.scale(); tables.reference().len()],
    };
    let Some(want) = traces(tables, &here, DEPTH) else {
        seen.given_up += 1;
        return;
    };
    for turn in 0..12 {
        let (setting, edge) = match turn % 3 {
            0 => (nearby(rng, tables), false),
            1 => (at_edge(rng, tables, answer, 1), true),
            _ => (at_edge(rng, tables, answer, 2), false),
        };
        compare(tables, answer, &setting, &want, edge, seen);
    }
}

fn compare(
    tables: &Tables,
    answer: &Answer,
    setting: &Setting,
    want: &BTreeSet<Trace>,
    edge: bool,
    seen: &mut Seen,
) {
    let inside = answer.region.iter().all(|row| setting.satisfies(row));
    let positive = setting.numerators.iter().all(|&n| n >= 0);
    if !positive {
        assert!(!inside, "the region asks for parameters of at least 0");
        return;
    }
    let Some(got) = traces(tables, setting, DEPTH) else {
        seen.given_up += 1;
        return;
    };
    if inside {
        assert_eq!(&got, want, "{}\n{setting:?}", written(tables));
        seen.settings += 1;
        seen.on_the_edge += usize::from(edge);
    } else {
        seen.other_traces_outside += usize::from(&got != want);
    }
}

/// Some setting near the reference, each parameter with its own denominator.
fn nearby(rng: &mut Rng, tables: &Tables) -> Setting {
    let mut setting = Setting {
        numerators: Vec::new(),
        denominators: Vec::new(),
    };
    for numerator in tables.reference() {
        let own = i128::from(rng.between(1, 4));
        let moved = i128::from(rng.between(-6, 6));
        setting
            .numerators
            .push((numerator * own + moved * tables.scale()).max(0));
        setting.denominators.push(tables.scale() * own);
    }
    setting
}

/// From the reference in some direction up to the region's edge, or a part of the way.
fn at_edge(rng: &mut Rng, tables: &Tables, answer: &Answer, part: i128) -> Setting {
    let reference = tables.reference();
    let direction: Vec<i128> = reference
        .iter()
        .map(|_| i128::from(rng.between(-4, 4)))
        .collect();
    // How far a row lets us go is room / slope; fractions are compared crosswise.
    let (mut room, mut slope) = (20 * tables.scale(), 1);
    for row in &answer.region {
        let along: i128 = row.entries[1..]
            .iter()
            .zip(&direction)
            .map(|(e, d)| e * d)
            .sum();
        let left = -row.value_at(tables.scale(), &reference);
        if along > 0 && left * slope < room * along {
            (room, slope) = (left, along);
        }
    }
    let below = slope * part;
    Setting {
        numerators: reference
            .iter()
            .zip(&direction)
            .map(|(n, d)| n * below + d * room)
            .collect(),
        denominators: vec![tables.scale() * below; reference.len()],
    }
}

/// A point satisfies a removal's result exactly if some value of the removed variable
/// completes it to a point of the set.
fn removal_points(rng: &mut Rng, seen: &mut Seen) {
    let rows: Vec<Row> = (0..2 + rng.below(6)).map(|_| small_row(rng)).collect();
    let set = Set::gather(rows).expect("few small rows");
    let Ok(result) = without(&set, 9) else {
        return;
    };
    for _ in 0..20 {
        let point: Vec<i128> = (0..3).map(|_| i128::from(rng.between(-6, 6))).collect();
        let inside = result
            .rows()
            .iter()
            .all(|row| row.allows(row.value_at(1, &point)));
        assert_eq!(inside, completes(&set, &point), "{set:?} {point:?}");
        seen.points += 1;
    }
}

fn small_row(rng: &mut Rng) -> Row {
    let mut terms: Vec<(usize, i128)> = (0..=3)
        .map(|entry| (entry, i128::from(rng.between(-3, 3))))
        .collect();
    terms.push((9, i128::from(rng.between(-3, 3))));
    Row::of(&terms, rng.chance(40))
}

/// Looks for the clock's value among all bounds, the middles between them and beyond
/// the outermost; in twelfths, since bounds have divisors of at most 3.
fn completes(set: &Set, point: &[i128]) -> bool {
    let mut bounds: Vec<i128> = vec![0];
    for row in set.rows().iter().filter(|row| row.entries[9] != 0) {
        bounds.push(-row.value_at(1, point) * 12 / row.entries[9]);
    }
    bounds.sort();
    let mut tried: Vec<i128> = bounds.windows(2).map(|two| (two[0] + two[1]) / 2).collect();
    tried.push(bounds[0] - 12);
    tried.push(bounds[bounds.len() - 1] + 12);
    tried.extend(bounds);
    tried.iter().any(|&value| {
        set.rows()
            .iter()
            .all(|row| row.allows(row.value_at(1, point) * 12 + row.entries[9] * value))
    })
}
