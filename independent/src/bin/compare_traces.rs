//! Are traces inside a region those of the reference?
//!
//! `compare_traces DEPTH TURNS SEED MODEL.hex ..` for models in files, or
//! `compare_traces DEPTH TURNS SEED random N` for N models made up from the seed.
//! Ends with 1 where a setting inside a region has other traces.

use independent::frames::written;
use independent::gen::{model as made_up, Rng, STYLES};
use independent::input::{leave, model, LENT};
use independent::method::{search, Limits};
use independent::model::Tables;
use independent::settings::{trace_words, words};
use independent::trial::{tried, Findings};

#[derive(Default)]
struct Total {
    models: usize,
    with_region: usize,
    inside: usize,
    on_border: usize,
    closed: usize,
    outside: usize,
    outside_other: usize,
    given_up: usize,
    traces: u128,
    differences: usize,
}

struct Plan {
    depth: usize,
    turns: usize,
    seed: u64,
}

fn main() {
    let words: Vec<String> = std::env::args().skip(1).collect();
    let [depth, turns, seed, rest @ ..] = words.as_slice() else {
        leave("compare_traces DEPTH TURNS SEED (MODEL.hex .. | random N)");
    };
    let plan = Plan {
        depth: number(depth),
        turns: number(turns),
        seed: number(seed) as u64,
    };
    let mut total = Total::default();
    match rest {
        [word, count] if word == "random" => random(&plan, number(count), &mut total),
        paths => {
            for path in paths {
                from_file(&plan, path, &mut total);
            }
        }
    }
    report(&plan, &total);
    std::process::exit(i32::from(total.differences > 0));
}

fn number(word: &str) -> usize {
    word.parse()
        .unwrap_or_else(|_| leave(&format!("not a number: {word}")))
}

fn from_file(plan: &Plan, path: &str, total: &mut Total) {
    let tables = model(path);
    let mut rng = Rng::new(plan.seed);
    let name = path.rsplit('/').next().unwrap_or(path);
    let Some(found) = on_trial(plan, &tables, &LENT, &mut rng, total) else {
        println!("{name}: no region");
        return;
    };
    println!(
        "{name}: inside {} ({} on a border, {} for all lengths), different {}; outside {}, different {}; given up {}; {} traces",
        found.inside,
        found.on_border,
        found.closed,
        found.differences.len(),
        found.outside,
        found.outside_other,
        found.given_up,
        found.traces
    );
    if let Some(point) = &found.inside_example {
        println!("  inside at {}", words(&point.setting()));
    }
    if let Some((point, trace, has)) = &found.example {
        let owner = if *has {
            "only this setting"
        } else {
            "only the reference"
        };
        let setting = words(&point.setting());
        println!("  outside at {setting}: {owner} has {}", trace_words(trace));
    }
}

fn random(plan: &Plan, count: usize, total: &mut Total) {
    let limits = Limits {
        budget: 2_000,
        ..LENT
    };
    let mut rng = Rng::new(plan.seed);
    for turn in 0..count {
        let tables = made_up(&mut rng, STYLES[turn % STYLES.len()]);
        if tables.checked().is_ok() {
            on_trial(plan, &tables, &limits, &mut rng, total);
        }
    }
}

/// Computes the region and tries it; nothing where there is no region.
fn on_trial(
    plan: &Plan,
    tables: &Tables,
    limits: &Limits,
    rng: &mut Rng,
    total: &mut Total,
) -> Option<Findings> {
    total.models += 1;
    let answer = search(tables, limits);
    if answer.outcome != 0 {
        return None;
    }
    let found = tried(rng, tables, &answer.region, plan.turns, plan.depth);
    total.with_region += 1;
    total.inside += found.inside;
    total.on_border += found.on_border;
    total.closed += found.closed;
    total.outside += found.outside;
    total.outside_other += found.outside_other;
    total.given_up += found.given_up;
    total.traces = total.traces.saturating_add(found.traces);
    total.differences += found.differences.len();
    for (point, trace, has) in &found.differences {
        println!(
            "A SETTING INSIDE HAS OTHER TRACES: {}",
            words(&point.setting())
        );
        println!("trace {} (shown by the setting: {has})", trace_words(trace));
        print!("{}", written(tables));
    }
    Some(found)
}

fn report(plan: &Plan, total: &Total) {
    println!(
        "models {} ({} with a region), depth {}, traces of references {}",
        total.models, total.with_region, plan.depth, total.traces
    );
    println!(
        "settings inside {} ({} on a border, {} for all lengths), different {}",
        total.inside, total.on_border, total.closed, total.differences
    );
    println!(
        "settings outside {}, different {}; given up {}",
        total.outside, total.outside_other, total.given_up
    );
}
