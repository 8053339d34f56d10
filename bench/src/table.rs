//! The tables of models: microseconds a call, and their ratios.

use crate::engines::{Engine, NAMES};
use crate::measure::{geometric_mean, times, Model, Times};
use crate::Failure;
use std::fs;

/// Which engines are divided by which, by their places in `NAMES`.
const RATIOS: [(usize, usize); 3] = [(0, 1), (0, 2), (1, 2)];

/// A model's name, its outcome and its times.
type Measured = (String, u8, Times);

/// Measures every model of a folder and prints both tables.
pub fn table(folder: &str, rounds: usize) -> Result<(), Failure> {
    let mut engines = Engine::all();
    let models = models(folder)?;
    let times = times(&mut engines, &models, rounds)?;
    let mut all = Vec::new();
    for (model, times) in models.into_iter().zip(times) {
        let outcome = engines[0].call(&model.input).outcome;
        all.push((model.name, outcome, times));
    }
    print_times(&all);
    println!();
    print_ratios(&all);
    Ok(())
}

fn models(folder: &str) -> Result<Vec<Model>, Failure> {
    let mut models = Vec::new();
    for entry in fs::read_dir(folder).map_err(|e| format!("{folder}: {e}"))? {
        let path = entry?.path();
        if path.extension().is_some_and(|end| end == "hex") {
            let stem = path.file_stem().unwrap_or_default();
            models.push(Model {
                name: stem.to_string_lossy().into_owned(),
                input: fs::read(&path)?,
            });
        }
    }
    models.sort_by(|a, b| a.name.cmp(&b.name));
    Ok(models)
}

fn print_times(all: &[Measured]) {
    println!("| model | outcome | {} |", NAMES.join(" | "));
    println!("|---|---|---|---|---|");
    for (name, outcome, times) in all {
        println!("| {name} | {outcome} | {} |", times.map(shown).join(" | "));
    }
}

fn print_ratios(all: &[Measured]) {
    let headings = RATIOS.map(|(a, b)| format!("{} / {}", NAMES[a], NAMES[b]));
    println!("| model | {} |", headings.join(" | "));
    println!("|---|---|---|---|");
    for (name, _, times) in all {
        let cells = RATIOS.map(|pair| shown(ratio(times, pair)));
        println!("| {name} | {} |", cells.join(" | "));
    }
    let cells = RATIOS.map(|pair| shown(mean(all, pair)));
    println!("| geometric mean | {} |", cells.join(" | "));
}

fn ratio(times: &Times, (a, b): (usize, usize)) -> Option<f64> {
    Some(times[a]? / times[b]?)
}

fn mean(all: &[Measured], pair: (usize, usize)) -> Option<f64> {
    let known: Option<Vec<f64>> = all.iter().map(|(_, _, times)| ratio(times, pair)).collect();
    known.map(|ratios| geometric_mean(&ratios))
}

fn shown(number: Option<f64>) -> String {
    match number {
        None => "not built in".to_string(),
        Some(x) if x < 10.0 => format!("{x:.3}"),
        Some(x) => format!("{x:.1}"),
    }
}
