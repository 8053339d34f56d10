//! Measures the library beside plain Rust and the independent program.

use bench::compare::{removals, seeded, vectors, Tally};
use bench::engines::{lending, Engine};
use bench::growth::growth;
use bench::table::table;
use bench::Failure;
use independent::text::tally;
use std::fs;
use std::path::Path;
use std::process::ExitCode;

const ROUNDS: usize = 50;
const USAGE: &str = "\
bench [FOLDER [ROUNDS]]        microseconds a call for each FOLDER/*.hex (../models, 50 rounds)
bench --growth FOLDER [ROUNDS] families of growing models, to FOLDER/growth.csv and growth.svg
bench --once ENGINE MODEL N    N calls and nothing else, for tools that count instructions
bench --compare N SEED         N made-up models and N removals against the independent program
bench --vectors CASES TEXT     stored cases and the text that they must give";

fn main() -> ExitCode {
    let words: Vec<String> = std::env::args().skip(1).collect();
    let words: Vec<&str> = words.iter().map(String::as_str).collect();
    match run(&words) {
        Ok(()) => ExitCode::SUCCESS,
        Err(failure) => {
            eprintln!("{failure}");
            ExitCode::FAILURE
        }
    }
}

fn run(words: &[&str]) -> Result<(), Failure> {
    match words {
        [] => table("../models", ROUNDS),
        ["--once", engine, model, calls] => once(engine, model, calls.parse()?),
        ["--growth", folder] => growth(Path::new(folder), ROUNDS),
        ["--growth", folder, rounds] => growth(Path::new(folder), rounds.parse()?),
        ["--compare", count, seed] => compare(count.parse()?, seed.parse()?),
        ["--vectors", cases, text] => stored(&fs::read(cases)?, &fs::read_to_string(text)?),
        [folder] if !folder.starts_with('-') => table(folder, ROUNDS),
        [folder, rounds] if !folder.starts_with('-') => table(folder, rounds.parse()?),
        _ => Err(USAGE.into()),
    }
}

fn once(name: &str, model: &str, calls: usize) -> Result<(), Failure> {
    let mut engine = Engine::named(name).ok_or("no such engine is built in")?;
    let input = fs::read(model)?;
    for _ in 0..calls {
        std::hint::black_box(engine.call(std::hint::black_box(&input)));
    }
    Ok(())
}

fn compare(count: usize, seed: u64) -> Result<(), Failure> {
    let mut differences = 0;
    for (name, region) in lending() {
        differences += reported(&format!("{name} on models"), &seeded(region, count, seed));
    }
    differences += reported("plain on removals", &removals(count, seed));
    none(differences)
}

fn stored(cases: &[u8], text: &str) -> Result<(), Failure> {
    let mut differences = 0;
    for (name, region) in lending() {
        differences += reported(name, &vectors(region, cases, text));
    }
    none(differences)
}

fn reported(name: &str, seen: &Tally) -> usize {
    let (cases, differences) = (seen.cases(), seen.differences);
    println!(
        "{name}: {cases} cases, {differences} differences; outcomes {}",
        tally(&seen.outcomes)
    );
    if let Some(first) = &seen.first {
        println!("first difference: {first}");
    }
    differences
}

fn none(differences: usize) -> Result<(), Failure> {
    if differences == 0 {
        Ok(())
    } else {
        Err(format!("{differences} differences").into())
    }
}
