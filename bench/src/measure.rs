//! Microseconds a call, models and engines taking turns in one process.

use crate::engines::{Engine, NAMES};
use crate::Failure;
use independent::row::NUMBERS;
use std::hint::black_box;
use std::time::{Duration, Instant};

/// How long one engine is timed on one model before the next has its turn.
const BATCH: Duration = Duration::from_millis(2);

pub struct Model {
    pub name: String,
    pub input: Vec<u8>,
}

/// Microseconds in the order of `NAMES`; nothing for an engine that is not built in.
pub type Times = [Option<f64>; 3];

/// Measures the engines on models, on each of which they must agree.
pub fn times(
    engines: &mut [Engine],
    models: &[Model],
    rounds: usize,
) -> Result<Vec<Times>, Failure> {
    for model in models {
        if !agree(engines, &model.input) {
            return Err(format!("{}: the engines differ in their answers", model.name).into());
        }
    }
    let least = microseconds(engines, models, rounds);
    let place = |name: &str| engines.iter().position(|engine| engine.name() == name);
    let places = NAMES.map(place);
    let of_model = |times: Vec<f64>| places.map(|place| place.map(|i| times[i]));
    Ok(least.into_iter().map(of_model).collect())
}

/// Least microseconds a call over all rounds, for each model one number an engine. A round
/// goes through all models, so that a busy while on the machine spoils no model's rounds.
fn microseconds(engines: &mut [Engine], models: &[Model], rounds: usize) -> Vec<Vec<f64>> {
    let mut least = vec![vec![f64::INFINITY; engines.len()]; models.len()];
    for _ in 0..rounds {
        for (model, least) in models.iter().zip(&mut least) {
            for (engine, least) in engines.iter_mut().zip(least) {
                *least = least.min(batch(engine, &model.input));
            }
        }
    }
    least
}

/// Microseconds a call in one batch; its first two calls warm up and tell how many fit.
fn batch(engine: &mut Engine, input: &[u8]) -> f64 {
    timed(engine, input, 1);
    let once = timed(engine, input, 1);
    let calls = (BATCH.as_secs_f64() / once).clamp(1.0, 100_000.0) as u32;
    timed(engine, input, calls) * 1e6 / f64::from(calls)
}

/// Seconds that so many calls take.
fn timed(engine: &mut Engine, input: &[u8], calls: u32) -> f64 {
    let start = Instant::now();
    for _ in 0..calls {
        black_box(engine.call(black_box(input)));
    }
    start.elapsed().as_secs_f64()
}

/// Whether all engines give one answer and one region.
pub fn agree(engines: &mut [Engine], input: &[u8]) -> bool {
    let answers: Vec<_> = engines.iter_mut().map(|e| e.call(input)).collect();
    let numbers = answers[0].rows as usize * NUMBERS;
    let regions: Vec<_> = engines.iter().map(|e| &e.result()[..numbers]).collect();
    answers.windows(2).all(|two| two[0] == two[1]) && regions.windows(2).all(|two| two[0] == two[1])
}

pub fn geometric_mean(numbers: &[f64]) -> f64 {
    let sum: f64 = numbers.iter().map(|x| x.ln()).sum();
    (sum / numbers.len() as f64).exp()
}
