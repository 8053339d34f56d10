//! How the time grows with a model, as a table of commas and as a drawing.

use crate::engines::{Engine, NAMES};
use crate::families::{Family, FAMILIES};
use crate::measure::{times, Model, Times};
use crate::plain::Answer;
use crate::plot::{drawn, Line, Panel};
use crate::Failure;
use std::fs;
use std::path::Path;

/// Measures all families; both files go to the folder.
pub fn growth(folder: &Path, rounds: usize) -> Result<(), Failure> {
    let mut engines = Engine::all();
    let mut csv = format!(
        "family,size,outcome,states,attempts,formed,rows,{}\n",
        NAMES.join(",")
    );
    let mut panels = Vec::new();
    for family in &FAMILIES {
        panels.push(grown(family, &mut engines, rounds, &mut csv)?);
    }
    print!("{csv}");
    fs::create_dir_all(folder)?;
    fs::write(folder.join("growth.csv"), csv)?;
    fs::write(folder.join("growth.svg"), drawn(&panels))?;
    Ok(())
}

/// Measures one family; its lines go to the CSV and its panel comes back.
fn grown(
    family: &Family,
    engines: &mut [Engine],
    rounds: usize,
    csv: &mut String,
) -> Result<Panel, Failure> {
    let models: Vec<Model> = (1..=family.largest)
        .map(|size| sized(family, size))
        .collect();
    let times = times(engines, &models, rounds)?;
    for (size, model) in models.iter().enumerate() {
        let answer = engines[0].call(&model.input);
        *csv += &format!("{},{}\n", model.name, cells(&answer, &times[size]));
    }
    Ok(Panel {
        title: format!("{}: {}", family.name, family.counts),
        lines: lines(&times),
    })
}

fn sized(family: &Family, size: u8) -> Model {
    Model {
        name: format!("{},{size}", family.name),
        input: (family.model)(size).into_bytes(),
    }
}

/// A line for each engine that is built in.
fn lines(times: &[Times]) -> Vec<Line> {
    let points = |engine: usize| -> Vec<(f64, f64)> {
        let sized = (1..).zip(times);
        sized
            .flat_map(|(size, t)| Some((f64::from(size), t[engine]?)))
            .collect()
    };
    let all = NAMES.iter().enumerate().map(|(engine, &name)| Line {
        name,
        points: points(engine),
    });
    all.filter(|line| !line.points.is_empty()).collect()
}

/// The answer's numbers, then a time for each engine or nothing.
fn cells(answer: &Answer, times: &Times) -> String {
    let a = answer;
    let counts = [u64::from(a.outcome), a.states, a.attempts, a.formed, a.rows];
    let mut cells: Vec<String> = counts.iter().map(u64::to_string).collect();
    let shown = |time: &Option<f64>| time.map_or(String::new(), |x| format!("{x:.2}"));
    cells.extend(times.iter().map(shown));
    cells.join(",")
}
