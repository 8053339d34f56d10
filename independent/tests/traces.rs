//! Two ways to the traces of a setting, and the models of the project.

use independent::compare::{compared, Verdict};
use independent::explore::{traces, Setting};
use independent::frames::{answer_lines, read_checked};
use independent::gen::{model, Rng, STYLES};
use independent::input::LENT;
use independent::method::search;
use independent::model::Tables;
use independent::settings::reference;
use independent::store::{run_bytes, Lengths, Lent};
use independent::tree::Tree;
use std::path::PathBuf;

fn project_models() -> Vec<PathBuf> {
    let folder = concat!(env!("CARGO_MANIFEST_DIR"), "/../models");
    let mut paths: Vec<PathBuf> = std::fs::read_dir(folder)
        .expect("the folder of models")
        .map(|entry| entry.expect("an entry").path())
        .filter(|path| path.extension().is_some_and(|e| e == "hex"))
        .collect();
    paths.sort();
    paths
}

fn whole(numerators: &[i128]) -> Setting {
    Setting {
        numerators: numerators.to_vec(),
        denominators: vec![1; numerators.len()],
    }
}

/// One by delays along each path, the other by zones: they must agree.
fn both_ways(tables: &Tables, setting: &Setting, depth: usize) -> bool {
    let by_delays = traces(tables, setting, depth);
    let by_zones = Tree::new(tables, setting).list(depth);
    if let (Some(a), Some(b)) = (&by_delays, &by_zones) {
        assert_eq!(a, b, "{setting:?}");
        let count = Tree::new(tables, setting).count(depth);
        assert_eq!(count, Some(b.len() as u128));
    }
    by_delays.is_some() && by_zones.is_some()
}

#[test]
fn made_up_models_both_ways() {
    let mut rng = Rng::new(5);
    let mut settled = 0;
    for turn in 0..240 {
        let tables = model(&mut rng, STYLES[turn % STYLES.len()]);
        let point: Vec<i128> = tables
            .numerators
            .iter()
            .map(|_| i128::from(rng.between(0, 9)))
            .collect();
        settled += usize::from(both_ways(&tables, &reference(&tables), 3));
        settled += usize::from(both_ways(&tables, &whole(&point), 3));
    }
    assert!(settled > 400, "only {settled} of 480 were settled");
}

#[test]
fn project_models_both_ways() {
    for path in project_models() {
        let tables = read_checked(&std::fs::read(&path).unwrap()).unwrap();
        let depth = if tables.header.clocks > 3 { 2 } else { 4 };
        assert!(both_ways(&tables, &reference(&tables), depth), "{path:?}");
    }
}

#[test]
fn project_models_have_their_answers() {
    let paths = project_models();
    assert!(paths.len() >= 12);
    for path in paths {
        let mut lent = Lent::filled(&Lengths::usual(), 1);
        let answer = run_bytes(&std::fs::read(&path).unwrap(), &mut lent, LENT.budget);
        let stored = std::fs::read_to_string(path.with_extension("out")).unwrap();
        assert_eq!(answer_lines(&answer), stored, "{path:?}");
    }
}

#[test]
fn a_difference_is_found_and_named() {
    let path = project_models()
        .into_iter()
        .find(|p| p.ends_with("toy.hex"));
    let tables = read_checked(&std::fs::read(path.unwrap()).unwrap()).unwrap();
    assert_eq!(search(&tables, &LENT).outcome, 0);
    let at = |numbers: &[i128]| Tree::new(&tables, &whole(numbers));
    let same = compared(&mut at(&[4, 4, 6]), &mut at(&[4, 2, 6]), 9);
    assert_eq!(same, Some(Verdict::Same { closed: true }));
    let other = compared(&mut at(&[6, 2, 6]), &mut at(&[4, 2, 6]), 9);
    let want = Verdict::Differ {
        trace: vec![0, 11, 2],
        first_has: true,
    };
    assert_eq!(other, Some(want));
}
