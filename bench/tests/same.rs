//! The plain program against the independent one: answers and every number of every store.

use bench::compare::{removals, seeded};
use bench::engines::{lending, Engine};
use bench::families::FAMILIES;
use bench::measure::agree;

#[test]
fn models_agree() {
    for (name, region) in lending() {
        let seen = seeded(region, 1_200, 71);
        assert_eq!(seen.differences, 0, "{name}");
        let met = |outcome: &usize| seen.outcomes[*outcome] > 0;
        assert!([0, 1, 2, 5, 7, 8, 9, 10, 11, 12, 13].iter().all(met));
    }
}

#[test]
fn removals_agree() {
    let seen = removals(1_200, 72);
    assert_eq!(seen.differences, 0);
    assert!([0, 5, 9, 10, 13]
        .iter()
        .all(|&outcome| seen.outcomes[outcome] > 0));
}

#[test]
fn families_find_their_regions() {
    let mut engines = Engine::all();
    for family in &FAMILIES {
        for size in [1, family.largest] {
            let text = (family.model)(size);
            assert_eq!(
                engines[0].call(text.as_bytes()).outcome,
                0,
                "{}",
                family.name
            );
            assert!(agree(&mut engines, text.as_bytes()), "{}", family.name);
        }
    }
}
