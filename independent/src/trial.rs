//! One model's region put on trial: settings around it, and their traces.

use crate::compare::{compared, Verdict};
use crate::explore::Trace;
use crate::gen::Rng;
use crate::model::Tables;
use crate::row::Row;
use crate::sample::{anywhere, border, corner, Point};
use crate::tree::Tree;
use std::collections::HashSet;

/// What came out for one model.
#[derive(Default)]
pub struct Findings {
    pub inside: usize,
    /// Of those inside: on a border or in a corner itself.
    pub on_border: usize,
    /// Of those inside: compared for all lengths of traces, not only to the depth.
    pub closed: usize,
    pub outside: usize,
    pub outside_other: usize,
    pub given_up: usize,
    /// Traces of the reference, to the depth.
    pub traces: u128,
    /// Settings inside with other traces: there must be none.
    pub differences: Vec<(Point, Trace, bool)>,
    /// A plain setting outside that has other traces, and one inside.
    pub example: Option<(Point, Trace, bool)>,
    pub inside_example: Option<Point>,
}

/// Tries `turns` rounds of settings, each compared with the reference to the depth.
pub fn tried(
    rng: &mut Rng,
    model: &Tables,
    region: &[Row],
    turns: usize,
    depth: usize,
) -> Findings {
    let reference = Point {
        numerators: model.reference(),
        denominator: model.scale(),
    };
    let mut findings = Findings::default();
    let mut tree = Tree::new(model, &reference.setting());
    let Some(traces) = tree.count(depth) else {
        findings.given_up += 1;
        return findings;
    };
    findings.traces = traces;
    let mut met = HashSet::new();
    for _ in 0..turns {
        for point in points(rng, &reference, region).into_iter().flatten() {
            let key = (point.numerators.clone(), point.denominator);
            if point.nonnegative() && met.insert(key) {
                one(
                    &mut findings,
                    model,
                    region,
                    &mut tree,
                    point,
                    depth,
                    &reference,
                );
            }
        }
    }
    findings
}

/// Settings of one round: corners and borders, just within them, between them, just
/// beyond them, and some from anywhere.
fn points(rng: &mut Rng, reference: &Point, region: &[Row]) -> Vec<Option<Point>> {
    let edge = border(rng, reference, region);
    let tip = corner(rng, reference, region);
    let part = |end: &Option<Point>, up, down| {
        let end = end.as_ref()?;
        reference.towards(end, up, down)
    };
    let between = match (&edge, &tip) {
        (Some(a), Some(b)) => a.towards(b, 1, 2),
        _ => None,
    };
    vec![
        part(&edge, 1, 2),
        part(&edge, 999, 1000),
        part(&edge, 1001, 1000),
        part(&edge, 2, 1),
        part(&tip, 999_999, 1_000_000),
        part(&between, 999, 1000),
        anywhere(rng, reference),
        moved(rng, reference, 1),
        moved(rng, reference, reference.numerators.len()),
        between,
        edge,
        tip,
    ]
}

/// The reference with some parameters moved by whole numbers, as people would try it.
fn moved(rng: &mut Rng, reference: &Point, places: usize) -> Option<Point> {
    let mut point = reference.clone();
    for _ in 0..places {
        let place = rng.below(point.numerators.len());
        let reach = reference.numerators[place] / point.denominator + 3;
        let reach = i64::try_from(reach).ok()?;
        let step = i128::from(rng.between(-reach, 2 * reach));
        point.numerators[place] = reference.numerators[place] + step * point.denominator;
    }
    Some(point)
}

fn one(
    findings: &mut Findings,
    model: &Tables,
    region: &[Row],
    reference: &mut Tree,
    point: Point,
    depth: usize,
    from: &Point,
) {
    let inside = point.inside(region);
    let mut tree = Tree::new(model, &point.setting());
    let Some(verdict) = compared(&mut tree, reference, depth) else {
        findings.given_up += 1;
        return;
    };
    let level = |row: &&Row| row.value_at(point.denominator, &point.numerators) == 0;
    if inside {
        findings.inside += 1;
        findings.on_border += usize::from(region.iter().find(level).is_some());
        findings.closed += usize::from(verdict == Verdict::Same { closed: true });
        findings.prefer_inside(&point, from);
    } else {
        findings.outside += 1;
    }
    if let Verdict::Differ { trace, first_has } = verdict {
        if inside {
            findings.differences.push((point, trace, first_has));
        } else {
            findings.outside_other += 1;
            findings.prefer((point, trace, first_has), from);
        }
    }
}

impl Findings {
    /// The plainest example: few parameters moved, a small denominator, a short trace.
    fn prefer(&mut self, new: (Point, Trace, bool), from: &Point) {
        let cost = |e: &(Point, Trace, bool)| (moves(&e.0, from), e.0.denominator, e.1.len());
        match &self.example {
            Some(old) if cost(old) <= cost(&new) => {}
            _ => self.example = Some(new),
        }
    }

    /// Here as many as can be, over a small denominator.
    fn prefer_inside(&mut self, new: &Point, from: &Point) {
        let zeros = |p: &Point| p.numerators.iter().filter(|&&n| n == 0).count();
        let still = |p: &Point| from.numerators.len() - moves(p, from);
        let cost = |p: &Point| (p.denominator, zeros(p), still(p));
        match &self.inside_example {
            Some(old) if cost(old) <= cost(new) => {}
            _ => self.inside_example = Some(new.clone()),
        }
    }
}

/// Parameters in which two points differ.
fn moves(a: &Point, b: &Point) -> usize {
    let both = a.numerators.iter().zip(&b.numerators);
    both.filter(|(&x, &y)| x * b.denominator != y * a.denominator)
        .count()
}
