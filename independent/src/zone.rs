//! Clock values at one setting, as an exact polyhedron.
//!
//! With the parameters fixed, what the clocks can be after a path is an intersection of
//! half-spaces. Everything is whole numbers; `None` means that they grew too large.

use crate::row::common;
use std::collections::{BTreeMap, BTreeSet};

/// More faces than this in one projection and the question is given up.
const ROOM: usize = 3_000;

/// Constant first, then a number for each clock: the sum is ≤ 0, or < 0 if strict.
#[derive(Clone, Debug, PartialEq, Eq, PartialOrd, Ord, Hash)]
pub struct Face {
    pub numbers: Vec<i128>,
    pub strict: bool,
}

/// A tidied zone: no face follows from the others, and equal zones mostly look equal.
#[derive(Clone, Debug, PartialEq, Eq, PartialOrd, Ord, Hash)]
pub struct Zone {
    faces: Vec<Face>,
}

impl Face {
    fn single(width: usize, place: usize, value: i128) -> Face {
        let mut numbers = vec![0; width];
        numbers[place] = value;
        Face {
            numbers,
            strict: false,
        }
    }

    fn opposite(&self) -> Face {
        Face {
            numbers: self.numbers.iter().map(|n| -n).collect(),
            strict: !self.strict,
        }
    }

    fn is_constant(&self) -> bool {
        self.numbers[1..].iter().all(|&n| n == 0)
    }

    fn is_true(&self) -> bool {
        let value = self.numbers[0];
        value < 0 || (value == 0 && !self.strict)
    }

    fn divided(mut self) -> Face {
        let divisor = self.numbers.iter().fold(0, |g, &n| common(g, n)).max(1);
        for number in &mut self.numbers {
            *number /= divisor;
        }
        self
    }

    /// `this` times one face plus `that` times the other.
    fn combined(&self, this: i128, other: &Face, that: i128) -> Option<Face> {
        let mut numbers = Vec::with_capacity(self.numbers.len());
        for (&x, &y) in self.numbers.iter().zip(&other.numbers) {
            numbers.push(x.checked_mul(this)?.checked_add(y.checked_mul(that)?)?);
        }
        let strict = self.strict || other.strict;
        Some(Face { numbers, strict }.divided())
    }
}

impl Zone {
    /// Every clock at 0.
    pub fn origin(clocks: usize) -> Zone {
        let faces = (1..=clocks)
            .flat_map(|place| [1, -1].map(|value| Face::single(clocks + 1, place, value)))
            .collect();
        Zone { faces }
    }

    /// The part where the faces hold too; `Some(None)` if that is nothing.
    pub fn within(&self, faces: &[Face]) -> Option<Option<Zone>> {
        let mut all = self.faces.clone();
        all.extend_from_slice(faces);
        tidied(all)
    }

    /// Sets a clock (numbered from 1) to 0.
    pub fn reset(&self, clock: usize) -> Option<Zone> {
        let mut faces = projected(&self.faces, clock)?;
        let width = self.width(clock);
        faces.push(Face::single(width, clock, 1));
        faces.push(Face::single(width, clock, -1));
        tidied(faces)?
    }

    /// Lets any time pass: a further variable stands for the delay and is projected away.
    pub fn later(&self, clocks: usize) -> Option<Zone> {
        let delay = clocks + 1;
        let mut faces = Vec::new();
        for face in &self.faces {
            let mut face = face.clone();
            let sum: i128 = face.numbers[1..].iter().sum();
            face.numbers.push(-sum);
            faces.push(face);
        }
        faces.push(Face::single(delay + 1, delay, -1));
        let mut faces = projected(&faces, delay)?;
        for face in &mut faces {
            face.numbers.truncate(delay);
        }
        tidied(faces)?
    }

    /// Whether the other zone lies within this one.
    pub fn holds(&self, other: &Zone) -> Option<bool> {
        for face in &self.faces {
            if !follows(&other.faces, face)? {
                return Some(false);
            }
        }
        Some(true)
    }

    fn width(&self, at_least: usize) -> usize {
        self.faces
            .first()
            .map_or(at_least + 1, |face| face.numbers.len())
    }
}

/// Takes one variable out of all faces.
fn projected(faces: &[Face], place: usize) -> Option<Vec<Face>> {
    let mut out = BTreeSet::new();
    for upper in faces {
        if upper.numbers[place] == 0 {
            out.insert(upper.clone());
        }
        if upper.numbers[place] > 0 {
            for lower in faces.iter().filter(|f| f.numbers[place] < 0) {
                let (up, down) = (upper.numbers[place], -lower.numbers[place]);
                let divisor = common(up, down);
                out.insert(upper.combined(down / divisor, lower, up / divisor)?);
            }
        }
    }
    let out = tightest(out)?;
    (out.len() <= ROOM).then_some(out)
}

/// Of faces with one direction only that with the largest constant matters, and the
/// strict one where constants agree. Directions are made comparable first.
fn tightest(faces: impl IntoIterator<Item = Face>) -> Option<Vec<Face>> {
    let mut best: BTreeMap<Vec<i128>, Face> = BTreeMap::new();
    for face in faces {
        let divisor = face.numbers[1..].iter().fold(0, |g, &n| common(g, n));
        let along: Vec<i128> = match divisor {
            0 => face.numbers[1..].to_vec(),
            d => face.numbers[1..].iter().map(|n| n / d).collect(),
        };
        let stays = match best.get(&along) {
            Some(other) => tighter(&face, other)?,
            None => true,
        };
        if stays {
            best.insert(along, face);
        }
    }
    Some(best.into_values().collect())
}

/// Of two faces with one direction, each perhaps times a positive number.
fn tighter(a: &Face, b: &Face) -> Option<bool> {
    let divisor = |f: &Face| f.numbers[1..].iter().fold(0, |g, &n| common(g, n)).max(1);
    let left = a.numbers[0].checked_mul(divisor(b))?;
    let right = b.numbers[0].checked_mul(divisor(a))?;
    Some(left > right || (left == right && a.strict && !b.strict))
}

/// Whether no point satisfies all faces.
fn is_nothing(faces: &[Face]) -> Option<bool> {
    let mut faces = tightest(faces.iter().cloned())?;
    loop {
        if faces.iter().any(|f| f.is_constant() && !f.is_true()) {
            return Some(true);
        }
        let Some(place) = cheapest(&faces) else {
            return Some(false);
        };
        faces = projected(&faces, place)?;
    }
}

/// The variable whose projection leaves the fewest faces.
fn cheapest(faces: &[Face]) -> Option<usize> {
    let width = faces.first()?.numbers.len();
    let count = |place: usize, up: bool| {
        let fits = |n: i128| if up { n > 0 } else { n < 0 };
        faces.iter().filter(|f| fits(f.numbers[place])).count()
    };
    (1..width)
        .filter(|&place| count(place, true) + count(place, false) > 0)
        .min_by_key(|&place| count(place, true) * count(place, false))
}

fn follows(faces: &[Face], face: &Face) -> Option<bool> {
    let mut all = faces.to_vec();
    all.push(face.opposite());
    is_nothing(&all)
}

/// `Some(None)` for no point at all; else the zone in a form that depends on little but
/// its points: equations solved, inequalities freed of the solved clocks, none superfluous.
fn tidied(faces: Vec<Face>) -> Option<Option<Zone>> {
    let faces = tightest(faces.into_iter().map(Face::divided))?;
    if is_nothing(&faces)? {
        return Some(None);
    }
    let mut equations: Vec<(usize, Face)> = Vec::new();
    let mut others = Vec::new();
    for face in &faces {
        if !face.strict && !face.is_constant() && follows(&faces, &reversed(face))? {
            solve(&mut equations, face)?;
        } else {
            others.push(face.clone());
        }
    }
    let mut freed = Vec::new();
    for face in others {
        freed.push(freed_of(&face, &equations)?);
    }
    let mut faces = tightest(freed.into_iter().filter(|f| !f.is_constant()))?;
    let mut at = 0;
    while at < faces.len() {
        let face = faces.remove(at);
        if !follows(&faces, &face)? {
            faces.insert(at, face);
            at += 1;
        }
    }
    for (_, equation) in equations {
        faces.push(reversed(&equation));
        faces.push(equation);
    }
    faces.sort();
    Some(Some(Zone { faces }))
}

fn reversed(face: &Face) -> Face {
    Face {
        strict: false,
        ..face.opposite()
    }
}

/// Adds an equation to the solved ones: each has a clock of its own, with a positive
/// number, that stands in no other.
fn solve(equations: &mut Vec<(usize, Face)>, face: &Face) -> Option<()> {
    let face = freed_of(face, equations)?;
    let Some(place) = (1..face.numbers.len()).find(|&p| face.numbers[p] != 0) else {
        return Some(());
    };
    let face = if face.numbers[place] < 0 {
        reversed(&face)
    } else {
        face
    };
    let own = [(place, face.clone())];
    for (_, equation) in equations.iter_mut() {
        *equation = freed_of(equation, &own)?;
    }
    equations.push((place, face));
    equations.sort();
    Some(())
}

/// The face without the clocks that equations determine.
fn freed_of(face: &Face, equations: &[(usize, Face)]) -> Option<Face> {
    let mut face = face.clone();
    for (place, equation) in equations {
        let weight = face.numbers[*place];
        if weight != 0 {
            face = face.combined(equation.numbers[*place], equation, -weight)?;
        }
    }
    Some(face)
}

#[cfg(test)]
mod tests {
    use super::*;

    fn face(numbers: &[i128], strict: bool) -> Face {
        Face {
            numbers: numbers.to_vec(),
            strict,
        }
    }

    #[test]
    fn time_keeps_clocks_equal_and_not_negative() {
        let zone = Zone::origin(2).later(2).unwrap();
        let below = zone.within(&[face(&[1, 1, 0], false)]).unwrap();
        assert!(below.is_none(), "no clock goes below 0");
        let apart = zone.within(&[face(&[0, 1, -1], true)]).unwrap();
        assert!(apart.is_none(), "equal clocks stay equal");
    }

    #[test]
    fn reset_keeps_the_other_clock() {
        let early = face(&[3, -1, 0], false);
        let zone = Zone::origin(2).later(2).unwrap();
        let zone = zone.within(&[early]).unwrap().unwrap();
        let zone = zone.reset(1).unwrap();
        assert!(zone.within(&[face(&[-3, 0, 1], true)]).unwrap().is_none());
        assert!(zone.within(&[face(&[-3, 0, 1], false)]).unwrap().is_some());
    }

    #[test]
    fn strict_and_loose_are_told_apart() {
        let all = Zone::origin(1).later(1).unwrap();
        let loose = all.within(&[face(&[-2, 1], false)]).unwrap().unwrap();
        let strict = all.within(&[face(&[-2, 1], true)]).unwrap().unwrap();
        assert_eq!(loose.holds(&strict), Some(true));
        assert_eq!(strict.holds(&loose), Some(false));
    }

    #[test]
    fn a_zone_looks_the_same_whichever_way_it_is_said() {
        let all = Zone::origin(2).later(2).unwrap();
        let one = all.within(&[face(&[-4, 2, 0], false)]).unwrap();
        let two = all.within(&[face(&[-2, 0, 1], false), face(&[-9, 1, 1], false)]);
        assert_eq!(one, two.unwrap());
    }
}
