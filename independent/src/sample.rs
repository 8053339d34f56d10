//! Settings around a region: inside, on its borders, in its corners, and just beyond.
//!
//! Points are whole numbers over one denominator; `None` means that they grew too large
//! or left the quadrant of nonnegative parameters.

use crate::explore::Setting;
use crate::gen::Rng;
use crate::row::{common, Row};

/// How far a step goes where no border stops it, in units of a direction.
const FAR: i128 = 40;

#[derive(Clone, Debug, PartialEq, Eq)]
pub struct Point {
    pub numerators: Vec<i128>,
    pub denominator: i128,
}

impl Point {
    pub fn setting(&self) -> Setting {
        Setting {
            numerators: self.numerators.clone(),
            denominators: vec![self.denominator; self.numerators.len()],
        }
    }

    pub fn inside(&self, region: &[Row]) -> bool {
        region
            .iter()
            .all(|row| !row.broken_by(self.denominator, &self.numerators))
    }

    pub fn nonnegative(&self) -> bool {
        self.numerators.iter().all(|&n| n >= 0)
    }

    fn lowest(mut self) -> Option<Point> {
        let all = self
            .numerators
            .iter()
            .fold(self.denominator, |g, &n| common(g, n));
        self.denominator /= all.max(1);
        for numerator in &mut self.numerators {
            *numerator /= all.max(1);
        }
        // Far below 128 bits, so that later products fit.
        let most = 1i128 << 60;
        let small = |n: &i128| n.abs() < most;
        (small(&self.denominator) && self.numerators.iter().all(small)).then_some(self)
    }

    /// The point `up / down` of the way from this one to the other, beyond it too.
    pub fn towards(&self, other: &Point, up: i128, down: i128) -> Option<Point> {
        let both = self.numerators.iter().zip(&other.numerators);
        let mut numerators = Vec::new();
        for (&x, &y) in both {
            let here = x.checked_mul(other.denominator)?;
            let there = y.checked_mul(self.denominator)?;
            let part = there.checked_sub(here)?.checked_mul(up)?;
            numerators.push(here.checked_mul(down)?.checked_add(part)?);
        }
        let denominator = self
            .denominator
            .checked_mul(other.denominator)?
            .checked_mul(down)?;
        Point {
            numerators,
            denominator,
        }
        .lowest()
    }

    /// From a point of the region's closure along a direction up to the border.
    fn border(&self, direction: &[i128], region: &[Row]) -> Option<Point> {
        let (mut room, mut slope) = (FAR.checked_mul(self.denominator)?, 1);
        for row in region {
            let along = slope_of(row, direction)?;
            let left = -row.value_at(self.denominator, &self.numerators);
            // room / slope is how far this row lets us go; compared crosswise.
            if along > 0 && left.checked_mul(slope)? < room.checked_mul(along)? {
                (room, slope) = (left, along);
            }
        }
        let mut numerators = Vec::new();
        for (&n, &d) in self.numerators.iter().zip(direction) {
            numerators.push(n.checked_mul(slope)?.checked_add(d.checked_mul(room)?)?);
        }
        let denominator = self.denominator.checked_mul(slope)?;
        Point {
            numerators,
            denominator,
        }
        .lowest()
    }
}

fn slope_of(row: &Row, direction: &[i128]) -> Option<i128> {
    let mut sum = 0i128;
    for (&entry, &d) in row.entries[1..].iter().zip(direction) {
        sum = sum.checked_add(entry.checked_mul(d)?)?;
    }
    Some(sum)
}

pub fn direction(rng: &mut Rng, length: usize) -> Vec<i128> {
    (0..length)
        .map(|_| i128::from(rng.between(-6, 6)))
        .collect()
}

/// On the border, in some direction from the reference.
pub fn border(rng: &mut Rng, reference: &Point, region: &[Row]) -> Option<Point> {
    let way = direction(rng, reference.numerators.len());
    reference.border(&way, region)
}

/// A corner, or as near to one as the region has: from border to border, each time along
/// the borders already reached.
pub fn corner(rng: &mut Rng, reference: &Point, region: &[Row]) -> Option<Point> {
    let mut point = reference.clone();
    for _ in 0..reference.numerators.len() {
        let tight: Vec<Vec<i128>> = region
            .iter()
            .filter(|row| row.value_at(point.denominator, &point.numerators) == 0)
            .map(|row| row.entries[1..=point.numerators.len()].to_vec())
            .collect();
        let wish = direction(rng, point.numerators.len());
        let Some(way) = along(tight, &wish)? else {
            break;
        };
        point = point.border(&way, region)?;
    }
    Some(point)
}

/// A direction on which all the rows are level, taking the wish where it is free;
/// `Some(None)` where there is none.
fn along(rows: Vec<Vec<i128>>, wish: &[i128]) -> Option<Option<Vec<i128>>> {
    let mut solved: Vec<(usize, Vec<i128>)> = Vec::new();
    for row in rows {
        let row = level(row, &solved)?;
        if let Some(place) = row.iter().position(|&n| n != 0) {
            for (_, other) in &mut solved {
                *other = level(other.clone(), &[(place, row.clone())])?;
            }
            solved.push((place, row));
        }
    }
    // A solved place is minus the rest of its row over its own number.
    let mut scale = 1i128;
    for (place, row) in &solved {
        let own = row[*place].abs();
        scale = scale.checked_mul(own / common(scale, own))?;
    }
    let mut way: Vec<i128> = Vec::new();
    for (place, &w) in wish.iter().enumerate() {
        let free = solved.iter().all(|(p, _)| *p != place);
        way.push(if free { w.checked_mul(scale)? } else { 0 });
    }
    let free = way.clone();
    for (place, row) in &solved {
        let mut rest = 0i128;
        for (&n, &w) in row.iter().zip(&free) {
            rest = rest.checked_add(n.checked_mul(w)?)?;
        }
        way[*place] = -rest / row[*place];
    }
    let divisor = way.iter().fold(0, |g, &n| common(g, n));
    if divisor == 0 {
        return Some(None);
    }
    Some(Some(way.iter().map(|n| n / divisor).collect()))
}

/// The row without the places that others are solved for.
fn level(mut row: Vec<i128>, solved: &[(usize, Vec<i128>)]) -> Option<Vec<i128>> {
    for (place, other) in solved {
        let (own, there) = (row[*place], other[*place]);
        if own == 0 {
            continue;
        }
        for (n, &o) in row.iter_mut().zip(other) {
            *n = n.checked_mul(there)?.checked_sub(o.checked_mul(own)?)?;
        }
        let divisor = row.iter().fold(0, |g, &n| common(g, n)).max(1);
        for n in &mut row {
            *n /= divisor;
        }
    }
    Some(row)
}

/// Anywhere between 0 and three times the reference and some, in small fractions.
pub fn anywhere(rng: &mut Rng, reference: &Point) -> Option<Point> {
    let below = i128::from(rng.between(1, 12));
    let mut numerators = Vec::new();
    for &n in &reference.numerators {
        let most = 3 * n / reference.denominator + 6;
        let most = i64::try_from(most.checked_mul(below)?).ok()?;
        numerators.push(i128::from(rng.between(0, most)));
    }
    Point {
        numerators,
        denominator: below,
    }
    .lowest()
}

#[cfg(test)]
mod tests {
    use super::*;

    /// p1 ≥ 0, p2 ≥ 0, p2 ≤ p1, p1 < 6.
    fn region() -> Vec<Row> {
        vec![
            Row::of(&[(0, -6), (1, 1)], true),
            Row::of(&[(1, -1), (2, 1)], false),
            Row::of(&[(1, -1)], false),
            Row::of(&[(2, -1)], false),
        ]
    }

    fn reference() -> Point {
        Point {
            numerators: vec![4, 2],
            denominator: 1,
        }
    }

    #[test]
    fn corners_are_corners() {
        let corners = [(0, 0), (6, 0), (6, 6)];
        for seed in 0..50 {
            let mut rng = Rng::new(seed);
            let Some(point) = corner(&mut rng, &reference(), &region()) else {
                continue;
            };
            let tight = region()
                .iter()
                .filter(|row| row.value_at(point.denominator, &point.numerators) == 0)
                .count();
            let place = (point.numerators[0], point.numerators[1]);
            let whole = point.denominator == 1 && corners.contains(&place);
            // A wish of zeros stops the walk early; it may stop on a border.
            assert!(whole || tight < 2, "{point:?}");
        }
    }

    #[test]
    fn near_a_strict_border_is_inside_and_the_border_is_not() {
        let edge = reference().border(&[1, 0], &region()).unwrap();
        assert_eq!(edge.numerators, [6, 2]);
        assert!(!edge.inside(&region()));
        let near = reference().towards(&edge, 999, 1000).unwrap();
        assert!(near.inside(&region()));
        let past = reference().towards(&edge, 1001, 1000).unwrap();
        assert!(!past.inside(&region()) && past.nonnegative());
    }
}
