//! The two work stores: the set stands in one, and each removal moves it to the other.

use super::row::{
    combined, divided, divided_wide, has_one, is_small, single, sum, Fate, Row, DELAY, FIRST_CLOCK,
    LIMIT, STRICT,
};
use super::set::{Set, MOST};
use super::Refusal;
use std::mem::swap;

pub struct Work<'a> {
    pub set: Set<'a>,
    other: Set<'a>,
}

impl<'a> Work<'a> {
    pub fn new(first: &'a mut [i32], second: &'a mut [i32]) -> Result<Work<'a>, Refusal> {
        Ok(Work {
            set: Set::in_store(first)?,
            other: Set::in_store(second)?,
        })
    }

    pub fn remove(&mut self, variable: usize) -> Result<(), Refusal> {
        without(self.set.rows(), variable, &mut self.other)?;
        swap(&mut self.set, &mut self.other);
        Ok(())
    }

    /// Removes the clocks of a mask, in number order.
    pub fn remove_clocks(&mut self, mask: u8) -> Result<(), Refusal> {
        clocks(mask).try_for_each(|clock| self.remove(clock))
    }

    /// Each clock of a mask is 0: two rows.
    pub fn zero_clocks(&mut self, mask: u8) -> Result<(), Refusal> {
        clocks(mask).try_for_each(|clock| self.set.join(&[single(clock, -1), single(clock, 1)]))
    }

    pub fn pass_time(&mut self) -> Result<(), Refusal> {
        // The delay's entry follows from entries before it, so the order stays.
        for row in self.set.rows_mut() {
            delay(row)?;
        }
        self.set.join(&[single(DELAY, -1)])?;
        self.remove(DELAY)
    }
}

/// Entries of the clocks in a mask; bit 0 is clock 1.
fn clocks(mask: u8) -> impl Iterator<Item = usize> {
    (0..6)
        .filter(move |bit| mask >> bit & 1 == 1)
        .map(|bit| FIRST_CLOCK + bit)
}

/// Each clock becomes clock minus delay. The row stays divided down.
fn delay(row: &mut Row) -> Result<(), Refusal> {
    let sum: i64 = row[FIRST_CLOCK..DELAY].iter().map(|&x| i64::from(x)).sum();
    if sum.abs() > i64::from(LIMIT) {
        return Err(Refusal::TooLarge);
    }
    row[DELAY] = -sum as i32;
    Ok(())
}

/// Rows of a set that lie below 0 in some entry, by their places.
struct Below {
    places: [u8; MOST],
    count: usize,
}

/// Removes a variable. An entry too large is met in any pair before too many rows are.
fn without(from: &[Row], v: usize, to: &mut Set) -> Result<(), Refusal> {
    let below = kept(from, v, to);
    let lower = &below.places[..below.count];
    let mut room = true;
    for upper in from {
        if upper[v] > 0 {
            for &place in lower {
                room &= pair(upper, &from[usize::from(place)], v, to)?;
            }
        }
    }
    if room {
        Ok(())
    } else {
        Err(Refusal::TooMany)
    }
}

/// Moves the rows that don't name the variable and lists those below 0.
fn kept(from: &[Row], v: usize, to: &mut Set) -> Below {
    let mut below = Below {
        places: [0; MOST],
        count: 0,
    };
    to.clear();
    for (place, row) in from.iter().enumerate() {
        if row[v] == 0 {
            to.push(row);
        } else if row[v] < 0 {
            below.places[below.count] = place as u8;
            below.count += 1;
        }
    }
    below
}

/// Joins the pair of two rows; false if there is no room for it.
#[inline]
fn pair(upper: &Row, lower: &Row, v: usize, to: &mut Set) -> Result<bool, Refusal> {
    if upper[v] + lower[v] != 0 {
        return unequal(upper, lower, v, to);
    }
    // Equal multipliers: the pair is a multiple of the sum.
    let row = sum(upper, lower);
    if !has_one(&row) {
        return settle(divided(&row), to);
    }
    if !is_small(&row) {
        return Err(Refusal::TooLarge);
    }
    Ok(to.put(&row))
}

/// Kept apart, so that 64-bit numbers stay out of the way of the common case.
#[cold]
#[inline(never)]
fn unequal(upper: &Row, lower: &Row, v: usize, to: &mut Set) -> Result<bool, Refusal> {
    let strict = upper[STRICT] | lower[STRICT];
    settle(divided_wide(&combined(upper, lower, v), strict), to)
}

#[inline(never)]
fn settle(fate: Fate, to: &mut Set) -> Result<bool, Refusal> {
    match fate {
        Fate::Stays(row) => Ok(to.put(&row)),
        Fate::Dropped => Ok(true),
        Fate::TooLarge => Err(Refusal::TooLarge),
    }
}
