//! Removal as an entry of its own.

use super::row::{divided, Fate, Row, NUMBERS, STRICT};
use super::set::{Set, EMPTY_ROOM, MOST};
use super::work::Work;
use super::{zero_rows, Refusal};

/// The outcome, whether the part lies in the second store, and its number of rows.
#[derive(Clone, Copy, Debug, PartialEq, Eq)]
pub struct Part {
    pub outcome: u8,
    pub in_second: bool,
    pub rows: usize,
}

/// Rows at the front of the first store, without the variables.
pub fn remove(first: &mut [i32], second: &mut [i32], count: usize, variables: &[u8]) -> Part {
    if let Err(refusal) = check(first, second, count, variables) {
        return refused(refusal);
    }
    match chain(first, second, count, variables) {
        Ok(rows) => settled(first, second, rows, variables.len() % 2 == 1),
        Err(refusal) => {
            zero_rows(first);
            zero_rows(second);
            refused(refusal)
        }
    }
}

/// Zeros all but the rows that remain.
fn settled(first: &mut [i32], second: &mut [i32], rows: usize, in_second: bool) -> Part {
    let (here, there) = if in_second {
        (second, first)
    } else {
        (first, second)
    };
    zero_rows(&mut here[rows * NUMBERS..]);
    zero_rows(there);
    Part {
        outcome: 0,
        in_second,
        rows,
    }
}

fn refused(refusal: Refusal) -> Part {
    Part {
        outcome: refusal as u8,
        in_second: false,
        rows: 0,
    }
}

/// The refusals that leave both stores as they were.
fn check(first: &[i32], second: &[i32], count: usize, variables: &[u8]) -> Result<(), Refusal> {
    if first.len().min(second.len()) < MOST * NUMBERS {
        return Err(Refusal::Short);
    }
    if count > MOST {
        return Err(Refusal::TooMany);
    }
    let flagged = |row: &Row| !(0..=1).contains(&row[STRICT]);
    if first.as_chunks().0[..count].iter().any(flagged)
        || variables.iter().any(|v| !(1..=15).contains(v))
    {
        return Err(Refusal::Undeclared);
    }
    Ok(())
}

/// Removes the variables in turn and counts the rows that remain.
fn chain(
    first: &mut [i32],
    second: &mut [i32],
    count: usize,
    variables: &[u8],
) -> Result<usize, Refusal> {
    let mut room = EMPTY_ROOM;
    let mut given = Set::empty(&mut room);
    gather(&first.as_chunks().0[..count], &mut given)?;
    let mut work = Work::new(first, second)?;
    work.set.load(given.rows());
    for &variable in variables {
        work.remove(usize::from(variable))?;
    }
    Ok(work.set.count())
}

/// At most 128 rows are given, so they have room.
fn gather(rows: &[Row], set: &mut Set) -> Result<(), Refusal> {
    for row in rows {
        match divided(row) {
            Fate::Stays(row) => set.join(&[row])?,
            Fate::Dropped => {}
            Fate::TooLarge => return Err(Refusal::TooLarge),
        }
    }
    Ok(())
}
