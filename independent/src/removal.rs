//! Removing variables from sets, and the removal called alone.

use crate::row::{Row, NUMBERS};
use crate::set::{Fault, Set, MOST};
use crate::store::{put_rows, zero_whole, LEAST};

/// Rows that don't name the variable stay; every upper row meets every lower row.
pub fn without(set: &Set, variable: usize) -> Result<Set, Fault> {
    let mut rows = Vec::new();
    for upper in set.rows() {
        if upper.entries[variable] == 0 {
            rows.push(upper.clone());
        }
        if upper.entries[variable] > 0 {
            rows.extend(pairs(set, upper, variable));
        }
    }
    Set::gather(rows)
}

fn pairs(set: &Set, upper: &Row, variable: usize) -> Vec<Row> {
    set.rows()
        .iter()
        .filter(|lower| lower.entries[variable] < 0)
        .map(|lower| upper.paired(lower, variable))
        .collect()
}

/// Several removals, one after the other; the first fault ends them.
pub fn without_all(set: &Set, variables: &[usize]) -> Result<Set, Fault> {
    let mut set = set.clone();
    for &variable in variables {
        set = without(&set, variable)?;
    }
    Ok(set)
}

/// The removal called alone: outcome, whether the part lies in the second store, its rows.
/// Both stores are left as the document says they must end.
pub fn alone(
    first: &mut [i32],
    second: &mut [i32],
    count: usize,
    variables: &[u8],
) -> (u8, bool, usize) {
    if let Some(outcome) = refused(first, second, count, variables) {
        return (outcome, false, 0);
    }
    let result = given(first, count)
        .ok_or(5)
        .and_then(|rows| chain(rows, variables));
    if result == Err(5) {
        return (5, false, 0);
    }
    zero_whole(first);
    zero_whole(second);
    match result {
        Err(outcome) => (outcome, false, 0),
        Ok(set) => {
            let in_second = variables.len() % 2 == 1;
            put_rows(if in_second { second } else { first }, set.rows());
            (0, in_second, set.len())
        }
    }
}

/// The refusals that leave the stores alone, but for the flags, which `given` looks at.
fn refused(first: &[i32], second: &[i32], count: usize, variables: &[u8]) -> Option<u8> {
    if first.len() < LEAST || second.len() < LEAST {
        return Some(13);
    }
    if count > MOST {
        return Some(10);
    }
    if variables.iter().any(|v| !(1..=15).contains(v)) {
        return Some(5);
    }
    None
}

fn given(first: &[i32], count: usize) -> Option<Vec<Row>> {
    first
        .chunks_exact(NUMBERS)
        .take(count)
        .map(Row::from_numbers)
        .collect()
}

fn chain(rows: Vec<Row>, variables: &[u8]) -> Result<Set, u8> {
    let variables: Vec<usize> = variables.iter().map(|&v| usize::from(v)).collect();
    Set::gather(rows)
        .and_then(|set| without_all(&set, &variables))
        .map_err(Fault::outcome)
}
