//! Sets of divided rows: sorted, each row once, at most 128.

use crate::row::{Fate, Row};
use std::cell::Cell;

pub const MOST: usize = 128;

/// Why a set could not be formed.
#[derive(Clone, Copy, Debug, PartialEq, Eq)]
pub enum Fault {
    TooLarge,
    TooMany,
}

impl Fault {
    pub fn outcome(self) -> u8 {
        match self {
            Fault::TooLarge => 9,
            Fault::TooMany => 10,
        }
    }
}

thread_local! {
    /// Rows of the largest set and the largest entry met since the last look, in refused
    /// sets too.
    static LARGEST: Cell<(usize, i128)> = const { Cell::new((0, 0)) };
}

/// Reads the marks and begins anew.
pub fn take_largest() -> (usize, i128) {
    LARGEST.replace((0, 0))
}

fn mark(rows: &[Row]) {
    let entries = rows.iter().flat_map(|row| &row.entries);
    let entry = entries.fold(0, |most, entry| entry.abs().max(most));
    let (most_rows, most_entry) = LARGEST.get();
    LARGEST.set((most_rows.max(rows.len()), most_entry.max(entry)));
}

#[derive(Clone, Debug, Default, PartialEq, Eq)]
pub struct Set {
    rows: Vec<Row>,
}

impl Set {
    /// Divides the rows down and makes them a set. All sizes are looked at before the
    /// count is, since 9 comes before 10 within a step; and the count is taken last,
    /// since repeats and dropped rows don't add to it.
    pub fn gather(rows: impl IntoIterator<Item = Row>) -> Result<Set, Fault> {
        let mut kept = Vec::new();
        for row in rows {
            match row.reduced() {
                Fate::Dropped => {}
                Fate::Stays(row) => kept.push(row),
                Fate::TooLarge => return Err(Fault::TooLarge),
            }
        }
        kept.sort();
        kept.dedup();
        mark(&kept);
        if kept.len() > MOST {
            return Err(Fault::TooMany);
        }
        Ok(Set { rows: kept })
    }

    /// The set with more rows in it.
    pub fn joined(&self, more: impl IntoIterator<Item = Row>) -> Result<Set, Fault> {
        Set::gather(self.rows.iter().cloned().chain(more))
    }

    pub fn rows(&self) -> &[Row] {
        &self.rows
    }

    pub fn len(&self) -> usize {
        self.rows.len()
    }

    pub fn is_empty(&self) -> bool {
        self.rows.is_empty()
    }

    /// That very row, all 17 numbers.
    pub fn contains(&self, row: &Row) -> bool {
        self.rows.binary_search(row).is_ok()
    }

    pub fn is_false(&self) -> bool {
        self.contains(&Row::falsehood())
    }
}
