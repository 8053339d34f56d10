//! Models as tables, and what is refused in them.

use crate::row::{Row, DELAY, FIRST_CLOCK, WIDTH};
use crate::set::MOST;

pub const MOST_CLOCKS: u8 = 6;
pub const MOST_PARAMETERS: u8 = 8;
pub const MOST_LOCATIONS: u8 = 32;
pub const MOST_TRANSITIONS: u8 = 64;
/// Bound of the reference's numbers and of coefficients.
pub const MILLION: i64 = 1_000_000;

#[derive(Clone, Copy, Debug, PartialEq, Eq)]
pub struct Header {
    pub clocks: u8,
    pub parameters: u8,
    pub locations: u8,
    pub transitions: u8,
}

#[derive(Clone, Copy, Debug, PartialEq, Eq)]
pub struct Transition {
    pub source: u8,
    pub action: u8,
    pub target: u8,
    pub resets: u8,
}

#[derive(Clone, Debug, PartialEq, Eq)]
pub struct ModelRow {
    pub kind: u8,
    pub owner: u8,
    pub strict: u8,
    pub entries: [i64; WIDTH],
}

/// Tables as handed in. The vectors may be longer than the header and the row count say;
/// what lies beyond is not looked at.
#[derive(Clone, Debug, PartialEq, Eq)]
pub struct Tables {
    pub header: Header,
    pub denominator: i64,
    pub numerators: Vec<i64>,
    pub transitions: Vec<Transition>,
    pub row_count: usize,
    pub rows: Vec<ModelRow>,
}

impl Header {
    pub fn in_range(&self) -> bool {
        (1..=MOST_CLOCKS).contains(&self.clocks)
            && (1..=MOST_PARAMETERS).contains(&self.parameters)
            && (1..=MOST_LOCATIONS).contains(&self.locations)
            && self.transitions <= MOST_TRANSITIONS
    }

    pub fn declares_transition(&self, t: &Transition) -> bool {
        let beyond = !((1u16 << self.clocks) - 1);
        t.source < self.locations && t.target < self.locations && u16::from(t.resets) & beyond == 0
    }

    /// Owner kind and owner number.
    pub fn declares_owner(&self, kind: u8, owner: u8) -> bool {
        match kind {
            0 => owner == 0,
            1 => owner < self.locations,
            2 => owner < self.transitions,
            _ => false,
        }
    }

    /// Entry numbers a row of that kind may name: an initial row has no clocks.
    pub fn declares_entry(&self, kind: u8, entry: usize) -> bool {
        let parameters = usize::from(self.parameters);
        let clocks = usize::from(self.clocks);
        let is_clock = (FIRST_CLOCK..FIRST_CLOCK + clocks).contains(&entry);
        entry <= parameters || (is_clock && kind != 0)
    }
}

/// Denominator and the declared numerators.
pub fn reference_in_range(denominator: i64, numerators: &[i64]) -> bool {
    (1..=MILLION).contains(&denominator) && numerators.iter().all(|n| (0..=MILLION).contains(n))
}

pub fn coefficient_in_range(coefficient: i64) -> bool {
    coefficient != 0 && coefficient.abs() <= MILLION
}

impl ModelRow {
    pub fn row(&self) -> Row {
        Row {
            entries: self.entries.map(i128::from),
            strict: self.strict == 1,
        }
    }

    fn checked(&self, header: &Header) -> Result<(), u8> {
        let named = || (0..WIDTH).filter(|&i| self.entries[i] != 0);
        if !header.declares_owner(self.kind, self.owner)
            || self.strict > 1
            || named().any(|i| !header.declares_entry(self.kind, i))
        {
            return Err(5);
        }
        if named().count() == 0 || named().any(|i| !coefficient_in_range(self.entries[i])) {
            return Err(6);
        }
        Ok(())
    }
}

impl Tables {
    /// The refusals of tables, 2 to 8, in the order the frames would meet them.
    pub fn checked(&self) -> Result<(), u8> {
        if !self.header.in_range() {
            return Err(3);
        }
        if !reference_in_range(self.denominator, self.declared_numerators()) {
            return Err(4);
        }
        self.checked_transitions()?;
        self.checked_rows()?;
        self.checked_reference()
    }

    fn declared_numerators(&self) -> &[i64] {
        &self.numerators[..usize::from(self.header.parameters)]
    }

    fn checked_transitions(&self) -> Result<(), u8> {
        let declared = self
            .transitions
            .get(..usize::from(self.header.transitions))
            .ok_or(2)?;
        if declared.iter().all(|t| self.header.declares_transition(t)) {
            Ok(())
        } else {
            Err(5)
        }
    }

    /// Row 129 is met in its place, so the rows before it speak first.
    fn checked_rows(&self) -> Result<(), u8> {
        for row in self.rows.iter().take(self.row_count.min(MOST)) {
            row.checked(&self.header)?;
        }
        if self.row_count > MOST {
            Err(2)
        } else {
            Ok(())
        }
    }

    /// 7 over all initial rows, and only then 8.
    pub fn checked_reference(&self) -> Result<(), u8> {
        let numerators = self.reference();
        let broken = |row: &Row| row.broken_by(self.scale(), &numerators);
        if self.initial().iter().any(broken) {
            return Err(7);
        }
        if self.invariant(0).iter().any(broken) {
            return Err(8);
        }
        Ok(())
    }

    pub fn scale(&self) -> i128 {
        i128::from(self.denominator)
    }

    pub fn reference(&self) -> Vec<i128> {
        self.declared_numerators()
            .iter()
            .map(|&n| i128::from(n))
            .collect()
    }

    fn owned(&self, kind: u8, owner: u8) -> Vec<Row> {
        self.rows[..self.row_count]
            .iter()
            .filter(|row| row.kind == kind && row.owner == owner)
            .map(ModelRow::row)
            .collect()
    }

    pub fn initial(&self) -> Vec<Row> {
        self.owned(0, 0)
    }

    pub fn invariant(&self, location: u8) -> Vec<Row> {
        self.owned(1, location)
    }

    pub fn guard(&self, transition: u8) -> Vec<Row> {
        self.owned(2, transition)
    }

    /// Entry numbers of the declared clocks, in number order.
    pub fn clock_entries(&self) -> Vec<usize> {
        (0..usize::from(self.header.clocks))
            .map(|i| FIRST_CLOCK + i)
            .collect()
    }

    /// Entry numbers of the clocks a transition resets, in number order.
    pub fn reset_entries(&self, transition: &Transition) -> Vec<usize> {
        self.clock_entries()
            .into_iter()
            .filter(|entry| transition.resets >> (entry - FIRST_CLOCK) & 1 == 1)
            .collect()
    }

    pub fn parameter_entries(&self) -> std::ops::RangeInclusive<usize> {
        1..=usize::from(self.header.parameters)
    }
}

/// Two rows that say a variable is 0.
pub fn equals_zero(entry: usize) -> [Row; 2] {
    [
        Row::of(&[(entry, 1)], false),
        Row::of(&[(entry, -1)], false),
    ]
}

/// A row that says a variable is at least 0.
pub fn at_least_zero(entry: usize) -> Row {
    debug_assert!((1..=DELAY).contains(&entry));
    Row::of(&[(entry, -1)], false)
}
