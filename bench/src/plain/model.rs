//! A model as tables: what may stand in them, and their rows by owner.

use super::row::{is_broken, Point, Row, EMPTY, FIRST_CLOCK};
use super::set::MOST;
use super::Refusal;

const MOST_LOCATIONS: usize = 32;
pub const MOST_MOVES: usize = 64;
/// Owners of rows: the initial constraint, each location, each transition.
const OWNERS: usize = 1 + MOST_LOCATIONS + MOST_MOVES;
/// Bound of the reference's numbers and of coefficients.
pub const MILLION: i32 = 1_000_000;

#[derive(Clone, Copy, Default)]
pub struct Header {
    pub clocks: u8,
    pub parameters: u8,
    pub locations: u8,
    pub moves: u8,
}

/// A transition.
#[derive(Clone, Copy, Default)]
pub struct Move {
    pub source: u8,
    pub target: u8,
    pub resets: u8,
}

pub struct Model {
    pub header: Header,
    pub point: Point,
    pub moves: [Move; MOST_MOVES],
    rows: [Row; MOST],
    /// Where each owner's rows begin, and where the last one's end.
    starts: [usize; OWNERS + 1],
}

impl Header {
    pub fn in_range(&self) -> bool {
        (1..=6).contains(&self.clocks)
            && (1..=8).contains(&self.parameters)
            && (1..=32).contains(&self.locations)
            && self.moves <= 64
    }

    /// All declared clocks as a mask.
    pub fn all_clocks(&self) -> u8 {
        (1 << self.clocks) - 1
    }

    pub fn declares_move(&self, m: &Move) -> bool {
        m.source < self.locations && m.target < self.locations && m.resets & !self.all_clocks() == 0
    }

    pub fn declares_owner(&self, kind: u8, owner: u8) -> bool {
        match kind {
            0 => owner == 0,
            1 => owner < self.locations,
            2 => owner < self.moves,
            _ => false,
        }
    }

    /// A row of the initial constraint has no clocks.
    pub fn declares_entry(&self, kind: u8, entry: u8) -> bool {
        let first = FIRST_CLOCK as u8;
        entry <= self.parameters || (kind != 0 && entry >= first && entry - first < self.clocks)
    }
}

/// One number for owner kind and owner number.
pub fn owner_of(kind: u8, owner: u8) -> u8 {
    match kind {
        0 => 0,
        1 => 1 + owner,
        _ => 1 + MOST_LOCATIONS as u8 + owner,
    }
}

impl Model {
    pub fn empty() -> Model {
        Model {
            header: Header::default(),
            point: [0; FIRST_CLOCK],
            moves: [Move::default(); MOST_MOVES],
            rows: [EMPTY; MOST],
            starts: [0; OWNERS + 1],
        }
    }

    /// Brings rows together by owner, each owner's in table order.
    pub fn group(&mut self, rows: &[Row], owners: &[u8]) {
        for &owner in owners {
            self.starts[usize::from(owner) + 1] += 1;
        }
        for i in 0..OWNERS {
            self.starts[i + 1] += self.starts[i];
        }
        let mut next = self.starts;
        for (row, &owner) in rows.iter().zip(owners) {
            let place = &mut next[usize::from(owner)];
            self.rows[*place] = *row;
            *place += 1;
        }
    }

    fn owned(&self, owner: u8) -> &[Row] {
        let owner = usize::from(owner);
        &self.rows[self.starts[owner]..self.starts[owner + 1]]
    }

    pub fn initial(&self) -> &[Row] {
        self.owned(0)
    }

    pub fn invariant(&self, location: u8) -> &[Row] {
        self.owned(owner_of(1, location))
    }

    pub fn guard(&self, number: u8) -> &[Row] {
        self.owned(owner_of(2, number))
    }

    /// Over all initial rows first, then over the invariant of location 0.
    pub fn check_reference(&self) -> Result<(), Refusal> {
        let broken = |row: &Row| is_broken(row, &self.point);
        if self.initial().iter().any(broken) {
            return Err(Refusal::Initial);
        }
        if self.invariant(0).iter().any(broken) {
            return Err(Refusal::Start);
        }
        Ok(())
    }
}
