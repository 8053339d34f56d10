//! A set: rows in order, none twice, at the front of a store.

use super::row::{Row, EMPTY};
use super::Refusal;
use std::cmp::Ordering;

pub const MOST: usize = 128;

pub type Room = [Row; MOST];
pub const EMPTY_ROOM: Room = [EMPTY; MOST];

pub struct Set<'a> {
    room: &'a mut Room,
    count: usize,
}

impl<'a> Set<'a> {
    /// The empty set; what the room holds does not matter.
    pub fn empty(room: &'a mut Room) -> Set<'a> {
        Set { room, count: 0 }
    }

    /// The empty set at the front of a store, if the store is long enough.
    pub fn in_store(store: &'a mut [i32]) -> Result<Set<'a>, Refusal> {
        let (rows, _) = store.as_chunks_mut();
        let room = rows.first_chunk_mut().ok_or(Refusal::Short)?;
        Ok(Set::empty(room))
    }

    pub fn rows(&self) -> &[Row] {
        &self.room[..self.count]
    }

    /// Rows whose order the caller keeps.
    pub fn rows_mut(&mut self) -> &mut [Row] {
        &mut self.room[..self.count]
    }

    pub fn count(&self) -> usize {
        self.count
    }

    pub fn clear(&mut self) {
        self.count = 0;
    }

    /// Takes the place of whatever was in the set; the rows are a set.
    pub fn load(&mut self, rows: &[Row]) {
        self.room[..rows.len()].copy_from_slice(rows);
        self.count = rows.len();
    }

    /// Adds a row that comes after all others.
    #[inline]
    pub fn push(&mut self, row: &Row) {
        self.room[self.count] = *row;
        self.count += 1;
    }

    pub fn contains(&self, row: &Row) -> bool {
        self.find(row).is_ok()
    }

    /// The place of the row, or the place where it belongs.
    #[inline(always)]
    fn find(&self, row: &Row) -> Result<usize, usize> {
        let (mut low, mut high) = (0, self.count);
        while low < high {
            let middle = (low + high) / 2;
            match order(&self.room[middle], row) {
                Ordering::Less => low = middle + 1,
                Ordering::Greater => high = middle,
                Ordering::Equal => return Ok(middle),
            }
        }
        Err(low)
    }

    /// Puts a row that is divided down in its place; false if the set has no room for it.
    #[inline]
    pub fn put(&mut self, row: &Row) -> bool {
        let Err(place) = self.find(row) else {
            return true;
        };
        if self.count == MOST {
            return false;
        }
        self.room.copy_within(place..self.count, place + 1);
        self.room[place] = *row;
        self.count += 1;
        true
    }

    /// Joins rows that are divided down.
    pub fn join(&mut self, rows: &[Row]) -> Result<(), Refusal> {
        for row in rows {
            if !self.put(row) {
                return Err(Refusal::TooMany);
            }
        }
        Ok(())
    }
}

/// By the first number that differs.
#[inline]
fn order(a: &Row, b: &Row) -> Ordering {
    for (x, y) in a.iter().zip(b) {
        if x != y {
            return x.cmp(y);
        }
    }
    Ordering::Equal
}
