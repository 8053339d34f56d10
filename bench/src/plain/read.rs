//! The hex exchange: a model from its lines.

use super::model::{owner_of, Header, Model, Move, MILLION};
use super::row::{divided, Fate, Row, EMPTY, STRICT};
use super::set::MOST;
use super::Refusal;

const LONGEST: usize = 65_536;
/// Stands in `DIGITS` for a character that is no digit.
const FOREIGN: u8 = 255;
static DIGITS: [u8; 256] = digits();

const fn digits() -> [u8; 256] {
    let mut table = [FOREIGN; 256];
    let mut i = 0;
    while i < 16 {
        table[b"0123456789ABCDEF"[i] as usize] = i as u8;
        i += 1;
    }
    table
}

/// A line of an even number of digits, read as bytes.
struct Frame<'a>(&'a [u8]);

impl Frame<'_> {
    fn len(&self) -> usize {
        self.0.len() / 2
    }

    fn byte(&self, i: usize) -> u8 {
        let digit = |place: usize| DIGITS[usize::from(self.0[place])];
        digit(2 * i) << 4 | digit(2 * i + 1)
    }

    /// Four bytes from i on.
    fn number(&self, i: usize) -> i32 {
        i32::from_be_bytes([0, 1, 2, 3].map(|k| self.byte(i + k)))
    }

    /// Entry number and coefficient of a row's term.
    fn term(&self, i: usize) -> (u8, i32) {
        (self.byte(5 + 5 * i), self.number(6 + 5 * i))
    }
}

struct Reader<'a> {
    model: &'a mut Model,
    headed: bool,
    referred: bool,
    moves: usize,
    /// Rows read; `count` of them stay, the others are true without variables.
    read: usize,
    count: usize,
    rows: [Row; MOST],
    owners: [u8; MOST],
}

/// Fills an empty model from its lines.
pub fn read(input: &[u8], model: &mut Model) -> Result<(), Refusal> {
    if input.len() > LONGEST {
        return Err(Refusal::NoFrame);
    }
    let mut reader = Reader {
        model,
        headed: false,
        referred: false,
        moves: 0,
        read: 0,
        count: 0,
        rows: [EMPTY; MOST],
        owners: [0; MOST],
    };
    let mut rest = input;
    while !rest.is_empty() {
        let (frame, after) = split(rest)?;
        reader.frame(&frame)?;
        rest = after;
    }
    reader.finish()
}

/// The first line and what follows it. A foreign character is met before the end of
/// the line is known, which gives the same refusal as any other line that is no frame.
fn split(input: &[u8]) -> Result<(Frame<'_>, &[u8]), Refusal> {
    let foreign = |&c: &u8| DIGITS[usize::from(c)] == FOREIGN;
    let end = input.iter().position(foreign).ok_or(Refusal::NoFrame)?;
    if input[end] != b'\n' || end == 0 || end % 2 == 1 {
        return Err(Refusal::NoFrame);
    }
    Ok((Frame(&input[..end]), &input[end + 1..]))
}

impl Reader<'_> {
    fn frame(&mut self, frame: &Frame) -> Result<(), Refusal> {
        let kind = frame.byte(0);
        if !(1..=4).contains(&kind) {
            return Err(Refusal::NoFrame);
        }
        if !self.headed && kind != 1 {
            return Err(Refusal::Order);
        }
        if !self.has_due_length(kind, frame) {
            return Err(Refusal::NoFrame);
        }
        if !self.is_due(kind) {
            return Err(Refusal::Order);
        }
        match kind {
            1 => self.header(frame),
            2 => self.reference(frame),
            4 => self.transition(frame),
            _ => self.row(frame),
        }
    }

    /// A row frame too short for its own count has no right length.
    fn has_due_length(&self, kind: u8, frame: &Frame) -> bool {
        let due = match kind {
            2 => 5 + 4 * usize::from(self.model.header.parameters),
            3 if frame.len() >= 5 => 5 + 5 * usize::from(frame.byte(4)),
            _ => 5,
        };
        frame.len() == due
    }

    fn is_due(&self, kind: u8) -> bool {
        match kind {
            1 => !self.headed,
            2 => !self.referred,
            4 => self.referred && !self.has_all_moves(),
            _ => self.referred && self.has_all_moves() && self.read < MOST,
        }
    }

    fn has_all_moves(&self) -> bool {
        self.moves == usize::from(self.model.header.moves)
    }

    fn header(&mut self, frame: &Frame) -> Result<(), Refusal> {
        let [clocks, parameters, locations, moves] = [1, 2, 3, 4].map(|i| frame.byte(i));
        self.model.header = Header {
            clocks,
            parameters,
            locations,
            moves,
        };
        self.headed = true;
        check(self.model.header.in_range(), Refusal::Header)
    }

    fn reference(&mut self, frame: &Frame) -> Result<(), Refusal> {
        let mut good = frame.number(1) >= 1;
        for i in 0..=usize::from(self.model.header.parameters) {
            let number = frame.number(1 + 4 * i);
            good &= (0..=MILLION).contains(&number);
            self.model.point[i] = i64::from(number);
        }
        self.referred = true;
        check(good, Refusal::Reference)
    }

    fn transition(&mut self, frame: &Frame) -> Result<(), Refusal> {
        let m = Move {
            source: frame.byte(1),
            target: frame.byte(3),
            resets: frame.byte(4),
        };
        self.model.moves[self.moves] = m;
        self.moves += 1;
        check(self.model.header.declares_move(&m), Refusal::Undeclared)
    }

    /// All terms counted are looked at for 5 before anything is for 6.
    fn row(&mut self, frame: &Frame) -> Result<(), Refusal> {
        let [kind, owner, strict, terms] = [1, 2, 3, 4].map(|i| frame.byte(i));
        let header = &self.model.header;
        let named = (0..usize::from(terms)).all(|i| header.declares_entry(kind, frame.term(i).0));
        let declared = header.declares_owner(kind, owner) && strict <= 1 && named;
        check(declared, Refusal::Undeclared)?;
        check((1..=15).contains(&terms), Refusal::Terms)?;
        let row = row_of(frame, terms, strict)?;
        self.read += 1;
        self.take(&row, owner_of(kind, owner));
        Ok(())
    }

    /// Divided down once here instead of at each joining.
    fn take(&mut self, row: &Row, owner: u8) {
        if let Fate::Stays(row) = divided(row) {
            self.rows[self.count] = row;
            self.owners[self.count] = owner;
            self.count += 1;
        }
    }

    fn finish(self) -> Result<(), Refusal> {
        check(self.referred && self.has_all_moves(), Refusal::Order)?;
        let count = self.count;
        self.model.group(&self.rows[..count], &self.owners[..count]);
        Ok(())
    }
}

fn row_of(frame: &Frame, terms: u8, strict: u8) -> Result<Row, Refusal> {
    let mut row = EMPTY;
    let mut least = 0;
    for i in 0..usize::from(terms) {
        let (entry, coefficient) = frame.term(i);
        let good = coefficient != 0 && (-MILLION..=MILLION).contains(&coefficient);
        check(entry >= least && good, Refusal::Terms)?;
        row[usize::from(entry)] = coefficient;
        least = entry + 1;
    }
    row[STRICT] = i32::from(strict);
    Ok(row)
}

fn check(good: bool, refusal: Refusal) -> Result<(), Refusal> {
    if good {
        Ok(())
    } else {
        Err(refusal)
    }
}
