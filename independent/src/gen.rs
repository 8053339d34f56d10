//! Models made up from a seed.

use crate::model::{Header, ModelRow, Tables, Transition};
use crate::row::{FIRST_CLOCK, WIDTH};

/// xorshift64*, so that every file can be made again from its seed.
pub struct Rng(u64);

impl Rng {
    pub fn new(seed: u64) -> Rng {
        // Each seed has a state of its own; the state 0 would stay 0 for ever.
        let state = seed ^ 0x9E37_79B9_7F4A_7C14;
        Rng(if state == 0 { 1 } else { state })
    }

    pub fn draw(&mut self) -> u64 {
        self.0 ^= self.0 >> 12;
        self.0 ^= self.0 << 25;
        self.0 ^= self.0 >> 27;
        self.0.wrapping_mul(0x2545_F491_4F6C_DD1D)
    }

    /// 0 to n − 1.
    pub fn below(&mut self, n: usize) -> usize {
        ((self.draw() >> 16) % n as u64) as usize
    }

    /// Both ends included.
    pub fn between(&mut self, low: i64, high: i64) -> i64 {
        low + self.below((high - low + 1) as usize) as i64
    }

    pub fn chance(&mut self, percent: usize) -> bool {
        self.below(100) < percent
    }

    pub fn pick<'a, T>(&mut self, items: &'a [T]) -> &'a T {
        &items[self.below(items.len())]
    }
}

/// What a made-up model is meant to bring out.
#[derive(Clone, Copy, Debug, PartialEq, Eq)]
pub enum Style {
    /// Bounds on clocks as people write them.
    Lively,
    /// Rows of several small random entries.
    Mixed,
    /// Coefficients near the bound, for 9.
    Large,
    /// Many rows on few variables, for 10.
    Crowded,
}

pub const STYLES: [Style; 4] = [Style::Lively, Style::Mixed, Style::Large, Style::Crowded];

/// A model of that style. Ranges are kept; the reference may break a row now and then.
pub fn model(rng: &mut Rng, style: Style) -> Tables {
    let mut tables = frame(rng, style);
    let count = row_count(rng, style);
    for _ in 0..count {
        let row = any_row(rng, style, &tables);
        tables.rows.push(row);
    }
    tables.row_count = tables.rows.len();
    tables
}

fn row_count(rng: &mut Rng, style: Style) -> usize {
    match style {
        Style::Lively => 1 + rng.below(9),
        Style::Mixed => rng.below(8),
        Style::Large => 1 + rng.below(7),
        Style::Crowded => 15 + rng.below(50),
    }
}

/// Everything but the rows.
fn frame(rng: &mut Rng, style: Style) -> Tables {
    let header = Header {
        clocks: 1 + rng.below(3) as u8,
        parameters: 1 + rng.below(3) as u8,
        locations: 1 + rng.below(4) as u8,
        transitions: rng.below(6) as u8,
    };
    let top = if style == Style::Large { 1_000_000 } else { 9 };
    let numerators = (0..header.parameters)
        .map(|_| rng.between(0, top))
        .collect();
    let transitions = (0..header.transitions)
        .map(|i| transition(rng, &header, i))
        .collect();
    Tables {
        header,
        denominator: rng.between(1, 3),
        numerators,
        transitions,
        row_count: 0,
        rows: Vec::new(),
    }
}

/// The first transition leaves location 0, so that most models do something.
fn transition(rng: &mut Rng, header: &Header, index: u8) -> Transition {
    let locations = usize::from(header.locations);
    let source = if index == 0 { 0 } else { rng.below(locations) };
    Transition {
        source: source as u8,
        action: 0x0A + rng.below(3) as u8,
        target: rng.below(locations) as u8,
        resets: rng.below(1 << header.clocks) as u8,
    }
}

fn any_row(rng: &mut Rng, style: Style, tables: &Tables) -> ModelRow {
    let header = &tables.header;
    let has_guards = header.transitions > 0;
    let (kind, owner) = match rng.below(10) {
        0 => (0, 0),
        1..=3 => (1, rng.below(usize::from(header.locations)) as u8),
        _ if has_guards => (2, rng.below(usize::from(header.transitions)) as u8),
        _ => (1, 0),
    };
    let mut row = ModelRow {
        kind,
        owner,
        strict: u8::from(rng.chance(25)),
        entries: entries(rng, style, header, kind),
    };
    favour_reference(rng, tables, &mut row);
    row
}

/// Most rows asked of the reference are turned round where it would break them.
fn favour_reference(rng: &mut Rng, tables: &Tables, row: &mut ModelRow) {
    let asked = row.kind == 0 || (row.kind == 1 && row.owner == 0);
    let broken = row
        .row()
        .broken_by(i128::from(tables.denominator), &tables.reference());
    if asked && broken && rng.chance(95) {
        row.entries = row.entries.map(|entry| -entry);
        row.strict = 0;
    }
}

fn entries(rng: &mut Rng, style: Style, header: &Header, kind: u8) -> [i64; WIDTH] {
    loop {
        let entries = match style {
            Style::Lively => bound(rng, header, kind),
            Style::Mixed => scattered(rng, header, kind, 4),
            Style::Large => scattered(rng, header, kind, 1_000_000),
            Style::Crowded => scattered(rng, header, kind, 9),
        };
        if entries.iter().any(|&entry| entry != 0) {
            return entries;
        }
    }
}

fn some_parameter(rng: &mut Rng, header: &Header) -> usize {
    1 + rng.below(usize::from(header.parameters))
}

fn some_clock(rng: &mut Rng, header: &Header) -> usize {
    FIRST_CLOCK + rng.below(usize::from(header.clocks))
}

/// A clock (or difference of clocks) against a parameter or a number; an initial row
/// compares parameters instead.
fn bound(rng: &mut Rng, header: &Header, kind: u8) -> [i64; WIDTH] {
    let mut entries = [0; WIDTH];
    let side = if rng.chance(50) { 1 } else { -1 };
    if kind == 0 || rng.chance(8) {
        entries[some_parameter(rng, header)] += side;
    } else {
        entries[some_clock(rng, header)] += side;
        if rng.chance(15) {
            entries[some_clock(rng, header)] -= side;
        }
    }
    if rng.chance(75) {
        entries[some_parameter(rng, header)] -= side * rng.between(1, 2);
    }
    if rng.chance(35) {
        entries[0] -= side * rng.between(1, 5);
    }
    entries
}

fn scattered(rng: &mut Rng, header: &Header, kind: u8, top: i64) -> [i64; WIDTH] {
    let mut entries = [0; WIDTH];
    for (i, entry) in entries.iter_mut().enumerate() {
        if header.declares_entry(kind, i) && rng.chance(45) {
            *entry = rng.between(-top, top);
        }
    }
    entries
}

/// One small damage to a text.
pub fn damaged(rng: &mut Rng, text: &str) -> Vec<u8> {
    let mut bytes = text.as_bytes().to_vec();
    let at = rng.below(bytes.len());
    match rng.below(7) {
        0 => bytes[at] = *rng.pick(b"0123456789ABCDEF"),
        1 => bytes[at] = *rng.pick(b"abcgG \r\n\0\xFF-x"),
        2 => drop(bytes.remove(at)),
        3 => bytes.insert(at, *rng.pick(b"01248ACF\n g")),
        4 => return shuffled(rng, text, true),
        5 => return shuffled(rng, text, false),
        _ => bytes.truncate(at),
    }
    bytes
}

/// Two lines exchanged, or one line doubled.
fn shuffled(rng: &mut Rng, text: &str, exchange: bool) -> Vec<u8> {
    let mut lines: Vec<&str> = text.split_inclusive('\n').collect();
    let (a, b) = (rng.below(lines.len()), rng.below(lines.len()));
    if exchange {
        lines.swap(a, b);
    } else {
        lines.insert(b, lines[a]);
    }
    lines.concat().into_bytes()
}

#[cfg(test)]
mod tests {
    use super::*;

    #[test]
    fn every_seed_has_its_own_stream() {
        let mut firsts: Vec<u64> = (0..100).map(|seed| Rng::new(seed).draw()).collect();
        firsts.sort();
        firsts.dedup();
        assert_eq!(firsts.len(), 100);
    }
}
