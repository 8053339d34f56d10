//! One row: sixteen entries and the strict flag, as 17 numbers.

pub const ENTRIES: usize = 16;
pub const NUMBERS: usize = 17;
pub const STRICT: usize = 16;
pub const FIRST_CLOCK: usize = 9;
pub const DELAY: usize = 15;
/// No entry of a row that is divided down lies beyond this, on either side.
pub const LIMIT: i32 = 1_000_000_000;

pub type Row = [i32; NUMBERS];
/// The denominator, then a numerator for each parameter.
pub type Point = [i64; FIRST_CLOCK];

pub const EMPTY: Row = [0; NUMBERS];
/// 1 ≤ 0, the one form of a false row without variables.
pub const FALSE: Row = single(0, 1);

/// What dividing down makes of a row.
pub enum Fate {
    Stays(Row),
    Dropped,
    TooLarge,
}

/// The row that says x times one variable is ≤ 0.
pub const fn single(entry: usize, x: i32) -> Row {
    let mut row = EMPTY;
    row[entry] = x;
    row
}

pub fn negated(row: &Row) -> Row {
    let mut out = row.map(|x| -x);
    out[STRICT] = 1 - row[STRICT];
    out
}

/// Entry by entry; two entries within the limit add up within 32 bits.
#[inline]
pub fn sum(upper: &Row, lower: &Row) -> Row {
    let mut out = EMPTY;
    for i in 0..ENTRIES {
        out[i] = upper[i] + lower[i];
    }
    out[STRICT] = upper[STRICT] | lower[STRICT];
    out
}

/// Whether a variable's entry is 1 or −1: such a row is divided down already.
#[inline]
pub fn has_one(row: &Row) -> bool {
    let mut found = false;
    for x in &row[1..ENTRIES] {
        found |= (*x == 1) | (*x == -1);
    }
    found
}

#[inline]
pub fn is_small(row: &Row) -> bool {
    let mut beyond = false;
    for x in &row[..ENTRIES] {
        beyond |= (*x > LIMIT) | (*x < -LIMIT);
    }
    !beyond
}

/// The left side times the denominator, with every clock at 0.
pub fn value(row: &Row, point: &Point) -> i64 {
    let terms = row.iter().zip(point);
    terms.map(|(&entry, &x)| i64::from(entry) * x).sum()
}

pub fn is_broken(row: &Row, point: &Point) -> bool {
    !allows(value(row, point), row[STRICT])
}

fn allows(value: i64, strict: i32) -> bool {
    value < 0 || (value == 0 && strict == 0)
}

/// b times the upper row plus a times the lower, so that variable v cancels; 64 bits have room.
pub fn combined(upper: &Row, lower: &Row, v: usize) -> [i64; ENTRIES] {
    let (a, b) = (i64::from(upper[v]), -i64::from(lower[v]));
    let mut wide = [0; ENTRIES];
    for i in 0..ENTRIES {
        wide[i] = b * i64::from(upper[i]) + a * i64::from(lower[i]);
    }
    wide
}

/// Divides down.
pub fn divided(row: &Row) -> Fate {
    if row[1..ENTRIES].iter().all(|&x| x == 0) {
        return settled(i64::from(row[0]), row[STRICT]);
    }
    let entries = row[..ENTRIES].iter();
    let divisor = divisor(entries.map(|x| u64::from(x.unsigned_abs()))) as u32;
    let mut out = *row;
    if divisor > 1 {
        for x in &mut out[..ENTRIES] {
            // Of the magnitude, since −2^31 has no opposite.
            *x = x.signum() * (x.unsigned_abs() / divisor) as i32;
        }
    }
    if is_small(&out) {
        Fate::Stays(out)
    } else {
        Fate::TooLarge
    }
}

/// Divides down a row of wide entries.
pub fn divided_wide(wide: &[i64; ENTRIES], strict: i32) -> Fate {
    if wide[1..].iter().all(|&x| x == 0) {
        return settled(wide[0], strict);
    }
    let divisor = divisor(wide.iter().map(|x| x.unsigned_abs())) as i64;
    let mut row = EMPTY;
    for (out, x) in row.iter_mut().zip(wide) {
        let Ok(entry) = i32::try_from(x / divisor) else {
            return Fate::TooLarge;
        };
        *out = entry;
    }
    row[STRICT] = strict;
    if is_small(&row) {
        Fate::Stays(row)
    } else {
        Fate::TooLarge
    }
}

/// A row without variables is true or false, and never too large.
fn settled(constant: i64, strict: i32) -> Fate {
    if allows(constant, strict) {
        Fate::Dropped
    } else {
        Fate::Stays(FALSE)
    }
}

/// The greatest common divisor of all entries.
fn divisor(magnitudes: impl Iterator<Item = u64>) -> u64 {
    let mut so_far = 0;
    for x in magnitudes.filter(|&x| x != 0) {
        so_far = common(x, so_far);
        if so_far == 1 {
            break;
        }
    }
    so_far
}

fn common(mut a: u64, mut b: u64) -> u64 {
    while b != 0 {
        (a, b) = (b, a % b);
    }
    a
}
