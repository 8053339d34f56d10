//! One row: sixteen whole numbers and a mark for strictness.

/// Entries of a row: constant, eight parameters, six clocks, delay.
pub const WIDTH: usize = 16;
/// Numbers a row takes in a lent store.
pub const NUMBERS: usize = 17;
/// No entry of a divided row may lie beyond this, on either side.
pub const BOUND: i128 = 1_000_000_000;
/// The entry of the first clock, and of the delay.
pub const FIRST_CLOCK: usize = 9;
pub const DELAY: usize = 15;

/// The order derived here (entries first, then loose before strict) is the order of sets.
#[derive(Clone, Debug, PartialEq, Eq, PartialOrd, Ord)]
pub struct Row {
    pub entries: [i128; WIDTH],
    pub strict: bool,
}

/// What dividing a row down makes of it. Taken apart at once, so its size doesn't matter.
#[allow(clippy::large_enum_variant)]
#[derive(Clone, Debug, PartialEq, Eq)]
pub enum Fate {
    Dropped,
    Stays(Row),
    TooLarge,
}

impl Row {
    /// A row from its nonzero entries.
    pub fn of(terms: &[(usize, i128)], strict: bool) -> Row {
        let mut entries = [0; WIDTH];
        for &(entry, value) in terms {
            entries[entry] = value;
        }
        Row { entries, strict }
    }

    /// The one form every false row without variables takes: 1 ≤ 0.
    pub fn falsehood() -> Row {
        Row::of(&[(0, 1)], false)
    }

    /// Reads 17 stored numbers; a flag that is neither 0 nor 1 gives nothing.
    pub fn from_numbers(numbers: &[i32]) -> Option<Row> {
        let strict = match numbers[WIDTH] {
            0 => false,
            1 => true,
            _ => return None,
        };
        let mut entries = [0; WIDTH];
        for (entry, &number) in entries.iter_mut().zip(numbers) {
            *entry = i128::from(number);
        }
        Some(Row { entries, strict })
    }

    /// The 17 numbers a divided row stands as in a store.
    pub fn numbers(&self) -> [i32; NUMBERS] {
        let mut out = [0; NUMBERS];
        for (place, &entry) in out.iter_mut().zip(&self.entries) {
            *place = i32::try_from(entry).expect("a divided row fits 32 bits");
        }
        out[WIDTH] = i32::from(self.strict);
        out
    }

    pub fn has_variables(&self) -> bool {
        self.entries[1..].iter().any(|&entry| entry != 0)
    }

    /// Whether a value of the left side satisfies the row's comparison.
    pub fn allows(&self, value: i128) -> bool {
        value < 0 || (value == 0 && !self.strict)
    }

    /// Divides down. A row without variables is settled before its size is looked at,
    /// so that it can never be too large.
    pub fn reduced(&self) -> Fate {
        if !self.has_variables() {
            return self.settled();
        }
        let divisor = self.divisor();
        let mut row = self.clone();
        for entry in &mut row.entries {
            *entry /= divisor;
        }
        if row.entries.iter().any(|entry| entry.abs() > BOUND) {
            return Fate::TooLarge;
        }
        Fate::Stays(row)
    }

    fn settled(&self) -> Fate {
        if self.allows(self.entries[0]) {
            Fate::Dropped
        } else {
            Fate::Stays(Row::falsehood())
        }
    }

    /// The greatest common divisor of all entries, the constant included.
    fn divisor(&self) -> i128 {
        self.entries.iter().fold(0, |so_far, &x| common(so_far, x))
    }

    /// The opposite statement: every sign turned, loose and strict exchanged.
    pub fn negated(&self) -> Row {
        let mut row = self.clone();
        for entry in &mut row.entries {
            *entry = -*entry;
        }
        row.strict = !self.strict;
        row
    }

    /// Pairs an upper row (entry a > 0) with a lower one (entry −b < 0) so that the
    /// variable cancels; one strict half makes the whole strict.
    pub fn paired(&self, lower: &Row, variable: usize) -> Row {
        let up = self.entries[variable];
        let down = -lower.entries[variable];
        assert!(up > 0 && down > 0, "pairing needs opposite signs");
        let mut entries = [0; WIDTH];
        for (i, entry) in entries.iter_mut().enumerate() {
            *entry = product(down, self.entries[i])
                .checked_add(product(up, lower.entries[i]))
                .expect("sum fits 128 bits");
        }
        Row {
            entries,
            strict: self.strict || lower.strict,
        }
    }

    /// The left side times the denominator, at parameters numerator / denominator
    /// and every clock at 0.
    pub fn value_at(&self, denominator: i128, numerators: &[i128]) -> i128 {
        let mut value = product(self.entries[0], denominator);
        for (entry, &numerator) in self.entries[1..FIRST_CLOCK].iter().zip(numerators) {
            value = value
                .checked_add(product(*entry, numerator))
                .expect("sum fits 128 bits");
        }
        value
    }

    /// Whether those parameters break the row.
    pub fn broken_by(&self, denominator: i128, numerators: &[i128]) -> bool {
        !self.allows(self.value_at(denominator, numerators))
    }
}

fn product(a: i128, b: i128) -> i128 {
    a.checked_mul(b).expect("product fits 128 bits")
}

/// Euclid, with 0 as the divisor of nothing at all.
pub fn common(a: i128, b: i128) -> i128 {
    let (mut a, mut b) = (a.abs(), b.abs());
    while b != 0 {
        (a, b) = (b, a % b);
    }
    a
}
