//! Writes cases for the whole method with lent stores, and the output they must give.
//! With the third word `here` only those that a roll of the method's own serves.

use independent::bytes::{u16_of, u32_of, words, write_named};
use independent::frames::{line, reference_frame, row_frame, written};
use independent::gen::{damaged, model, Rng, Style};
use independent::method::Answer;
use independent::row::NUMBERS;
use independent::store::{run_bytes, Lengths, Lent, LEAST};
use independent::text::{method_case, method_here, tally};

const M9: &str = "0102030302\n0200000001000000040000000200000006\n04000A0101\n04000B0200\n\
030100000201FFFFFFFF0900000001\n030200000202000000010AFFFFFFFF\n\
0302010002030000000109FFFFFFFF\n";
const M10: &str = "0101020201\n02000000010000000000000000\n0400000100\n\
0302000003000000000101FFFFFFFF0200000001\n03020000030000000001010000000102FFFFFFFF\n";
/// Records of the method's own roll.
const OWN: usize = 256;
const H: &str = "0101010100\n";
const R: &str = "020000000100000000\n";

#[derive(Clone)]
struct Case {
    input: Vec<u8>,
    lengths: Lengths,
    budget: u32,
    filler: i8,
}

impl Case {
    fn of(input: impl AsRef<[u8]>) -> Case {
        Case {
            input: input.as_ref().to_vec(),
            lengths: Lengths::usual(),
            budget: 300,
            filler: 5,
        }
    }

    fn budget(mut self, budget: u32) -> Case {
        self.budget = budget;
        self
    }

    fn filler(mut self, filler: i8) -> Case {
        self.filler = filler;
        self
    }

    /// Lengths of the first, second and result stores.
    fn stores(mut self, first: usize, second: usize, result: usize) -> Case {
        self.lengths.first = first;
        self.lengths.second = second;
        self.lengths.result = result;
        self
    }

    /// Numbers of the row store and records of the roll.
    fn room(mut self, numbers: usize, records: usize) -> Case {
        self.lengths.rows = numbers;
        self.lengths.records = records;
        self
    }

    fn bytes(&self) -> Vec<u8> {
        let l = &self.lengths;
        let mut bytes = u32_of(self.input.len()).to_vec();
        bytes.extend(&self.input);
        for length in [l.first, l.second, l.result] {
            bytes.extend(u16_of(length));
        }
        bytes.extend(u32_of(l.rows));
        bytes.extend(u16_of(l.records));
        bytes.extend(self.budget.to_be_bytes());
        bytes.extend(self.filler.to_be_bytes());
        bytes
    }

    fn run(&self) -> (Answer, Lent) {
        let mut lent = Lent::filled(&self.lengths, self.filler);
        let answer = run_bytes(&self.input, &mut lent, u64::from(self.budget));
        (answer, lent)
    }
}

/// Cases and expected text so far.
#[derive(Default)]
struct Book {
    /// Only cases for the method's own roll, and no word of it.
    here: bool,
    cases: Vec<u8>,
    expected: String,
    index: usize,
    tally: [usize; 14],
}

impl Book {
    fn add(&mut self, case: Case) {
        if self.here && case.lengths.records != OWN {
            return;
        }
        let (answer, lent) = case.run();
        self.cases.extend(case.bytes());
        let text = if self.here { method_here } else { method_case };
        self.expected += &text(self.index, &answer, &lent);
        self.index += 1;
        self.tally[usize::from(answer.outcome)] += 1;
    }
}

fn row(kind: u8, owner: u8, strict: u8, terms: &[(u8, i32)]) -> String {
    line(&row_frame(kind, owner, strict, terms))
}

/// A row as frames want it: entries rising, none of them 0.
fn fit(kind: u8, owner: u8, strict: u8, terms: &[(u8, i32)]) -> String {
    let mut terms = terms.to_vec();
    terms.retain(|term| term.1 != 0);
    terms.sort();
    row(kind, owner, strict, &terms)
}

/// One clock, one parameter at 0, that many locations and transitions as written.
fn small(locations: u8, moves: &[[u8; 4]]) -> String {
    head(1, 1, locations, &[0], moves)
}

fn head(clocks: u8, parameters: u8, locations: u8, at: &[i32], moves: &[[u8; 4]]) -> String {
    let mut text = line(&[1, clocks, parameters, locations, moves.len() as u8]);
    text += &line(&reference_frame(1, at));
    for m in moves {
        text += &line(&[4, m[0], m[1], m[2], m[3]]);
    }
    text
}

fn marked(book: &mut Book) {
    for text in [M9, M10] {
        for budget in [0, 1, 2, 3, 4, 5, 100_000, u32::MAX] {
            book.add(Case::of(text).budget(budget));
        }
        for records in [0, 1, 2, 3] {
            book.add(Case::of(text).room(15_300, records).filler(-1));
        }
        for rows in 0..=20 {
            let case = Case::of(text).room(rows * NUMBERS + rows % 17, 3);
            book.add(case.filler(rows as i8 - 10));
        }
        for numbers in [16, 17 * 6 - 1, 17 * 6, 17 * 14 - 1, 17 * 14, 17 * 14 + 16] {
            book.add(Case::of(text).room(numbers, 2).filler(-128));
        }
    }
    let halves = M9.replace(
        "0200000001000000040000000200000006",
        "020000000200000008000000040000000C",
    );
    book.add(Case::of(&halves));
    for text in [format!("{H}{R}"), small(2, &[[1, 0, 0, 0]])] {
        book.add(Case::of(&text).budget(0));
        book.add(Case::of(&text).budget(0).room(17 * 2, 1));
        book.add(Case::of(&text).budget(0).room(17 * 2 - 1, 1));
        book.add(Case::of(&text).budget(0).room(17 * 2, 0));
    }
}

fn short_stores(book: &mut Book) {
    let short = LEAST - 1;
    for (first, second, result) in [
        (short, LEAST, LEAST),
        (LEAST, short, LEAST),
        (LEAST, LEAST, short),
        (short, short, short),
        (0, 0, 0),
        (17, 2192, 2192),
        (2192, 16, 2192),
        (2192, 2192, 0),
    ] {
        book.add(Case::of(M9).stores(first, second, result));
        let wrong = Case::of("zz").stores(first, second, result);
        book.add(wrong.room(0, 0).budget(0).filler(-9));
    }
    for (first, second, result) in [
        (2177, 2178, 2179),
        (2192, 2191, 2190),
        (2193, 2176, 2192),
        (2210, 2194, 2227),
        (4000, 3000, 2500),
    ] {
        book.add(Case::of(M9).stores(first, second, result).filler(-4));
        let few = Case::of(M9).stores(first, second, result).budget(2);
        book.add(few.room(40, 2).filler(127));
    }
    book.add(Case::of(M9).room(20_001, 300).filler(-77));
}

fn refusals(book: &mut Book) {
    let long = "0".repeat(65_537);
    let base = format!("{H}{R}");
    for text in [
        String::new(),
        "\n".to_string(),
        "02\n".to_string(),
        long,
        H.to_string(),
        format!("{H}{H}"),
        "0107010100\n".to_string(),
        format!("{H}020000000000000000\n"),
        base.clone() + &row(1, 1, 0, &[(9, 1)]),
        base.clone() + &row(0, 0, 0, &[(9, 1)]),
        base.clone() + &row(1, 0, 0, &[(9, 0)]),
        base.clone() + &row(1, 0, 0, &[(9, 1), (1, 1)]),
        base.clone() + &row(0, 0, 1, &[(1, 1)]),
        base.clone() + &row(1, 0, 1, &[(1, 1)]),
        base.clone() + &row(1, 0, 1, &[(9, 1)]),
        base.clone() + &row(1, 0, 1, &[(1, 1)]) + &row(0, 0, 0, &[(0, 1)]),
        base + &row(0, 0, 0, &[(1, -1)]).repeat(129),
    ] {
        book.add(Case::of(&text).filler(-3));
        book.add(Case::of(&text).room(3, 1).budget(0));
    }
}

/// Initial rows −i − p1 ≤ 0: all different, none broken.
fn crowd(count: i32) -> String {
    (1..=count)
        .map(|i| row(0, 0, 0, &[(0, -i), (1, -1)]))
        .collect()
}

fn too_many(book: &mut Book) {
    for count in 122..=128 {
        book.add(Case::of(format!("{H}{R}{}", crowd(count))).budget(0));
    }
    // K alone is too many, with eight parameters.
    for count in [119, 120, 121] {
        let text = head(1, 8, 1, &[0; 8], &[]) + &crowd(count);
        book.add(Case::of(text));
    }
    // Just fits at first; the negation that joins is one too many for the next start.
    for count in [122, 123, 124] {
        let text = small(2, &[[0, 0, 1, 0]]) + &crowd(count) + &fit(2, 0, 0, &[(0, 1), (1, -1)]);
        book.add(Case::of(text).filler(-6));
    }
    spread(book);
    wide_region(book);
}

/// Upper and lower rows on one clock that a reset pairs.
fn spread(book: &mut Book) {
    for (upper, lower) in [
        (8, 8),
        (10, 10),
        (11, 11),
        (12, 12),
        (2, 50),
        (60, 2),
        (60, 60),
    ] {
        for (target, resets) in [(1, 1), (1, 0), (0, 1)] {
            let mut text = head(2, 3, 2, &[9, 0, 1], &[[0, 7, target, resets]]);
            for i in 0..upper {
                text += &fit(2, 0, 0, &[(0, -i), (1, -1), (9, 1)]);
            }
            for j in 0..lower {
                text += &fit(2, 0, (j % 2) as u8, &[(0, -100 * j), (2, 1), (9, -1)]);
            }
            book.add(Case::of(text).budget(6));
        }
    }
}

/// Guards over parameters alone, each to another state, until the region is full.
fn wide_region(book: &mut Book) {
    for count in [40, 62, 63, 64] {
        let moves: Vec<[u8; 4]> = (0..count).map(|i| [0, i, i % 31 + 1, 0]).collect();
        let mut text = head(1, 1, 32, &[0], &moves);
        for i in 0..i32::from(count) {
            text += &fit(2, i as u8, 0, &[(0, -2 * i - 1), (1, -1)]);
            text += &fit(2, i as u8, 0, &[(0, -2 * i - 2), (1, -1)]);
        }
        book.add(Case::of(&text));
        book.add(Case::of(&text).room(15_300, 63));
        book.add(Case::of(&text).room(17 * 300, 256).filler(-8));
    }
}

fn too_large(book: &mut Book) {
    // M7 as a guard, met by a reset; and only in the shadow when nothing is reset.
    for resets in [0, 1] {
        let text = head(1, 2, 2, &[1, 1], &[[0, 3, 1, resets]])
            + &fit(2, 0, 0, &[(9, 999_999), (1, -999_983)])
            + &fit(2, 0, 0, &[(2, 999_979), (9, -1_000_000)]);
        for budget in [0, 1, 2] {
            book.add(Case::of(&text).budget(budget));
        }
    }
    // As invariants: of location 0 at the start, of location 1 at the successor.
    for location in [0, 1] {
        let text = head(1, 2, 2, &[1_000_000, 0], &[[0, 3, 1, 0]])
            + &fit(1, location, 0, &[(9, 999_999), (1, -999_983)])
            + &fit(1, location, 0, &[(2, 999_979), (9, -1_000_000)]);
        book.add(Case::of(&text).filler(-2));
    }
    shift(book);
}

/// A reset leaves two clock entries that fit apart, but not as the sum the delay takes.
fn shift(book: &mut Book) {
    for third in [1, 2, 100, 100_000, 500_000] {
        let text = head(3, 1, 2, &[5], &[[0, 3, 1, 1]])
            + &fit(2, 0, 0, &[(1, -1), (9, 1000), (10, 999_999), (11, third)])
            + &fit(2, 0, 0, &[(9, -1), (10, 999_000), (11, third / 1000)]);
        book.add(Case::of(&text));
        let text = head(3, 1, 2, &[5], &[[0, 3, 1, 1]])
            + &fit(2, 0, 0, &[(1, -1), (9, 1000), (10, -999_999), (11, -third)])
            + &fit(2, 0, 0, &[(9, -1), (10, -999_000), (11, -third / 1000)]);
        book.add(Case::of(&text).budget(3));
    }
}

/// Loops, equal states reached twice, dropped successors, and targets' invariants.
fn walks(book: &mut Book) {
    let ring = [[0, 1, 1, 1], [1, 2, 2, 2], [2, 3, 0, 3]];
    let base = head(2, 2, 3, &[3, 5], &ring);
    let rows = [
        fit(1, 0, 0, &[(1, -1), (9, 1)]),
        fit(2, 0, 0, &[(1, 1), (9, -1)]),
        fit(1, 1, 0, &[(2, -1), (10, 1)]),
        fit(2, 1, 1, &[(0, 2), (10, -1)]),
        fit(2, 2, 0, &[(0, 1), (9, -1)]),
    ];
    for keep in 0..=rows.len() {
        let text = base.clone() + &rows[..keep].concat();
        for budget in [1, 2, 3, 4, 10, 100] {
            book.add(Case::of(&text).budget(budget));
        }
        book.add(Case::of(&text).room(17 * 12, 2));
        book.add(Case::of(&text).room(17 * 20, 3).budget(2));
    }
    // Invariant of the target after the reset: dropped, kept, or a new attempt.
    for resets in [0, 1] {
        for bound in [(0, -1), (1, -1), (2, -1)] {
            let text = head(1, 2, 2, &[2, 4], &[[0, 0, 1, resets], [1, 1, 0, 0]])
                + &fit(2, 0, 0, &[(2, 1), (9, -1)])
                + &fit(1, 1, 1, &[(bound.0, bound.1), (9, 1)]);
            book.add(Case::of(&text));
        }
    }
    // False and true rows without variables among guards and invariants.
    for (constant, strict) in [(1, 0), (-1, 0), (-1, 1), (7, 1)] {
        for (kind, owner) in [(0, 0), (1, 0), (1, 1), (2, 0)] {
            let text = small(2, &[[0, 0, 1, 1]]) + &fit(kind, owner, strict, &[(0, constant)]);
            book.add(Case::of(&text));
        }
    }
}

/// What a seeded case is taken for; each kind has its share.
fn share(answer: &Answer) -> (usize, usize) {
    match answer.outcome {
        0 if answer.attempts > 0 => (0, 60),
        0 if answer.states > 1 => (1, 40),
        0 => (2, 6),
        1 => (3, 6),
        2..=6 => (4, 8),
        7 | 8 => (5, 8),
        9 if answer.attempts > 0 => (6, 8),
        9 => (7, 22),
        10 if answer.attempts > 0 => (8, 10),
        10 => (9, 20),
        11 if answer.attempts > 0 => (10, 15),
        11 => (11, 15),
        12 if answer.attempts > 0 => (12, 20),
        12 => (13, 10),
        _ => (14, 4),
    }
}

fn seeded_case(rng: &mut Rng) -> Case {
    let styles = [
        Style::Lively,
        Style::Lively,
        Style::Mixed,
        Style::Large,
        Style::Crowded,
    ];
    let style = *rng.pick(&styles);
    let text = written(&model(rng, style));
    let input = if rng.chance(7) {
        damaged(rng, &text)
    } else {
        text.into_bytes()
    };
    let mut case = Case::of(input).filler(rng.between(-128, 127) as i8);
    if rng.chance(40) {
        case = case.budget(rng.below(12) as u32);
    }
    if rng.chance(40) {
        let numbers = rng.below(21) * NUMBERS + rng.below(17);
        case = case.room(numbers, rng.below(4));
    }
    let mut length = || LEAST + rng.below(17);
    case = case.stores(length(), length(), length());
    if rng.chance(3) {
        case.lengths.result = rng.below(LEAST);
    }
    case
}

/// Cases from the seed, taken until the shares are full or the draws used up.
fn seeded(book: &mut Book) {
    let mut rng = Rng::new(4_711);
    let mut taken = [0; 15];
    for _ in 0..20_000 {
        let case = seeded_case(&mut rng);
        let (kind, most) = share(&case.run().0);
        if taken[kind] < most {
            taken[kind] += 1;
            book.add(case);
        }
    }
    println!("seeded shares: {taken:?}");
}

fn main() -> std::io::Result<()> {
    let mut names = words();
    let here = names.get(2).is_some_and(|word| word == "here");
    if here {
        names.remove(2);
    }
    let mut book = Book {
        here,
        ..Book::default()
    };
    for part in [marked, short_stores, refusals, too_many, too_large, walks] {
        part(&mut book);
    }
    let by_hand = book.index;
    seeded(&mut book);
    book.cases.extend([0xFF; 4]);
    write_named(&names, &book.cases, &book.expected)?;
    println!(
        "{} cases ({by_hand} by hand): {}",
        book.index,
        tally(&book.tally)
    );
    Ok(())
}
