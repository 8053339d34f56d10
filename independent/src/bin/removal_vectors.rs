//! Writes cases for the removal called alone, and the output they must give.

use independent::bytes::{u16_of, write_files};
use independent::gen::Rng;
use independent::removal::alone;
use independent::row::NUMBERS;
use independent::store::LEAST;
use independent::text::{runs, tally};

type Stored = [i32; NUMBERS];

#[derive(Clone)]
struct Case {
    first: usize,
    second: usize,
    count: usize,
    variables: Vec<u8>,
    rows: Vec<Stored>,
    filler: i8,
}

impl Case {
    /// All rows given, stores just long enough.
    fn of(rows: Vec<Stored>, variables: &[u8]) -> Case {
        Case {
            first: LEAST,
            second: LEAST,
            count: rows.len(),
            variables: variables.to_vec(),
            rows,
            filler: 3,
        }
    }

    fn lengths(mut self, first: usize, second: usize) -> Case {
        (self.first, self.second) = (first, second);
        self
    }

    fn count(mut self, count: usize) -> Case {
        self.count = count;
        self
    }

    fn filler(mut self, filler: i8) -> Case {
        self.filler = filler;
        self
    }

    fn bytes(&self) -> Vec<u8> {
        let mut bytes = vec![0x43];
        bytes.extend(u16_of(self.first));
        bytes.extend(u16_of(self.second));
        for size in [self.count, self.variables.len(), self.rows.len()] {
            bytes.push(u8::try_from(size).expect("fits a byte"));
        }
        bytes.extend(self.filler.to_be_bytes());
        bytes.extend(&self.variables);
        bytes.extend(self.rows.iter().flatten().flat_map(|n| n.to_be_bytes()));
        bytes
    }

    /// Both stores as the reader of the file must set them up.
    fn stores(&self) -> (Vec<i32>, Vec<i32>) {
        let filler = i32::from(self.filler);
        let mut first = vec![filler; self.first];
        for (place, &number) in first.iter_mut().zip(self.rows.iter().flatten()) {
            *place = number;
        }
        (first, vec![filler; self.second])
    }
}

/// Cases and expected text so far.
struct Book {
    cases: Vec<u8>,
    expected: String,
    index: usize,
    tally: [usize; 14],
}

impl Book {
    fn add(&mut self, case: Case) {
        assert!(case.first <= 2192 && case.second <= 2192 && case.rows.len() <= 130);
        let (mut first, mut second) = case.stores();
        let (outcome, in_second, rows) =
            alone(&mut first, &mut second, case.count, &case.variables);
        self.cases.extend(case.bytes());
        self.expected += &format!(
            "case {} outcome {outcome} second {} rows {rows}\n",
            self.index,
            u8::from(in_second)
        );
        self.expected += &runs("first", &first);
        self.expected += &runs("second", &second);
        self.index += 1;
        self.tally[usize::from(outcome)] += 1;
    }
}

fn row(terms: &[(usize, i32)], strict: i32) -> Stored {
    let mut numbers = [0; NUMBERS];
    for &(entry, value) in terms {
        numbers[entry] = value;
    }
    numbers[16] = strict;
    numbers
}

const X: usize = 9;
const BIG: i32 = 1_000_000_000;

/// Upper and lower rows on one variable whose pairs are all different.
fn bounds(variable: usize, upper: i32, lower: i32) -> Vec<Stored> {
    let above = (0..upper).map(|i| row(&[(0, -i), (1, -1), (variable, 1)], 0));
    let below = (0..lower).map(|j| row(&[(0, 200 * j), (2, 1), (variable, -1)], 0));
    above.chain(below).collect()
}

fn m1() -> Vec<Stored> {
    vec![row(&[(X, 1), (1, -1)], 0), row(&[(2, 1), (X, -1)], 1)]
}

fn m6() -> Vec<Stored> {
    vec![row(&[(X, 2), (1, -1)], 0), row(&[(2, 1), (X, -3)], 0)]
}

fn m7() -> Vec<Stored> {
    vec![
        row(&[(X, 999_999), (1, -999_983)], 0),
        row(&[(2, 999_979), (X, -1_000_000)], 0),
    ]
}

fn marked(book: &mut Book) {
    for rows in [m1(), m6(), m7()] {
        book.add(Case::of(rows.clone(), &[9]));
        book.add(Case::of(rows.clone(), &[]));
        book.add(Case::of(rows.clone(), &[9, 9]));
        book.add(Case::of(rows.clone(), &[10, 9]));
        book.add(Case::of(rows.clone(), &[1, 2, 9]).filler(-7));
        book.add(Case::of(rows, &[9, 2, 1]).lengths(2192, 2180));
    }
    let m2 = row(&[(1, 4), (2, -6)], 0);
    let m3 = row(&[], 1);
    let m4 = row(&[(0, -3)], 0);
    let m5 = row(&[(3, 1), (1, -1)], 0);
    book.add(Case::of(vec![m2, m3, m4, m5], &[]));
    book.add(Case::of(vec![m2, m3, m4, m5], &[1]));
    book.add(Case::of(vec![row(&[(1, 1), (0, -BIG)], 0)], &[]));
    book.add(Case::of(vec![row(&[(1, 1), (0, -BIG - 1)], 0)], &[]));
    book.add(Case::of(vec![row(&[(1, 1), (0, -BIG - 1)], 0)], &[1]));
}

fn empties(book: &mut Book) {
    for filler in [0, 1, -1, 127, -128] {
        book.add(Case::of(vec![], &[]).filler(filler));
        book.add(Case::of(vec![], &[1]).filler(filler));
        book.add(
            Case::of(vec![], &[15, 15])
                .lengths(2192, 2177)
                .filler(filler),
        );
    }
    let all: Vec<u8> = (1..=15).collect();
    book.add(Case::of(vec![], &all));
    book.add(Case::of(vec![], &[7; 255]));
    // Rows stand in the store, but none are given.
    book.add(Case::of(m1(), &[]).count(0));
    book.add(Case::of(m1(), &[9]).count(0));
    book.add(Case::of(vec![row(&[(1, 1)], 2); 3], &[9]).count(0));
}

fn variables(book: &mut Book) {
    let rows = bounds(X, 3, 4);
    let all: Vec<u8> = (1..=15).collect();
    let back: Vec<u8> = (1..=15).rev().collect();
    let lists: [&[u8]; 9] = [
        &[],
        &[3],
        &[3, 4],
        &[9, 9, 9],
        &[1, 9],
        &[9, 1, 2],
        &all,
        &back,
        &[15; 254],
    ];
    for list in lists {
        book.add(Case::of(rows.clone(), list));
        book.add(Case::of(rows.clone(), list).lengths(2185, 2191).filler(-5));
    }
    // Only upper or only lower rows: all that name the variable vanish.
    book.add(Case::of(bounds(X, 5, 0), &[9]));
    book.add(Case::of(bounds(X, 0, 5), &[9]));
    for entry in 1..=15 {
        let rows = vec![
            row(&[(entry, 2), (0, -5)], 0),
            row(&[(entry, -3), (0, 7)], 1),
        ];
        book.add(Case::of(rows, &[entry as u8]));
    }
}

/// Rows in every order and with repeats come out as one sorted set.
fn orders(book: &mut Book) {
    let mut rows = vec![
        row(&[(0, 2), (1, 2)], 0),
        row(&[(0, 1), (1, 1)], 1),
        row(&[(0, 1), (1, 1)], 0),
        row(&[(0, -1), (15, 1)], 0),
        row(&[(0, -1), (15, -1)], 0),
        row(&[(0, -1), (1, -1)], 1),
        row(&[(14, 3), (15, -3)], 1),
        row(&[(14, 1), (15, -1)], 1),
        row(&[(0, 1)], 0),
        row(&[(0, 9)], 1),
    ];
    for turn in 0..rows.len() {
        rows.rotate_left(3);
        book.add(Case::of(
            rows.clone(),
            if turn % 2 == 0 { &[] } else { &[12] },
        ));
    }
}

fn constants(book: &mut Book) {
    for constant in [0, 1, -1, 5, -5, BIG, BIG + 1, -BIG - 1, i32::MAX, i32::MIN] {
        for strict in [0, 1] {
            book.add(Case::of(vec![row(&[(0, constant)], strict)], &[]));
        }
        let rows = vec![
            row(&[(0, constant)], 0),
            row(&[(1, 1)], 0),
            row(&[(0, constant)], 1),
        ];
        book.add(Case::of(rows, &[4]));
    }
    // A pair that leaves no variable: false, true, and just at the edge.
    for (up, down, strict) in [(-5, 6, 0), (-5, 5, 0), (-5, 5, 1), (-6, 5, 1)] {
        let rows = vec![
            row(&[(X, 1), (0, up)], 0),
            row(&[(X, -1), (0, down)], strict),
        ];
        book.add(Case::of(rows, &[9]));
    }
    // A huge constant that a pair makes is settled, not refused.
    for sign in [1, -1] {
        let rows = vec![
            row(&[(X, 999_999_937), (0, sign * 999_999_929)], 0),
            row(&[(X, -999_999_893), (0, sign * 999_999_883)], 0),
        ];
        book.add(Case::of(rows, &[9]));
    }
}

fn sizes(book: &mut Book) {
    let least = i32::MIN;
    let rows = [
        vec![[least; 17]],
        vec![row(&[(0, least), (1, 1 << 30)], 0)],
        vec![row(&[(0, least), (1, 1)], 0)],
        vec![row(&[(1, least)], 1)],
        vec![row(&[(1, least), (2, i32::MAX)], 1)],
        vec![row(&[(1, i32::MAX), (15, i32::MAX)], 0)],
        vec![row(&[(1, BIG), (2, 1)], 0), row(&[(1, -BIG), (2, 1)], 0)],
        vec![row(&[(1, BIG + 1), (2, 1)], 0)],
        vec![row(&[(1, -BIG - 1), (2, 1)], 0)],
        vec![row(&[(1, 2 * BIG), (2, 2)], 0)],
        vec![row(&[(1, 2 * BIG + 2), (2, 2)], 0)],
        vec![row(&[(1, least), (2, 2)], 0)],
        vec![row(&[(1, least), (2, 4)], 0)],
        vec![row(&[(0, -BIG - 1), (15, 1)], 0)],
    ];
    for mut set in rows {
        for row in &mut set {
            row[16] = row[16].clamp(0, 1);
        }
        book.add(Case::of(set.clone(), &[]));
        book.add(Case::of(set.clone(), &[1]));
        book.add(Case::of(set, &[15, 2]).filler(-1));
    }
    // The last row of many is the one too large.
    let mut many = bounds(X, 30, 2);
    many.push(row(&[(1, BIG + 1), (2, 1)], 0));
    book.add(Case::of(many.clone(), &[9]));
    book.add(Case::of(many, &[]));
}

/// Entries a removal brings exactly to the bound, and one beyond.
fn pair_sizes(book: &mut Book) {
    for half in [500_000_000i32, -500_000_000] {
        for extra in [0, half.signum()] {
            let rows = vec![
                row(&[(1, half), (2, 1), (X, 1)], 0),
                row(&[(1, half + extra), (X, -1)], 0),
            ];
            book.add(Case::of(rows.clone(), &[9]));
            book.add(Case::of(rows, &[4, 4, 4, 9]));
        }
    }
    // Twice too large, but it divides.
    let rows = vec![
        row(&[(1, BIG), (2, 1), (X, 1)], 0),
        row(&[(1, BIG), (2, 1), (X, -1)], 0),
    ];
    book.add(Case::of(rows, &[9]));
    // 9 only in the second, and only in the third step.
    let steps = |between: u8| {
        let rows = vec![
            row(&[(10, 1), (X, 999_999), (1, -999_983)], 0),
            row(&[(10, -1), (X, 2)], 0),
            row(&[(2, 999_979), (X, -1_000_000)], 0),
        ];
        Case::of(rows, &[10, between, 9]).filler(-9)
    };
    book.add(steps(10));
    book.add(steps(3));
}

fn counts(book: &mut Book) {
    for (upper, lower) in [
        (8, 16),
        (11, 12),
        (12, 12),
        (64, 64),
        (1, 127),
        (127, 1),
        (2, 64),
    ] {
        book.add(Case::of(bounds(X, upper, lower), &[9]));
        book.add(Case::of(bounds(X, upper, lower), &[3, 9, 9]));
        book.add(Case::of(bounds(13, upper, lower), &[13]).lengths(2190, 2178));
        let mut one_more = bounds(X, upper, lower);
        one_more.truncate(127);
        one_more.push(row(&[(5, 1)], 0));
        book.add(Case::of(one_more, &[9]));
    }
    // 144 pairs that are two different rows.
    let mut same: Vec<Stored> = (1..=12).map(|i| row(&[(1, -i), (X, i)], i % 2)).collect();
    same.extend((1..=12).map(|j| row(&[(2, j), (X, -j)], 0)));
    book.add(Case::of(same, &[9]));
    // 144 pairs that are all dropped.
    let mut dropped: Vec<Stored> = (1..=12).map(|i| row(&[(0, -i), (X, 1)], 0)).collect();
    dropped.extend((0..12).map(|j| row(&[(0, -j), (X, -1)], 0)));
    book.add(Case::of(dropped, &[9]));
    // 10 in a later step, after the rows were spread by an earlier one.
    let mut later = bounds(X, 10, 10);
    later.extend((0..2).map(|i| row(&[(0, 50 * i), (1, 1), (3, 1)], 0)));
    book.add(Case::of(later.clone(), &[9, 1]));
    book.add(Case::of(later, &[9]));
    for rows in [
        vec![row(&[(1, 5)], 0); 128],
        bounds(X, 128, 0),
        bounds(X, 0, 128),
    ] {
        book.add(Case::of(rows.clone(), &[]));
        book.add(Case::of(rows.clone(), &[9]));
        book.add(Case::of(rows, &[1, 2, 9, 3]).lengths(2192, 2192).filler(-2));
    }
}

/// 9 and 10 in one removal: 9 wins, wherever the large pair stands.
fn both(book: &mut Book) {
    for large in [
        row(&[(0, -5000), (1, -999_999_937), (X, 999_999_893)], 0),
        row(&[(0, 5000), (1, -999_999_937), (X, 999_999_893)], 0),
        row(&[(0, -5000), (2, 999_999_937), (X, -999_999_893)], 0),
        row(&[(0, 5000), (2, 999_999_937), (X, -999_999_893)], 0),
    ] {
        let mut rows = bounds(X, 12, 12);
        rows.push(large);
        book.add(Case::of(rows.clone(), &[9]));
        rows.rotate_right(1);
        book.add(Case::of(rows.clone(), &[4, 9]).lengths(2192, 2176));
        // 10 in an earlier step ends before the 9 of a later one.
        let mut split = bounds(10, 12, 12);
        split.push(large);
        split.push(row(&[(2, 999_999_893), (X, -999_999_883)], 0));
        split.push(row(&[(1, 999_999_893), (X, 999_999_883)], 0));
        book.add(Case::of(split.clone(), &[10, 9]));
        book.add(Case::of(split, &[9, 10]));
    }
}

fn refusals(book: &mut Book) {
    for (first, second) in [
        (2175, 2176),
        (2176, 2175),
        (2175, 2175),
        (0, 0),
        (0, 2176),
        (2176, 0),
        (2192, 16),
        (17, 2192),
        (34, 40),
        (1, 2),
    ] {
        book.add(Case::of(m1(), &[9]).lengths(first, second));
        book.add(Case::of(vec![], &[]).lengths(first, second).filler(-1));
        // Short stores come before too many rows and before a wrong flag.
        let worst = vec![row(&[(1, 1)], 2); 3];
        book.add(Case::of(worst, &[0]).lengths(first, second).count(129));
    }
    for count in [129, 130, 200, 255] {
        book.add(Case::of(m1(), &[9]).count(count));
        book.add(Case::of(bounds(X, 65, 65), &[]).count(count).filler(-1));
        book.add(Case::of(vec![row(&[(1, 1)], 2)], &[16]).count(count));
    }
    for variable in [0, 16, 17, 128, 255] {
        book.add(Case::of(m1(), &[variable]));
        book.add(Case::of(m1(), &[9, 1, variable]).lengths(2192, 2192));
        book.add(Case::of(vec![], &[variable, 1]));
        book.add(Case::of(vec![row(&[(1, BIG + 1), (2, 1)], 0)], &[variable]));
    }
    flags(book);
}

fn flags(book: &mut Book) {
    for flag in [2, -1, i32::MAX, i32::MIN, 256] {
        let bad = row(&[(1, 1)], flag);
        let mut rows = m1();
        rows.push(bad);
        book.add(Case::of(rows.clone(), &[9]));
        book.add(Case::of(rows.clone(), &[]).lengths(2189, 2180));
        book.add(Case::of(rows.clone(), &[9]).count(2));
        rows.rotate_right(1);
        book.add(Case::of(rows, &[9]));
        book.add(Case::of(vec![row(&[(1, BIG + 1), (2, 1)], 0), bad], &[1]));
    }
    let mut full = bounds(X, 64, 64);
    full[127][16] = 2;
    book.add(Case::of(full.clone(), &[9]));
    book.add(Case::of(full.clone(), &[9]).count(127));
    full[127][16] = 0;
    full.push(row(&[], 2));
    book.add(Case::of(full.clone(), &[]).count(128));
    book.add(Case::of(full, &[]));
}

/// More rows given than written: the filler is read as rows.
fn fillers(book: &mut Book) {
    for filler in [0, 1, 2, -1] {
        book.add(Case::of(m1(), &[9]).count(5).filler(filler));
        book.add(Case::of(vec![], &[]).count(128).filler(filler));
        book.add(
            Case::of(m6(), &[1, 9])
                .count(128)
                .lengths(2192, 2192)
                .filler(filler),
        );
    }
}

fn tails(book: &mut Book) {
    for extra in 0..=16 {
        let case = Case::of(bounds(X, 3, 2), &[9]).filler(-11);
        book.add(case.clone().lengths(LEAST + extra, LEAST + 16 - extra));
        let mut case = case.lengths(LEAST + 16 - extra, LEAST + extra);
        case.variables = vec![9, 4];
        book.add(case);
    }
}

fn some_rows(rng: &mut Rng, count: usize, width: usize, top: i64) -> Vec<Stored> {
    (0..count)
        .map(|_| {
            let mut numbers = [0; NUMBERS];
            for number in &mut numbers[..width] {
                if rng.chance(55) {
                    *number = rng.between(-top, top) as i32;
                }
            }
            numbers[16] = i32::from(rng.chance(30));
            numbers
        })
        .collect()
}

fn some_variables(rng: &mut Rng, most: usize, top: usize) -> Vec<u8> {
    let count = rng.below(most + 1);
    (0..count).map(|_| 1 + rng.below(top) as u8).collect()
}

/// One case from the seed. The kinds are weighed so that every outcome comes often.
fn seeded(rng: &mut Rng) -> Case {
    let (rows, variables) = match rng.below(8) {
        0 => {
            let count = rng.below(9);
            (some_rows(rng, count, 16, 5), some_variables(rng, 4, 15))
        }
        1 => {
            let count = rng.below(15);
            (some_rows(rng, count, 5, 4), some_variables(rng, 5, 5))
        }
        2 => {
            let count = 20 + rng.below(109);
            (some_rows(rng, count, 6, 6), some_variables(rng, 2, 5))
        }
        3 => {
            let count = 10 + rng.below(119);
            (some_rows(rng, count, 3, 3), some_variables(rng, 4, 3))
        }
        4 => {
            let count = 1 + rng.below(6);
            (some_rows(rng, count, 4, 60_000), some_variables(rng, 3, 3))
        }
        5 => {
            let count = 1 + rng.below(4);
            (
                some_rows(rng, count, 16, 2_147_483_647),
                some_variables(rng, 3, 15),
            )
        }
        6 => {
            let count = 3 + rng.below(6);
            (some_rows(rng, count, 7, 30), some_variables(rng, 7, 6))
        }
        _ => multiples(rng),
    };
    let mut case = Case::of(rows, &variables).filler(rng.between(-128, 127) as i8);
    case.first += rng.below(17);
    case.second += rng.below(17);
    spoiled(rng, case)
}

/// Large rows that divide down to small ones.
fn multiples(rng: &mut Rng) -> (Vec<Stored>, Vec<u8>) {
    let count = 2 + rng.below(8);
    let mut rows = some_rows(rng, count, 8, 9);
    for row in &mut rows {
        let factor = rng.between(1, 200_000_000) as i32;
        for number in &mut row[..16] {
            *number *= factor;
        }
    }
    (rows, some_variables(rng, 4, 8))
}

/// Now and then one or two things are made wrong.
fn spoiled(rng: &mut Rng, mut case: Case) -> Case {
    while rng.chance(30) {
        match rng.below(7) {
            0 => case.first = rng.below(LEAST + 3),
            1 => case.second = rng.below(LEAST + 3),
            2 => case.count = 129 + rng.below(127),
            3 => case.variables.push(*rng.pick(&[0, 16, 31, 255])),
            4 if !case.rows.is_empty() => {
                let at = rng.below(case.rows.len());
                case.rows[at][16] = *rng.pick(&[2, -1, 3, i32::MIN]);
            }
            5 => case.count = rng.below(case.rows.len() + 1),
            _ => case.count = (case.count + rng.below(4)).min(255),
        }
    }
    case
}

fn main() -> std::io::Result<()> {
    let mut book = Book {
        cases: Vec::new(),
        expected: String::new(),
        index: 0,
        tally: [0; 14],
    };
    for part in [
        marked, empties, variables, orders, constants, sizes, pair_sizes, counts, both, refusals,
        fillers, tails,
    ] {
        part(&mut book);
    }
    let by_hand = book.index;
    let mut rng = Rng::new(20_240_601);
    for _ in 0..300 {
        let case = seeded(&mut rng);
        book.add(case);
    }
    book.cases.push(0);
    write_files(&book.cases, &book.expected)?;
    println!(
        "{} cases ({by_hand} by hand): {}",
        book.index,
        tally(&book.tally)
    );
    Ok(())
}
