//! Writes cases for reading and checking models, and the output they must give.

use independent::bytes::{u32_of, write_files};
use independent::frames::{line, read_checked, reference_frame, row_frame, written};
use independent::gen::{damaged, model, Rng, STYLES};
use independent::model::Tables;
use independent::text::tally;

const M9: &str = "0102030302\n0200000001000000040000000200000006\n04000A0101\n04000B0200\n\
030100000201FFFFFFFF0900000001\n030200000202000000010AFFFFFFFF\n\
0302010002030000000109FFFFFFFF\n";
const M10: &str = "0101020201\n02000000010000000000000000\n0400000100\n\
0302000003000000000101FFFFFFFF0200000001\n03020000030000000001010000000102FFFFFFFF\n";
/// One of everything and nothing to do.
const H: &str = "0101010100\n";
const R: &str = "020000000100000000\n";
const LONGEST: usize = 65_536;

/// Cases and expected text so far.
#[derive(Default)]
struct Book {
    cases: Vec<u8>,
    expected: String,
    index: usize,
    tally: [usize; 14],
}

impl Book {
    fn add(&mut self, input: impl AsRef<[u8]>) {
        let input = input.as_ref();
        self.cases.extend(u32_of(input.len()));
        self.cases.extend(input);
        let read = read_checked(input);
        let outcome = read.as_ref().err().copied().unwrap_or(0);
        self.expected += &format!("case {} outcome {outcome}\n", self.index);
        if let Ok(tables) = read {
            self.expected += &tables_line(&tables);
        }
        self.index += 1;
        self.tally[usize::from(outcome)] += 1;
    }
}

fn tables_line(tables: &Tables) -> String {
    let h = &tables.header;
    format!(
        "tables {} {} {} {} {} sum {}\n",
        h.clocks,
        h.parameters,
        h.locations,
        h.transitions,
        tables.row_count,
        sum(tables)
    )
}

/// Every table number once, weighed by its place.
fn sum(tables: &Tables) -> u32 {
    let mut numbers = vec![tables.denominator];
    numbers.extend(&tables.numerators);
    for t in &tables.transitions {
        numbers.extend([t.source, t.action, t.target, t.resets].map(i64::from));
    }
    for row in &tables.rows {
        numbers.extend([row.kind, row.owner, row.strict].map(i64::from));
        numbers.extend(row.entries);
    }
    numbers
        .iter()
        .fold(1, |h: u32, &n| h.wrapping_mul(31).wrapping_add(n as u32))
}

/// A model with this header, a reference of zeros and idle transitions, no rows.
fn plain(clocks: u8, parameters: u8, locations: u8, transitions: u8) -> String {
    let zeros = vec![0; usize::from(parameters)];
    let moves = line(&[4, 0, 0, 0, 0]).repeat(usize::from(transitions));
    line(&[1, clocks, parameters, locations, transitions])
        + &line(&reference_frame(1, &zeros))
        + &moves
}

fn with_row(base: &str, kind: u8, owner: u8, strict: u8, terms: &[(u8, i32)]) -> String {
    base.to_string() + &line(&row_frame(kind, owner, strict, terms))
}

/// A row frame whose count is said apart from its terms.
fn counted(kind: u8, count: u8, terms: &[(u8, i32)]) -> String {
    let mut frame = row_frame(kind, 0, 0, terms);
    frame[4] = count;
    line(&frame)
}

fn headers(book: &mut Book) {
    let good = [1, 1, 1, 0];
    for (place, values) in [
        (0, [0, 1, 2, 5, 6, 7, 255]),
        (1, [0, 1, 2, 7, 8, 9, 255]),
        (2, [0, 1, 2, 31, 32, 33, 255]),
        (3, [0, 1, 2, 63, 64, 65, 255]),
    ] {
        for value in values {
            let mut h: [u8; 4] = good;
            h[place] = value;
            book.add(plain(h[0], h[1], h[2], h[3]));
        }
    }
    book.add(plain(6, 8, 32, 64));
    book.add(plain(0, 0, 0, 65));
    // 3 comes before what follows, and 1 before 3.
    book.add("0100000000\nzz");
    book.add("01000000\n");
    book.add("010000000000\n");
}

fn references(book: &mut Book) {
    let million = 1_000_000;
    let values = [
        0,
        1,
        2,
        million - 1,
        million,
        million + 1,
        -1,
        i32::MIN,
        i32::MAX,
    ];
    for value in values {
        book.add(format!("{H}{}", line(&reference_frame(value, &[0]))));
        book.add(format!("{H}{}", line(&reference_frame(1, &[value]))));
        for place in 0..3 {
            let mut numerators = [1, 2, 3];
            numerators[place] = value;
            let frame = line(&reference_frame(million, &numerators));
            book.add(format!("0101030100\n{frame}"));
        }
    }
    let eight = [million; 8];
    book.add(format!("0101080100\n{}", line(&reference_frame(7, &eight))));
}

fn transitions(book: &mut Book) {
    for locations in [1, 2, 32] {
        for place in [1, 3] {
            for value in [0, locations - 1, locations, 255] {
                let mut frame = [4, 0, 0xFF, 0, 0];
                frame[place] = value;
                let head = line(&[1, 1, 1, locations, 1]);
                book.add(format!("{head}{R}{}", line(&frame)));
            }
        }
    }
    for clocks in 1..=6u8 {
        for bit in 0..8 {
            let head = line(&[1, clocks, 1, 1, 1]);
            book.add(format!("{head}{R}{}", line(&[4, 0, bit, 0, 1 << bit])));
        }
        for all in [(1u8 << clocks) - 1, 255] {
            let head = line(&[1, clocks, 1, 1, 1]);
            book.add(format!("{head}{R}{}", line(&[4, 0, 255, 0, all])));
        }
    }
}

fn owners(book: &mut Book) {
    let base = plain(1, 1, 3, 2);
    for kind in [0, 1, 2, 3, 4, 255] {
        for owner in [0, 1, 2, 3, 255] {
            book.add(with_row(&base, kind, owner, 0, &[(1, -1)]));
        }
    }
    let most = plain(1, 1, 32, 64);
    for (kind, owner) in [(1, 31), (1, 32), (2, 63), (2, 64)] {
        book.add(with_row(&most, kind, owner, 1, &[(1, 1)]));
    }
    let none = format!("{H}{R}");
    book.add(with_row(&none, 2, 0, 0, &[(1, -1)]));
    for strict in [0, 1, 2, 128, 255] {
        book.add(with_row(&base, 2, 0, strict, &[(1, -1)]));
        // 5 before 6: a wrong flag and a coefficient of 0.
        book.add(with_row(&base, 2, 0, strict, &[(1, 0)]));
        book.add(with_row(&base, 2, 5, strict, &[(1, 1_000_001)]));
    }
}

fn entries(book: &mut Book) {
    for (clocks, parameters) in [(1, 1), (3, 4), (6, 8)] {
        let base = plain(clocks, parameters, 1, 1);
        for kind in [0, 1, 2] {
            for entry in 0..=16 {
                book.add(with_row(&base, kind, 0, 0, &[(entry, -1)]));
            }
            book.add(with_row(&base, kind, 0, 0, &[(17, -1)]));
            book.add(with_row(&base, kind, 0, 0, &[(128, -1)]));
            book.add(with_row(&base, kind, 0, 0, &[(255, -1)]));
        }
        // 5 before 6, also with the wrong entry last.
        book.add(with_row(&base, 2, 0, 0, &[(1, 0), (15, 1)]));
        book.add(with_row(&base, 2, 0, 0, &[(9, 1), (1, 1), (16, 0)]));
        book.add(with_row(&base, 0, 0, 0, &[(9, 0)]));
    }
}

fn terms(book: &mut Book) {
    let base = plain(6, 8, 1, 1);
    let all: Vec<(u8, i32)> = (0..15).map(|entry| (entry, -1)).collect();
    for count in 0..=15 {
        book.add(with_row(&base, 2, 0, 0, &all[..count]));
    }
    let none = plain(1, 1, 1, 1);
    for count in [16, 17, 255] {
        book.add(format!(
            "{base}{}",
            counted(2, count, &vec![(0, 1); usize::from(count)])
        ));
        book.add(format!(
            "{none}{}",
            counted(0, count, &vec![(0, -1); usize::from(count)])
        ));
        let mut undeclared = vec![(0, 1); usize::from(count) - 1];
        undeclared.push((15, 1));
        book.add(format!("{base}{}", counted(2, count, &undeclared)));
        // Rising, but beyond what is declared.
        let rising: Vec<(u8, i32)> = (0..count).map(|entry| (entry, 1)).collect();
        book.add(format!("{base}{}", counted(2, count, &rising)));
        // The count says more or fewer terms than there are.
        book.add(format!("{base}{}", counted(2, count, &all)));
    }
    for (said, there) in [(0, 1), (1, 0), (1, 2), (2, 1), (15, 14), (14, 15)] {
        book.add(format!("{base}{}", counted(2, said, &all[..there])));
    }
    coefficients(book, &base);
    rising(book, &base);
}

fn coefficients(book: &mut Book, base: &str) {
    for value in [0, 1, -1, 999_999, 1_000_000, 1_000_001, i32::MAX] {
        for sign in [1, -1] {
            book.add(with_row(base, 2, 0, 0, &[(9, sign * value)]));
            book.add(with_row(
                base,
                2,
                0,
                1,
                &[(0, 1), (1, 1), (14, sign * value)],
            ));
        }
    }
    book.add(with_row(base, 2, 0, 0, &[(9, i32::MIN)]));
}

fn rising(book: &mut Book, base: &str) {
    for list in [
        vec![0, 1, 2],
        vec![1, 0],
        vec![1, 1],
        vec![0, 0],
        vec![0, 2, 1],
        vec![0, 1, 1],
        vec![14, 9],
        vec![1, 2, 3, 3],
    ] {
        let terms: Vec<(u8, i32)> = list.iter().map(|&entry| (entry, -2)).collect();
        book.add(with_row(base, 2, 0, 0, &terms));
    }
}

fn lines_of(text: &str) -> Vec<String> {
    text.split_inclusive('\n').map(String::from).collect()
}

/// Every line of a model too early, too late, twice, missing, and at other lengths.
fn places(book: &mut Book, text: &str) {
    let lines = lines_of(text);
    for from in 0..lines.len() {
        for to in 0..=lines.len() {
            let mut doubled = lines.clone();
            doubled.insert(to, lines[from].clone());
            book.add(doubled.concat());
        }
        for to in 0..lines.len() {
            let mut moved = lines.clone();
            let one = moved.remove(from);
            moved.insert(to, one);
            book.add(moved.concat());
        }
        let mut missing = lines.clone();
        missing.remove(from);
        book.add(missing.concat());
        book.add(lines[..from].concat());
        lengths(book, &lines, from);
    }
}

fn lengths(book: &mut Book, lines: &[String], at: usize) {
    let digits = lines[at].trim_end().to_string();
    let long = digits.len();
    for changed in [
        format!("{digits}00\n"),
        format!("{digits}0\n"),
        format!("{}\n", &digits[..long - 2]),
        format!("{}\n", &digits[..long - 1]),
        format!("{}\n", &digits[..2]),
        format!("{}\n", &digits[..1]),
        digits.clone(),
        format!("{digits}\n\n"),
        format!("\n{digits}\n"),
        format!("{digits}\r\n"),
        format!("{} {}\n", &digits[..2], &digits[2..]),
        format!("{}\n{}\n", &digits[..4], &digits[4..]),
    ] {
        let mut all = lines.to_vec();
        all[at] = changed;
        book.add(all.concat());
    }
}

fn characters(book: &mut Book) {
    let text = M9.as_bytes();
    let foreign = b"abcdefGgzZ \t\r\0\x0B/:@`-+x\x7F\x80\xC3\xFF";
    for (turn, &character) in foreign.iter().enumerate() {
        // Somewhere new each time, line ends included.
        for at in [(turn * 13) % text.len(), 0, text.len() - 1, 10] {
            let mut changed = text.to_vec();
            changed[at] = character;
            book.add(changed);
        }
        book.add([text, &[character]].concat());
        book.add([&[character], text].concat());
        book.add([character]);
        book.add([character, b'\n']);
    }
    book.add(M9.to_lowercase());
    book.add(M9.replace('\n', "\r\n"));
    book.add(M9.replace('\n', ""));
    book.add(format!("\u{FEFF}{M9}"));
}

fn kinds(book: &mut Book) {
    for kind in [0, 5, 6, 16, 0x30, 0x80, 255u8] {
        let bare = line(&[kind]);
        book.add(&bare);
        book.add(format!("{H}{bare}"));
        book.add(format!("{H}{R}{bare}"));
        book.add(format!("{M9}{}", line(&[kind, 0, 0, 0, 0])));
    }
    book.add(format!("{M9}0500000200010000000405\n"));
    for kind in 1..=4 {
        for length in 1..=12 {
            let mut frame = vec![0; length];
            frame[0] = kind;
            book.add(line(&frame));
            book.add(format!("{H}{}", line(&frame)));
            book.add(format!("{H}{R}{}", line(&frame)));
        }
    }
    // A row frame whose fourth byte decides its length.
    for count in [0, 1, 2, 255] {
        for bytes in [4, 5, 9, 10, 11, 14, 15, 16] {
            let mut frame = vec![0; bytes];
            frame[0] = 3;
            if bytes > 4 {
                frame[4] = count;
            }
            book.add(format!("{H}{R}{}", line(&frame)));
            book.add(format!("{H}{}", line(&frame)));
        }
    }
}

fn readings(book: &mut Book) {
    for text in [
        "",
        "\n",
        "\n\n",
        "02",
        "020\n",
        "0200\n",
        "03\n",
        "04\n",
        "05\n",
        "01\n",
        "01",
        "0",
        "0\n",
        "0101010100",
        "0101010100\n",
        "0101010100\n\n",
        "0101010100\n04\n",
        "0101010100\n03\n",
        "0101010100\n0101010100\n",
        "0101010100\n0109090909\n",
        "0101010100\n0100000000\n",
        "0101010100\n01010101\n",
        "0101010100\n0400000000\n",
        "0101010100\n0300000000\n",
        "0101010100\n02\n",
        "0101010100\n0200000001\n",
        "0101010100\n02000000010000000000000000\n",
        "02ZZ\n",
        "02ab\n",
        "0A\n",
        "FF\n",
    ] {
        book.add(text);
    }
    book.add(format!("{H}{R}"));
    book.add(format!("{H}{R}{R}"));
    book.add(format!("{H}{R}\n"));
    book.add(format!("{H}\n{R}"));
    book.add(format!("\n{H}{R}"));
    book.add(format!("{H}{R}{H}"));
    book.add(format!("{H}{R}0400000000\n"));
    book.add(format!("{H}{R}040000000000\n"));
    // 4 stands in a line before the end is missed.
    book.add("0101010101\n020000000000000000\n");
    book.add("0101010101\n020000000100000000\n");
}

/// 7 over all initial rows comes before 8.
fn broken(book: &mut Book) {
    let base = format!("0102020200\n{}", line(&reference_frame(2, &[3, 4])));
    let good = (0, [(0, -3), (1, 2)]);
    for (kind, first) in [(0, [(0, -4), (1, 2)]), (0, [(0, -3), (1, 3)]), good] {
        for strict in [0, 1] {
            book.add(with_row(&base, kind, 0, strict, &first));
            book.add(with_row(&base, 1, 0, strict, &first));
            book.add(with_row(&base, 1, 1, strict, &first));
            let both = with_row(&base, 1, 0, 1, &[(0, 1)]);
            book.add(with_row(&both, 0, 0, strict, &first));
        }
    }
    for (entry, value) in [(0, 1), (0, -1), (1, 1), (1, -1), (2, 1), (9, 1), (10, -1)] {
        for strict in [0, 1] {
            for kind in [0, 1] {
                book.add(with_row(&base, kind, 0, strict, &[(entry, value)]));
            }
        }
    }
    // Clocks count as 0 whatever their coefficient.
    book.add(with_row(&base, 1, 0, 0, &[(9, 1_000_000), (10, -1)]));
    book.add(with_row(&base, 1, 0, 1, &[(9, 1_000_000), (10, -1)]));
    let million = format!("0101080100\n{}", line(&reference_frame(1, &[1_000_000; 8])));
    let top: Vec<(u8, i32)> = (0..=8).map(|entry| (entry, 1_000_000)).collect();
    let low: Vec<(u8, i32)> = (0..=8).map(|entry| (entry, -1_000_000)).collect();
    book.add(with_row(&million, 0, 0, 1, &top));
    book.add(with_row(&million, 0, 0, 1, &low));
}

fn many_rows(book: &mut Book) {
    let base = format!("{H}{R}");
    let row = line(&row_frame(0, 0, 0, &[(1, -1)]));
    for count in [1, 2, 127, 128, 129, 130] {
        book.add(format!("{base}{}", row.repeat(count)));
    }
    let full = format!("{base}{}", row.repeat(128));
    // Whatever a 129th row frame of right length holds, it is one too many.
    for text in [
        line(&row_frame(9, 9, 9, &[(99, 0)])),
        line(&row_frame(0, 0, 0, &[])),
        counted(0, 2, &[(1, -1)]),
        "03\n".to_string(),
        "0G\n".to_string(),
        "05\n".to_string(),
        "\n".to_string(),
        "03".to_string(),
    ] {
        book.add(format!("{full}{text}"));
    }
    let spoiled = format!(
        "{base}{}{}",
        row.repeat(127),
        line(&row_frame(0, 0, 2, &[(1, -1)]))
    );
    book.add(&spoiled);
    book.add(format!("{spoiled}{row}"));
    let all: Vec<(u8, i32)> = (0..15).map(|entry| (entry, -1)).collect();
    let most = line(&row_frame(1, 31, 1, &all)).repeat(128);
    book.add(plain(6, 8, 32, 64) + &most);
}

/// Padding that only the length of the whole input can tell apart.
fn input_lengths(book: &mut Book) {
    let row = line(&row_frame(0, 0, 0, &[(1, -1)]));
    for total in [LONGEST - 1, LONGEST, LONGEST + 1, LONGEST + 2] {
        let padded = |head: &str, tail: char| {
            let pad = total - head.len();
            format!("{head}{}", tail.to_string().repeat(pad))
        };
        book.add(padded("", '0'));
        book.add(padded("0100000000\n", 'x'));
        book.add(padded(&format!("{H}020000000000000000\n"), '\n'));
        book.add(padded(M9, '0'));
        book.add(padded(&format!("{H}{R}{}", row.repeat(129)), 'A'));
        book.add(padded("04\n", '\n'));
        let mut ended = padded("01", '0').into_bytes();
        ended[total - 1] = b'\n';
        book.add(ended);
        let spoiled = with_row(&format!("{H}{R}"), 0, 0, 2, &[(1, -1)]);
        book.add(padded(&spoiled, '\n'));
    }
}

fn marked(book: &mut Book) {
    book.add(M9);
    book.add(M10);
    book.add(M9.replace(
        "0200000001000000040000000200000006",
        "020000000200000008000000040000000C",
    ));
}

/// Models from the seed, each whole and twice damaged.
fn seeded(book: &mut Book) {
    let mut rng = Rng::new(77);
    for turn in 0..200 {
        let style = STYLES[turn % 4];
        let text = written(&model(&mut rng, style));
        book.add(&text);
        for _ in 0..2 {
            let bytes = damaged(&mut rng, &text);
            book.add(bytes);
        }
    }
}

fn main() -> std::io::Result<()> {
    let mut book = Book::default();
    for part in [
        marked,
        readings,
        headers,
        references,
        transitions,
        owners,
        entries,
        terms,
        kinds,
        characters,
        broken,
        many_rows,
        input_lengths,
    ] {
        part(&mut book);
    }
    places(&mut book, M9);
    places(&mut book, M10);
    let by_hand = book.index;
    seeded(&mut book);
    book.cases.extend([0xFF; 4]);
    write_files(&book.cases, &book.expected)?;
    println!(
        "{} cases ({by_hand} by hand): {}",
        book.index,
        tally(&book.tally)
    );
    Ok(())
}
