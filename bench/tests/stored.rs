//! The plain program on the cases that are stored for the library's programs.

use bench::plain::alone::{remove, Part};
use bench::stores::{plain_region, Stores};
use independent::text::runs;
use std::fs;

/// What is left of a file of cases; its numbers are big-endian.
struct Bytes(Vec<u8>, usize);

impl Bytes {
    fn take(&mut self, length: usize) -> Vec<u8> {
        self.1 += length;
        self.0[self.1 - length..self.1].to_vec()
    }

    fn number(&mut self, width: usize) -> usize {
        let bytes = self.take(width);
        bytes.iter().fold(0, |n, &b| n << 8 | usize::from(b))
    }
}

fn files(name: &str) -> (Bytes, String) {
    let folder = format!("../crates/{name}");
    let cases = fs::read(format!("{folder}/stdin")).expect("stored cases");
    let text = fs::read_to_string(format!("{folder}/stdout")).expect("stored text");
    (Bytes(cases, 0), text)
}

#[test]
fn readings() {
    let (mut cases, text) = files("readings");
    let mut wanted = text.lines().filter(|line| line.starts_with("case "));
    let mut stores = Stores::usual();
    loop {
        let length = cases.number(4);
        if length == 0xFFFF_FFFF {
            break;
        }
        let got = plain_region(&cases.take(length), &mut stores, 50).outcome;
        let words = wanted.next().expect("a line for each case");
        let outcome = words.rsplit(' ').next();
        // Accepted models go on to an outcome of the method.
        let shown = if (1..=8).contains(&got) { got } else { 0 };
        assert_eq!(outcome, Some(shown.to_string().as_str()), "{words}");
    }
    assert_eq!(wanted.next(), None);
}

#[test]
fn removals() {
    let (mut cases, text) = files("removals");
    let mut got = String::new();
    let mut index = 0;
    while cases.number(1) == 0x43 {
        got += &removal(&mut cases, index);
        index += 1;
    }
    assert!(got == text, "the texts differ");
}

fn removal(cases: &mut Bytes, index: usize) -> String {
    let lengths = [cases.number(2), cases.number(2)];
    let [given, variables, rows] = [1, 1, 1].map(|width| cases.number(width));
    let filler = i32::from(cases.number(1) as u8 as i8);
    let [mut first, mut second] = lengths.map(|length| vec![filler; length]);
    let variables = cases.take(variables);
    let numbers: Vec<i32> = (0..17 * rows)
        .map(|_| cases.number(4) as u32 as i32)
        .collect();
    for (place, number) in first.iter_mut().zip(numbers) {
        *place = number;
    }
    let part = remove(&mut first, &mut second, given, &variables);
    let Part {
        outcome,
        in_second,
        rows,
    } = part;
    let head = format!(
        "case {index} outcome {outcome} second {} rows {rows}\n",
        u8::from(in_second)
    );
    head + &runs("first", &first) + &runs("second", &second)
}
