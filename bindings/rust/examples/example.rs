//! The region of a model, and a removal: `example MODEL.hex`.

use std::{env, fs, process};
use zimbralosa::{region, remove, Record, Stores, LEAST, ROW};

const NAMES: [&str; 16] = [
    "", "p1", "p2", "p3", "p4", "p5", "p6", "p7", "p8", "x1", "x2", "x3", "x4", "x5", "x6", "d",
];

fn main() {
    let Some(path) = env::args().nth(1) else {
        eprintln!("example MODEL.hex");
        process::exit(2);
    };
    // A file that cannot be read is an empty model, which is refused with 2.
    let input = fs::read(path).unwrap_or_default();
    let (mut first, mut second, mut result) = (vec![0; LEAST], vec![0; LEAST], vec![0; LEAST]);
    let (mut rows, mut roll) = (vec![0; 900 * ROW], vec![Record::default(); 256]);
    let stores = Stores {
        first: &mut first,
        second: &mut second,
        rows: &mut rows,
        result: &mut result,
        roll: &mut roll,
    };
    let (outcome, [states, attempts, successors, found]) = region(&input, stores, 100_000);
    println!("outcome {outcome}");
    println!("states {states}, new attempts {attempts}, successors {successors}, rows {found}");
    print_rows(&result, found);
    // Both work stores are zero again, or were never touched.
    removal(&mut first, &mut second);
}

/// x1 - p1 <= 0 and p2 - x1 < 0, without x1: p2 - p1 < 0.
fn removal(first: &mut [i32], second: &mut [i32]) {
    (first[1], first[9]) = (-1, 1);
    (first[ROW + 2], first[ROW + 9], first[ROW + 16]) = (1, -1, 1);
    let (outcome, [in_second, rows]) = remove(first, second, 2, &[9]);
    println!("removal: outcome {outcome}, in the second store {in_second}, rows {rows}");
    print_rows(if in_second == 1 { second } else { first }, rows);
}

fn print_rows(store: &[i32], count: u64) {
    for row in store.chunks_exact(ROW).take(count as usize) {
        let terms = (1..16).filter(|&entry| row[entry] != 0);
        let mut text: String = terms
            .map(|entry| format!(" {:+} {}", row[entry], NAMES[entry]))
            .collect();
        if row[0] != 0 {
            text += &format!(" {:+}", row[0]);
        }
        println!(" {text} {} 0", if row[16] == 1 { "<" } else { "<=" });
    }
}
