//! `answer < MODEL.hex`: the answer to a model, as the program prints it.

use independent::frames::answer_lines;
use independent::input::{leave, LENT};
use independent::store::{run_bytes, Lengths, Lent};
use std::io::Read;

fn main() {
    let mut bytes = Vec::new();
    if let Err(error) = std::io::stdin().read_to_end(&mut bytes) {
        leave(&format!("standard input: {error}"));
    }
    let mut lent = Lent::filled(&Lengths::usual(), 0);
    print!(
        "{}",
        answer_lines(&run_bytes(&bytes, &mut lent, LENT.budget))
    );
}
