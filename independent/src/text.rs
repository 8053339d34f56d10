//! The text of expected outputs.

use crate::method::Answer;
use crate::store::Lent;

/// A word and the runs of equal numbers after it.
pub fn runs(word: &str, numbers: &[i32]) -> String {
    let mut text = String::from(word);
    let mut rest = numbers;
    while let Some(&value) = rest.first() {
        let length = rest.iter().take_while(|&&n| n == value).count();
        text += &format!(" {length}*{value}");
        rest = &rest[length..];
    }
    text.push('\n');
    text
}

/// The lines of one case of the method.
pub fn method_case(index: usize, answer: &Answer, lent: &Lent) -> String {
    method_here(index, answer, lent) + &runs("roll", &lent.roll.concat())
}

/// The same where the roll is the method's own and nobody sees it.
pub fn method_here(index: usize, answer: &Answer, lent: &Lent) -> String {
    let mut text = format!(
        "case {index} outcome {} states {} attempts {} formed {} rows {}\n",
        answer.outcome,
        answer.states,
        answer.attempts,
        answer.formed,
        answer.region.len()
    );
    text += &runs("first", &lent.first);
    text += &runs("second", &lent.second);
    text += &runs("rows", &lent.rows);
    text += &runs("result", &lent.result);
    text
}

/// How often each outcome occurred, in one line.
pub fn tally(counts: &[usize; 14]) -> String {
    counts
        .iter()
        .enumerate()
        .filter(|(_, &n)| n > 0)
        .map(|(outcome, n)| format!("{outcome}:{n}"))
        .collect::<Vec<_>>()
        .join(" ")
}
