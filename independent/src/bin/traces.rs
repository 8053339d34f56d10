//! `traces MODEL.hex DEPTH [FRACTION ..]`: all traces of one setting with at most DEPTH
//! actions, one a line. Without fractions the setting is the reference.

use independent::input::{leave, model};
use independent::settings::{parsed, reference, trace_words};
use independent::tree::Tree;

fn main() {
    let words: Vec<String> = std::env::args().skip(1).collect();
    let [path, depth, fractions @ ..] = words.as_slice() else {
        leave("traces MODEL.hex DEPTH [FRACTION ..]");
    };
    let model = model(path);
    let depth = depth.parse().unwrap_or_else(|_| leave("no depth"));
    let setting = match fractions {
        [] => reference(&model),
        _ => parsed(fractions).unwrap_or_else(|message| leave(&message)),
    };
    if setting.numerators.len() != usize::from(model.header.parameters) {
        leave("one fraction for each parameter");
    }
    match Tree::new(&model, &setting).list(depth) {
        None => leave("the numbers grew too large"),
        Some(found) => {
            for trace in found {
                println!("{}", trace_words(&trace));
            }
        }
    }
}
