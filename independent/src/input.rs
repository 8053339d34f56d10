//! What the small programs share: reading a model, and leaving with a message.

use crate::frames::read_checked;
use crate::method::Limits;
use crate::model::Tables;

/// What the program lends.
pub const LENT: Limits = Limits {
    rows: 900,
    records: 256,
    budget: 100_000,
};

pub fn leave(message: &str) -> ! {
    eprintln!("{message}");
    std::process::exit(2)
}

/// A model from a file of frames, or the end of the program.
pub fn model(path: &str) -> Tables {
    let bytes = std::fs::read(path).unwrap_or_else(|e| leave(&format!("{path}: {e}")));
    read_checked(&bytes).unwrap_or_else(|outcome| leave(&format!("{path}: refused with {outcome}")))
}
