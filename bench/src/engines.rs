//! The programs that are measured, each with stores of its own.

use crate::plain::Answer;
use crate::stores::{answer_of, plain_region, Region, Stores, BUDGET};
use independent::store::{run_bytes, Lengths, Lent};

pub const LIBRARY: &str = "library";
pub const PLAIN: &str = "plain";
pub const INDEPENDENT: &str = "independent";
/// All names, in the order of columns.
pub const NAMES: [&str; 3] = [LIBRARY, PLAIN, INDEPENDENT];

pub enum Engine {
    /// Works on lent stores.
    Lending(&'static str, Region, Stores),
    Independent(Lent),
}

impl Engine {
    /// Nothing for a name that is unknown or not built in.
    pub fn named(name: &str) -> Option<Engine> {
        if name == INDEPENDENT {
            return Some(Engine::Independent(Lent::filled(&Lengths::usual(), 0)));
        }
        lending()
            .into_iter()
            .find(|(known, _)| *known == name)
            .map(|(known, region)| Engine::Lending(known, region, Stores::usual()))
    }

    /// Every engine that is built in, in the order of columns.
    pub fn all() -> Vec<Engine> {
        NAMES
            .iter()
            .filter_map(|name| Engine::named(name))
            .collect()
    }

    pub fn name(&self) -> &'static str {
        match self {
            Engine::Lending(name, ..) => name,
            Engine::Independent(_) => INDEPENDENT,
        }
    }

    /// One whole call from the hex exchange.
    pub fn call(&mut self, input: &[u8]) -> Answer {
        match self {
            Engine::Lending(_, region, stores) => region(input, stores, BUDGET),
            Engine::Independent(lent) => answer_of(&run_bytes(input, lent, BUDGET)),
        }
    }

    /// What the last calls left in the result store.
    pub fn result(&self) -> &[i32] {
        match self {
            Engine::Lending(_, _, stores) => &stores.result,
            Engine::Independent(lent) => &lent.result,
        }
    }
}

/// The engines on lent stores that are built in.
pub fn lending() -> Vec<(&'static str, Region)> {
    vec![
        #[cfg(feature = "library")]
        (LIBRARY, crate::library::library_region),
        (PLAIN, plain_region),
    ]
}
