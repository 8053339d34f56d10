//! The rules in plain Rust, and what is needed to measure the library beside them.

#![forbid(unsafe_code)]

pub mod compare;
pub mod engines;
pub mod families;
pub mod growth;
#[cfg(feature = "library")]
pub mod library;
pub mod measure;
pub mod plain;
pub mod plot;
pub mod stores;
pub mod table;

/// Why a measurement ends early, in words.
pub type Failure = Box<dyn std::error::Error>;
