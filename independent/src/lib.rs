//! A second program for document 01, written from its words alone.
//!
//! Numbers are wide and checked, sets are sorted vectors and nothing is lent inside;
//! the lent stores appear only in `store`, which says what each must hold at the end.

pub mod bytes;
pub mod calls;
pub mod compare;
pub mod explore;
pub mod frames;
pub mod gen;
pub mod input;
pub mod method;
pub mod model;
pub mod removal;
pub mod row;
pub mod sample;
pub mod set;
pub mod settings;
pub mod store;
pub mod text;
pub mod tree;
pub mod trial;
pub mod zone;
