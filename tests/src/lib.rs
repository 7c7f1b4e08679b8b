//! What the tests and the benchmark of Bindlewort share. `bindlewort` is the library as a Rust program calls it;
//! `model` says what it must answer, `histories` what it is asked about, and `compare` holds the one to the other.

mod bindlewort;
pub mod compare;
pub mod histories;
pub mod model;
pub mod random;

pub use bindlewort::*;
