//! The Rust of the pool behind forms: what the oracle and the programs beside
//! it share.

pub mod driver;
pub mod forms;
pub mod rng;
