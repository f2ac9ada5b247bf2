//! Gunthyd's proved calls, safe to call from Rust.
//!
//! Every call behind this crate is proved to be safe, to end and to meet its contract on memory and numbers of any kind; what is not proved
//! is this crate itself: the few lines that hand a slice over as a pointer and a length, and read the answer.

pub mod intake;

pub use intake::Intake;
