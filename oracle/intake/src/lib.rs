//! The intake's queue against a plain model, and its times beside the model's.
pub mod bench;
pub mod compare;
pub mod model;
#[path = "../../src/rng.rs"]
pub mod rng;
