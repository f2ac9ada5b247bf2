//! The Rust files of the pool as build.rs left them. Their log lines go
//! nowhere here, so what only these read is unused.
#![allow(unused_variables)]

include!(concat!(env!("OUT_DIR"), "/mempool/lib.rs"));

/// The files that this was built from: name, sum listed, sum found.
pub mod sources {
    include!(concat!(env!("OUT_DIR"), "/sources.rs"));
}
