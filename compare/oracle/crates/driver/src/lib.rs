//! The line protocol around the Rust, and plain rolls; ../../README.md has the requests.
pub mod answer;
pub mod prng;
pub mod roll;
