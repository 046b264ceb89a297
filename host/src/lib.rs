//! An independent change controller and what holds the proved one beside it.
//!
//! `controller` and `jobs` are written from the scope paper alone, in ordinary typed Rust; they share no line and no idea
//! with the proved controller. `image` turns their state into the byte image that the proved controller keeps, and back.
//! `northbound` offers the C interface's calls over them, so that the two can be compared call by call and byte by byte.
//! `lean` does the same work as fast as ordinary Rust does it, for the benchmark.

pub mod arguments;
pub mod controller;
pub mod fault;
pub mod guarded;
pub mod image;
pub mod import;
pub mod jobs;
pub mod lean;
pub mod lines;
pub mod lists;
pub mod made_up;
pub mod night;
pub mod northbound;
pub mod owner;
#[cfg(feature = "archive")]
pub mod peer;
pub mod random;
pub mod reads;
pub mod record;
pub mod requests;
pub mod retry;
pub mod sheet;
pub mod switch;
pub mod why;
