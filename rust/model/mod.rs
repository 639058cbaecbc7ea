//! The paper in plain Rust, in the simplest form that can be right: the library is compared with it.
//!
//! It is written from the paper alone and shares nothing with the proved code nor with the crate. It
//! stands beside `src` and is taken in by path where it is compared: a user of the crate neither sees
//! nor compiles it. It is slow on purpose: a sector is found by counting, an order is a list.
//!
//! Each call answers the paper's numbers or `Err` of the paper's refusal, and writes to a room only
//! where it accepts. It needs no scratch, and does to it what the paper says.

// Ranges and remainders stand as the paper has them.
#![allow(clippy::manual_range_contains, clippy::manual_is_multiple_of)]

pub mod format;
pub mod image;
pub mod mode;
pub mod numbers;
pub mod page;
pub mod shape;
pub mod skipping;
pub mod spares;
