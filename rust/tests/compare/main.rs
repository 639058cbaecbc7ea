//! The library held to the model on many drawn inputs, valid and damaged, short and long.
//!
//! Each comparison names its call and the seed of its input when it fails. Each says which refusal
//! numbers must have come up, and both sides must have given them. `cargo test --release -- --nocapture`
//! shows how many inputs each call was given and how they were answered.

// Cases stand as rows of a table.
#![allow(clippy::type_complexity)]

#[path = "../../model/mod.rs"]
mod model;
#[path = "../../plain/mod.rs"]
mod plain;

mod draw;
mod tally;

mod drawn_images;
mod drawn_modes;
mod drawn_nights;
mod drawn_pages;
mod drawn_shapes;
mod drawn_spaces;
mod drawn_tables;

mod images;
mod limits;
mod lives;
mod modes;
mod nights;
mod order;
mod pages;
mod paper;
mod plainly;
mod reads;
mod rooms;
mod scratch;
mod shape_calls;
mod skipping;
mod tables;
