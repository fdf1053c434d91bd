//! Document 01, "A marker and planner for scan network plans", in plain Rust, with Changes 1 to 5 of
//! document 02, "Subsequent customer requests".
//!
//! The four programs are `programs::{read, plan, mark, clock}`. The library calls under them are
//! `reader::read_network`, `planner::make_plan`, `marker::mark` and `clocks::write_clocks`.
//! `programs::recover` is the program of Change 2, with `recover` under it, and `programs::carry` that of
//! Change 3, with `carry::carry` under it. `reader::read_network_up_to` is the reader with another
//! greatest LEN, as the one before Change 4. `path_sums` has the sums of Change 5.
//! `frame` and `play` are the test frame, `brute` tries every bit string on small networks, and
//! `generate` makes networks and plans from a seed.
//!
//! A comment in quotation marks is a sentence of these documents.

#![forbid(unsafe_code)]

pub mod brute;
pub mod carry;
pub mod clocks;
pub mod controller;
pub mod frame;
pub mod generate;
pub mod limits;
pub mod marker;
pub mod network;
pub mod network_line;
pub mod path;
pub mod path_sums;
pub mod plan_text;
pub mod planner;
pub mod play;
pub mod programs;
pub mod reader;
pub mod recover;
pub mod refusal;
pub mod steering;
pub mod text;
