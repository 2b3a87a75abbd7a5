//! The original, pktfmt/src/ast, compiled unchanged, and what it takes to hold the port against it.
//!
//! [`sheet`] has sheets as values; [`original`] asks the original of one, step by step; [`listing`] writes its answer in
//! the lister's words. A benchmark needs no more than these. [`generate`] makes sheets, [`compare`] holds both sides
//! against each other, [`single`] asks the original's functions that stand alone, and [`store`] writes files of answers.
//! The original has no reads and writes of fields: [`by_hand`] has. The port is asked through the crate in `rust/`; for
//! the benchmark [`port`] has it as C does.

// The original names the crate `byteorder`; what it needs of it is in `stand_ins`.
extern crate self as byteorder;

#[macro_use]
mod stand_ins;
use stand_ins as utils;
pub use stand_ins::{ByteOrder, NetworkEndian, Spanned};

pub mod by_hand;
pub mod compare;
pub mod generate;
pub mod listing;
pub mod original;
pub mod packing;
pub mod port;
pub mod random;
pub mod sheet;
pub mod single;
pub mod store;
pub mod stored;
