//! Checked definitions of packet fields.
//!
//! A table of packet fields, written down as a *sheet*, is checked, and from it come where every field stands to the
//! bit, the starting bytes of a header, lengths and conditions. The work is done by a proved library behind the C
//! header `include/pktfmt.h`; this crate gives it Rust's types. The rules are in `docs/RULES.md`.
//!
//! ```
//! use pktfmt_checked::Sheet;
//!
//! let sheet = Sheet::new(include_bytes!(concat!(env!("CARGO_MANIFEST_DIR"), "/../examples/udp.sheet")))?;
//! let port = sheet.field("destination_port").expect("the sheet has it");
//!
//! let mut packet = sheet.template();
//! port.write_number(&mut packet, 4791)?;
//! assert_eq!(packet, [0, 0, 0x12, 0xb7, 0, 8, 0, 0]);
//! assert_eq!(port.read_number(&packet)?, 4791);
//! # Ok::<(), pktfmt_checked::Refusal>(())
//! ```
//!
//! A [`Sheet`] is bytes that were checked; it has [`Field`]s, [`Length`]s and [`Condition`]s. A [`Field`] reads and
//! writes its numbers or bytes in any buffer. What is refused is told by a [`Refusal`].

#![deny(unsafe_code)]
#![forbid(unsafe_op_in_unsafe_fn)]
#![warn(missing_docs)]

#[allow(unsafe_code)]
pub mod ffi;

mod condition;
mod field;
mod length;
mod reasons;
mod refusal;
mod sheet;

pub use condition::Condition;
pub use field::{Field, Type, Value};
pub use length::{Formula, Length, Slot, SlotState};
pub use reasons::{
    AccessFault, BoundFault, CondFault, FieldFault, Group, HeaderFault, LengthFault, NumberFault, PositionFault,
    Reason, RoomFault, SheetFault, TypeFault,
};
pub use refusal::Refusal;
pub use sheet::Sheet;

/// The example of the README, run with the tests.
#[cfg(doctest)]
#[doc = include_str!("../README.md")]
struct Readme;
