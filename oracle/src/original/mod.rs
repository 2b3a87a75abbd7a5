//! The original asked of a sheet, in the order of docs/RULES.md.

/// The six files, as they are. `oracle/build` copies them there.
#[allow(warnings)]
#[rustfmt::skip]
#[path = "../../../target/oracle/ast/mod.rs"]
pub(crate) mod ast;

pub(crate) mod opened;

mod answer;
mod inputs;
mod steps;

pub use answer::{Fault, Refused, Step};
pub use ast::{
    Arg, BitPos, BuiltinTypes, Cond, CondBounds, DefaultVal, Field, Header, Length, LengthField, UsableAlgExpr,
};
pub use inputs::{Entry, FieldInput, Inputs, LengthInput};
pub use steps::{ask, cond, fields, header, length, Definition};
