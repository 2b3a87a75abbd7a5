//! The original's functions that stand alone.

mod questions;
mod record;

use std::ops::Bound;
use std::panic::catch_unwind;

use crate::original::ast::{max_value, parse_to_byte_val};
use crate::original::opened::cond::CondBounds;
use crate::original::{BitPos, BuiltinTypes, UsableAlgExpr};

pub use questions::questions;
pub use record::RECORD;

/// A question to one of the functions.
#[derive(Clone, Debug, PartialEq)]
pub enum Question {
    Byte { number: u64 },
    TypeName { name: String },
    MaxValue { width: u64 },
    NextPos { start: u64, len: u64 },
    Exec { form: Form, x: u64 },
    ReverseExec { form: Form, y: u64 },
    UpdateEnd { range: Bounds, largest: u64 },
    IsEmpty { range: Bounds },
    Intersect { one: Bounds, other: Bounds },
}

/// A form by its code, 1 to 5, and its numbers in the order of a length block.
#[derive(Clone, Copy, Debug, PartialEq)]
pub struct Form {
    pub code: u8,
    pub first: u64,
    pub second: u64,
}

/// A start and an end, each with its kind.
pub type Bounds = (Bound<u64>, Bound<u64>);

/// What a function gives: small codes, and numbers.
#[derive(Clone, Copy, Debug, Default, PartialEq)]
pub struct Given {
    pub codes: [u8; 2],
    pub numbers: [u64; 2],
}

#[derive(Clone, Copy, Debug, PartialEq)]
pub enum Outcome {
    None,
    Given(Given),
    Panics,
}

impl Question {
    /// The original's answer.
    pub fn outcome(&self) -> Outcome {
        match catch_unwind(|| self.given()) {
            Ok(given) => given.map_or(Outcome::None, Outcome::Given),
            Err(_) => Outcome::Panics,
        }
    }

    fn given(&self) -> Option<Given> {
        match self {
            Question::Byte { number } => parse_to_byte_val(*number).ok().map(|byte| Given::number(byte.into())),
            Question::TypeName { name } => Some(Given::code(code_of(BuiltinTypes::from(&name[..])))),
            Question::MaxValue { width } => max_value(*width).map(Given::number),
            Question::NextPos { start, len } => Some(position(BitPos::new(*start).next_pos(*len))),
            Question::Exec { form, x } => form.expr().exec(*x).map(Given::number),
            Question::ReverseExec { form, y } => form.expr().reverse_exec(*y).map(Given::number),
            Question::UpdateEnd { range, largest } => {
                let mut range = bounds(range);
                range.clip(*largest);
                Some(Given::range(&range))
            }
            Question::IsEmpty { range } => Some(Given::code(bounds(range).is_empty().into())),
            Question::Intersect { one, other } => Some(Given::range(&bounds(one).intersect(&bounds(other)))),
        }
    }
}

impl Given {
    fn number(number: u64) -> Given {
        Given { numbers: [number, 0], ..Given::default() }
    }

    fn code(code: u8) -> Given {
        Given { codes: [code, 0], ..Given::default() }
    }

    fn range(range: &CondBounds) -> Given {
        let (codes, numbers) = numbers(&(range.start, range.end));
        Given { codes, numbers }
    }
}

impl Form {
    /// The form as the original has it.
    pub fn expr(self) -> UsableAlgExpr {
        let name = String::new();
        match self.code {
            1 => UsableAlgExpr::IdentOnly(name),
            2 => UsableAlgExpr::SimpleAdd(name, self.first),
            3 => UsableAlgExpr::SimpleMult(name, self.first),
            4 => UsableAlgExpr::AddMult(name, self.first, self.second),
            _ => UsableAlgExpr::MultAdd(name, self.first, self.second),
        }
    }
}

fn position(end: BitPos) -> Given {
    Given { codes: [end.bit_pos(), 0], numbers: [end.byte_pos(), end.to_global_pos()] }
}

/// The code of a type in a block.
pub fn code_of(builtin: BuiltinTypes) -> u8 {
    match builtin {
        BuiltinTypes::U8 => 1,
        BuiltinTypes::U16 => 2,
        BuiltinTypes::U32 => 3,
        BuiltinTypes::U64 => 4,
        BuiltinTypes::ByteSlice => 5,
        BuiltinTypes::Bool => 6,
    }
}

fn bounds((start, end): &Bounds) -> CondBounds {
    CondBounds { start: *start, end: *end }
}

/// The kinds of both ends, and their numbers.
fn numbers((start, end): &Bounds) -> ([u8; 2], [u64; 2]) {
    let ((start_kind, start), (end_kind, end)) = (number(start), number(end));
    ([start_kind, end_kind], [start, end])
}

fn number(bound: &Bound<u64>) -> (u8, u64) {
    match bound {
        Bound::Unbounded => (0, 0),
        Bound::Included(number) => (1, *number),
        Bound::Excluded(number) => (2, *number),
    }
}
