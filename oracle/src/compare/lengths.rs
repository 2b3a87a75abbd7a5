//! The lengths of an accepted sheet, and lengths by themselves, forward and back.

use std::panic::catch_unwind;

use pktfmt_checked as port;
use port::{ffi, Formula, Slot, SlotState};

use super::details::Accepted;
use super::found::Found;
use crate::original::ast::max_value;
use crate::original::{Definition, LengthField, UsableAlgExpr};
use crate::random::Random;
use crate::single;

pub fn compare(accepted: &Accepted, sheet: &port::Sheet, random: &mut Random, found: &mut Found) {
    let lengths = Slot::ALL.map(|slot| length(accepted.definition, slot));
    found.same("lengths", &Ok(lengths), &ffi::lengths(accepted.bytes));
    for (slot, length) in Slot::ALL.into_iter().zip(lengths) {
        let state = sheet.length(slot);
        match accepted.definition.length.at(slot as usize) {
            LengthField::None => found.same("the crate's length", &SlotState::Absent, &state),
            LengthField::Undefined => found.same("the crate's length", &SlotState::Undefined, &state),
            LengthField::Expr { expr } => {
                let expected = (formula_of(expr), length.field as usize, length.largest);
                let told = state.defined().map(|told| (told.formula(), told.field_index(), told.largest()));
                found.same("the crate's length", &Some(expected), &told);
                let most = max_value(accepted.stated.fields[length.field as usize].bits.into());
                forward_and_back(expr, most.unwrap_or(0), random, found);
            }
        }
    }
}

/// A length as include/pktfmt.h has it, by the original.
fn length(definition: &Definition, slot: Slot) -> ffi::Length {
    let expr = match definition.length.at(slot as usize) {
        LengthField::None => return ffi::Length { form: ffi::ABSENT, ..ffi::Length::default() },
        LengthField::Undefined => return ffi::Length { form: ffi::UNDEFINED, ..ffi::Length::default() },
        LengthField::Expr { expr } => expr,
    };
    let (form, first, second) = match *expr {
        UsableAlgExpr::IdentOnly(_) => (ffi::X, 0, 0),
        UsableAlgExpr::SimpleAdd(_, addend) => (ffi::X_PLUS, addend, 0),
        UsableAlgExpr::SimpleMult(_, factor) => (ffi::X_TIMES, factor, 0),
        UsableAlgExpr::AddMult(_, addend, factor) => (ffi::PLUS_TIMES, addend, factor),
        UsableAlgExpr::MultAdd(_, factor, addend) => (ffi::TIMES_PLUS, factor, addend),
    };
    let mut fields = (0..).zip(definition.fields());
    let named = fields.find(|(_, (name, ..))| *name == expr.field_name());
    let (index, (_, field, _)) = named.expect("an accepted length has its field");
    let largest = max_value(field.bit).and_then(|most| expr.exec(most)).expect("and a largest length");
    ffi::Length { form, first, second, field: index, largest }
}

/// Lengths by an expression of any numbers, which belongs to no sheet.
pub fn compare_any(random: &mut Random, found: &mut Found) {
    forward_and_back(&single::Form::any(random).expr(), u64::MAX, random, found);
}

fn formula_of(expr: &UsableAlgExpr) -> Formula {
    match *expr {
        UsableAlgExpr::IdentOnly(_) => Formula::X,
        UsableAlgExpr::SimpleAdd(_, addend) => Formula::Plus { addend },
        UsableAlgExpr::SimpleMult(_, factor) => Formula::Times { factor },
        UsableAlgExpr::AddMult(_, addend, factor) => Formula::PlusTimes { addend, factor },
        UsableAlgExpr::MultAdd(_, factor, addend) => Formula::TimesPlus { factor, addend },
    }
}

/// Lengths of values on boundaries and others, and the values of these lengths and of others.
fn forward_and_back(expr: &UsableAlgExpr, most: u64, random: &mut Random, found: &mut Found) {
    let formula = formula_of(expr);
    for x in [0, most, u64::MAX, random.up_to(most), random.number(), random.number()] {
        let length = expr.exec(x);
        found.same("length forward", &length, &formula.forward(x));
        back(expr, formula, length.unwrap_or(x), found);
        back(expr, formula, random.near(length.unwrap_or(x)), found);
    }
}

fn back(expr: &UsableAlgExpr, formula: Formula, y: u64, found: &mut Found) {
    match (catch_unwind(|| expr.reverse_exec(y)), formula.back(y)) {
        (Ok(original), port) => found.same("length back", &original, &port),
        (Err(_), None) if has_factor_0(formula) => {
            found.explained("length back over a factor of 0: the original divides by zero")
        }
        (Err(_), port) => found.told(false, "length back", || ("panics".into(), format!("{port:?}"))),
    }
}

fn has_factor_0(formula: Formula) -> bool {
    match formula {
        Formula::X | Formula::Plus { .. } => false,
        Formula::Times { factor } | Formula::PlusTimes { factor, .. } | Formula::TimesPlus { factor, .. } => {
            factor == 0
        }
    }
}
