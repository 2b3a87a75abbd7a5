//! The conditions of an accepted sheet, with their ranges as clipped.

use std::ops::RangeInclusive;

use pktfmt_checked as port;
use port::ffi;

use super::details::Accepted;
use super::found::Found;
use crate::listing::first_and_last;
use crate::original::{CondBounds, Definition};

pub fn compare(accepted: &Accepted, sheet: &port::Sheet, found: &mut Found) {
    let mut all = [ffi::Condition::default(); ffi::MAX_CONDITIONS];
    let conditions = accepted.definition.conds().map(|(name, ranges)| condition(accepted.definition, name, ranges));
    all.iter_mut().zip(conditions).for_each(|(place, condition)| *place = condition);
    found.same("conditions", &Ok(all), &ffi::conditions(accepted.bytes));
    found.same("conditions of the crate's sheet", &accepted.stated.conds.len(), &sheet.conditions().len());
    for (expected, condition) in all.iter().zip(sheet.conditions()) {
        let ranges: Vec<_> = expected.ranges[..expected.count as usize].iter().map(numbers).collect();
        let told = (condition.field_index() as u64, condition.ranges());
        found.same("the crate's condition", &(expected.field, &ranges[..]), &told);
    }
}

/// A condition as include/pktfmt.h has it, by the original.
fn condition(definition: &Definition, name: &str, bounds: &[CondBounds]) -> ffi::Condition {
    let field = definition.fields().position(|(other, ..)| other == name);
    let mut condition = ffi::Condition {
        field: field.expect("an accepted condition has its field") as u64,
        count: bounds.len() as u64,
        ..ffi::Condition::default()
    };
    for (range, bounds) in condition.ranges.iter_mut().zip(bounds) {
        let (first, last) = first_and_last(bounds);
        *range = ffi::Range { first, last };
    }
    condition
}

fn numbers(ffi::Range { first, last }: &ffi::Range) -> RangeInclusive<u64> {
    *first..=*last
}
