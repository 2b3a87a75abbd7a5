//! One item of a sheet changed.

mod of_conds;
mod of_fields;
mod of_lengths;

use crate::random::Random;
use crate::sheet::{FieldBlock, Sheet};

use super::fields::SLICE;

/// A change, which says whether there was something to change.
type Change = fn(&mut Random, &mut Sheet) -> bool;

/// Changes, and how often each is made.
const CHANGES: [(usize, Change); 32] = [
    (3, of_fields::width),
    (3, of_fields::width_by_little),
    (4, of_fields::repr),
    (4, of_fields::arg),
    (2, of_fields::gen),
    (3, of_fields::default),
    (3, of_fields::default_near_largest),
    (4, of_fields::byte_count),
    (4, of_fields::fixed_bytes),
    (3, of_fields::bool_default),
    (5, of_fields::name_repeated),
    (4, of_fields::name_reserved),
    (3, of_fields::swapped),
    (2, of_fields::dropped),
    (3, of_fields::added),
    (4, of_fields::wide_number),
    (4, of_fields::few_bits_first),
    (1, of_fields::long_header),
    (4, of_lengths::name),
    (3, of_lengths::name_of_slice),
    (3, of_lengths::slot),
    (4, of_lengths::slot_added),
    (8, of_lengths::number),
    (6, of_lengths::form),
    (4, of_lengths::tree),
    (10, of_lengths::field),
    (4, of_conds::name),
    (2, of_conds::name_of_slice),
    (8, of_conds::range),
    (6, of_conds::range_added),
    (5, of_conds::repeated),
    (5, of_conds::many_entries),
];

/// Changes are tried until one finds something to change.
const TRIES: usize = 20;

/// Makes one of the changes.
pub fn one(random: &mut Random, sheet: &mut Sheet) {
    let weights = CHANGES.map(|(weight, _)| weight);
    (0..TRIES).any(|_| CHANGES[random.weighted(&weights)].1(random, sheet));
}

/// Any item, if there is one.
fn any<'a, T>(random: &mut Random, items: &'a mut [T]) -> Option<&'a mut T> {
    let count = items.len();
    items.get_mut(random.below(count.max(1)))
}

fn slice_name(random: &mut Random, sheet: &Sheet) -> Option<String> {
    let mut slices: Vec<&FieldBlock> = sheet.fields.iter().filter(|field| field.held() == SLICE).collect();
    any(random, &mut slices).map(|field| field.name.clone())
}
