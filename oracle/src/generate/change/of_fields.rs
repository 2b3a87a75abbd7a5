//! Changes of fields.

use crate::random::Random;
use crate::sheet::{DefaultItem, FieldBlock, Sheet, MOST_FIELDS};

use super::super::fields::{any_default, any_width, bytes, field, new_name, BOOL, SLICE};
use super::super::lengths::LIMIT;
use super::super::{largest, wild};
use super::any;

fn with_field(random: &mut Random, sheet: &mut Sheet, change: impl Fn(&mut Random, &mut FieldBlock)) -> bool {
    any(random, &mut sheet.fields).map(|index| change(random, index)).is_some()
}

pub fn width(random: &mut Random, sheet: &mut Sheet) -> bool {
    with_field(random, sheet, |random, field| field.bits = any_width(random))
}

pub fn width_by_little(random: &mut Random, sheet: &mut Sheet) -> bool {
    with_field(random, sheet, |random, field| field.bits = random.near(field.bits.into()) as u32 & 0x01ff_ffff)
}

pub fn repr(random: &mut Random, sheet: &mut Sheet) -> bool {
    with_field(random, sheet, |random, field| field.repr = random.below(7) as u8)
}

pub fn arg(random: &mut Random, sheet: &mut Sheet) -> bool {
    with_field(random, sheet, |random, field| field.arg = random.below(8) as u8)
}

pub fn gen(random: &mut Random, sheet: &mut Sheet) -> bool {
    with_field(random, sheet, |random, field| field.gen = random.below(3) as u8)
}

pub fn default(random: &mut Random, sheet: &mut Sheet) -> bool {
    with_field(random, sheet, |random, field| {
        field.default = any_default(random, field.bits);
        field.fixed &= field.default != DefaultItem::Absent;
    })
}

pub fn default_near_largest(random: &mut Random, sheet: &mut Sheet) -> bool {
    with_field(random, sheet, |random, field| field.default = DefaultItem::Number(random.near(largest(field.bits))))
}

fn with_slice(random: &mut Random, sheet: &mut Sheet, change: impl Fn(&mut Random, &mut FieldBlock)) -> bool {
    let mut slices: Vec<&mut FieldBlock> = sheet.fields.iter_mut().filter(|field| field.held() == SLICE).collect();
    any(random, &mut slices).map(|field| change(random, field)).is_some()
}

pub fn byte_count(random: &mut Random, sheet: &mut Sheet) -> bool {
    with_slice(random, sheet, |random, field| {
        let count = random.near(u64::from(field.bits) / 8).min(80);
        field.default = DefaultItem::Bytes(bytes(random, count as usize));
    })
}

pub fn fixed_bytes(random: &mut Random, sheet: &mut Sheet) -> bool {
    with_slice(random, sheet, |random, field| {
        let count = (field.bits as usize / 8).min(80);
        field.default = DefaultItem::Bytes(bytes(random, count));
        field.fixed = true;
    })
}

pub fn bool_default(random: &mut Random, sheet: &mut Sheet) -> bool {
    with_field(random, sheet, |random, field| {
        (field.bits, field.repr, field.arg) = (1, 0, BOOL);
        field.default = any_default(random, 1);
        field.fixed &= field.default != DefaultItem::Absent;
    })
}

pub fn name_repeated(random: &mut Random, sheet: &mut Sheet) -> bool {
    let names: Vec<String> = sheet.fields.iter().map(|field| field.name.clone()).collect();
    let Some(field) = any(random, &mut sheet.fields) else { return false };
    field.name = names[random.below(names.len())].clone();
    true
}

pub fn name_reserved(random: &mut Random, sheet: &mut Sheet) -> bool {
    with_field(random, sheet, |_, field| field.name = "type".to_string())
}

pub fn swapped(random: &mut Random, sheet: &mut Sheet) -> bool {
    let count = sheet.fields.len();
    if count > 1 {
        sheet.fields.swap(random.below(count), random.below(count));
    }
    count > 1
}

pub fn dropped(random: &mut Random, sheet: &mut Sheet) -> bool {
    let count = sheet.fields.len();
    if count > 0 {
        sheet.fields.remove(random.below(count));
    }
    count > 0
}

pub fn added(random: &mut Random, sheet: &mut Sheet) -> bool {
    let added = if random.percent(50) { wild::field(random) } else { whole_bytes(random, &sheet.fields) };
    insert(random, sheet, added)
}

fn whole_bytes(random: &mut Random, fields: &[FieldBlock]) -> FieldBlock {
    let (name, bits) = (new_name(random, fields), 8 * random.from_to(1, 9) as u32);
    field(random, name, bits, true)
}

/// A number that touches 8 bytes, or more, by what stands before it.
pub fn wide_number(random: &mut Random, sheet: &mut Sheet) -> bool {
    let (name, bits) = (new_name(random, &sheet.fields), random.from_to(56, 64) as u32);
    let added = field(random, name, bits, false);
    insert(random, sheet, added)
}

pub fn few_bits_first(random: &mut Random, sheet: &mut Sheet) -> bool {
    let (name, bits) = (new_name(random, &sheet.fields), random.from_to(1, 7) as u32);
    let added = field(random, name, bits, false);
    let room = sheet.fields.len() < MOST_FIELDS;
    if room {
        sheet.fields.insert(0, added);
    }
    room
}

/// A header about as long as a header may be.
pub fn long_header(random: &mut Random, sheet: &mut Sheet) -> bool {
    if random.percent(70) {
        return false;
    }
    let others: u64 = sheet.fields.iter().map(|field| u64::from(field.bits)).sum();
    let left = random.near(LIMIT.saturating_sub(others / 8)).clamp(9, LIMIT);
    let name = new_name(random, &sheet.fields);
    let added = field(random, name, 8 * left as u32, true);
    insert(random, sheet, added)
}

fn insert(random: &mut Random, sheet: &mut Sheet, added: FieldBlock) -> bool {
    let count = sheet.fields.len();
    if count < MOST_FIELDS {
        sheet.fields.insert(random.below(count + 1), added);
    }
    count < MOST_FIELDS
}
