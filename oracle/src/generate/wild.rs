//! Sheets of any items.

use crate::random::Random;
use crate::sheet::{CondBlock, DefaultItem, FieldBlock, Form, LengthBlock, Sheet};

use super::conds::any_range;
use super::fields::{any_default, any_name, any_width, inferred};
use super::largest;
use super::lengths::any_form;

pub fn sheet(random: &mut Random) -> Sheet {
    let fields: Vec<FieldBlock> = (0..random.below(5)).map(|_| field(random)).collect();
    let mut slots = vec![0, 1, 2];
    random.shuffle(&mut slots);
    slots.truncate(random.weighted(&[40, 30, 20, 10]));
    let lengths = slots.into_iter().map(|slot| length(random, &fields, slot)).collect();
    let conds = (0..random.weighted(&[50, 30, 10, 5, 5])).map(|_| cond(random, &fields)).collect();
    Sheet { fields, lengths, conds }
}

/// Any field, with every item now and then as it should not be.
pub fn field(random: &mut Random) -> FieldBlock {
    let bits = any_width(random);
    let default = any_default(random, bits);
    FieldBlock {
        name: if random.percent(2) { "type".to_string() } else { any_name(random) },
        bits,
        repr: if random.percent(60) { random.pick(&[0, inferred(bits)]) } else { random.below(7) as u8 },
        arg: if random.percent(60) { 0 } else { random.below(8) as u8 },
        gen: random.below(3) as u8,
        fixed: default != DefaultItem::Absent && random.percent(30),
        default,
    }
}

fn length(random: &mut Random, fields: &[FieldBlock], slot: u8) -> LengthBlock {
    let form = any_form(random);
    let name = if form == Form::Undefined { String::new() } else { name_of(random, fields) };
    LengthBlock { slot, name, form }
}

fn cond(random: &mut Random, fields: &[FieldBlock]) -> CondBlock {
    let name = name_of(random, fields);
    let bits = fields.iter().find(|field| field.name == name).map_or(8, |field| field.bits);
    let ranges = (0..random.below(4)).map(|_| any_range(random, largest(bits))).collect();
    CondBlock { name, ranges }
}

/// The name of a field, mostly.
pub fn name_of(random: &mut Random, fields: &[FieldBlock]) -> String {
    if fields.is_empty() || random.percent(10) {
        any_name(random)
    } else {
        fields[random.below(fields.len())].name.clone()
    }
}
