//! Changes of lengths.

use crate::random::Random;
use crate::sheet::{DefaultItem, Form, LengthBlock, Node, Sheet};

use super::super::fields::{CODE, SLICE};
use super::super::lengths::{any_form, node};
use super::super::{largest, wild};
use super::{any, slice_name};

fn with_length(random: &mut Random, sheet: &mut Sheet, change: impl Fn(&mut Random, &mut LengthBlock)) -> bool {
    let mut held: Vec<&mut LengthBlock> =
        sheet.lengths.iter_mut().filter(|length| length.form != Form::Undefined).collect();
    any(random, &mut held).map(|length| change(random, length)).is_some()
}

pub fn name(random: &mut Random, sheet: &mut Sheet) -> bool {
    let name = wild::name_of(random, &sheet.fields);
    with_length(random, sheet, |_, length| length.name.clone_from(&name))
}

pub fn name_of_slice(random: &mut Random, sheet: &mut Sheet) -> bool {
    let Some(name) = slice_name(random, sheet) else { return false };
    with_length(random, sheet, |_, length| length.name.clone_from(&name))
}

pub fn slot(random: &mut Random, sheet: &mut Sheet) -> bool {
    let slot = random.below(3) as u8;
    let free = sheet.lengths.iter().all(|length| length.slot != slot);
    free && any(random, &mut sheet.lengths).map(|length| length.slot = slot).is_some()
}

pub fn slot_added(random: &mut Random, sheet: &mut Sheet) -> bool {
    let free = |slot: &u8| sheet.lengths.iter().all(|length| length.slot != *slot);
    let Some(slot) = (0..3).find(free) else { return false };
    let form = any_form(random);
    let name = if form == Form::Undefined { String::new() } else { wild::name_of(random, &sheet.fields) };
    let at = random.below(sheet.lengths.len() + 1);
    sheet.lengths.insert(at, LengthBlock { slot, name, form });
    true
}

pub fn number(random: &mut Random, sheet: &mut Sheet) -> bool {
    with_length(random, sheet, |random, length| match &mut length.form {
        Form::Plus(number) | Form::Times(number) => number_changed(random, number),
        Form::PlusTimes(first, second) | Form::TimesPlus(first, second) => {
            let number = if random.percent(50) { first } else { second };
            number_changed(random, number)
        }
        Form::Tree(nodes) => {
            let numbers =
                nodes.iter_mut().filter_map(|node| if let Node::Number(number) = node { Some(number) } else { None });
            if let Some(number) = any(random, &mut numbers.collect::<Vec<_>>()) {
                number_changed(random, number)
            }
        }
        Form::Undefined | Form::X => length.form = any_form_with_name(random),
    })
}

fn number_changed(random: &mut Random, number: &mut u64) {
    *number = if random.percent(50) { random.near(*number) } else { random.number() };
}

pub fn form(random: &mut Random, sheet: &mut Sheet) -> bool {
    with_length(random, sheet, |random, length| length.form = any_form_with_name(random))
}

fn any_form_with_name(random: &mut Random) -> Form {
    match any_form(random) {
        Form::Undefined => Form::X,
        other => other,
    }
}

pub fn tree(random: &mut Random, sheet: &mut Sheet) -> bool {
    let mut trees: Vec<&mut Vec<Node>> = Vec::new();
    for length in &mut sheet.lengths {
        if let Form::Tree(nodes) = &mut length.form {
            trees.push(nodes);
        }
    }
    let Some(nodes) = any(random, &mut trees) else { return false };
    let index = random.below(nodes.len());
    nodes[index] = node(random, index);
    true
}

/// An item of the field that a length is worked out of.
pub fn field(random: &mut Random, sheet: &mut Sheet) -> bool {
    let mut served = sheet.lengths.iter().filter(|length| length.form != Form::Undefined);
    let Some(length) = served.next() else { return false };
    let Some(field) = sheet.fields.iter_mut().find(|field| field.name == length.name) else { return false };
    match random.below(7) {
        0 => field.gen = random.pick(&[0, 2]),
        1 => field.arg = CODE,
        2 => field.fixed = field.default != DefaultItem::Absent,
        3 => field.default = DefaultItem::Number(random.up_to(largest(field.bits))),
        4 => {
            (field.default, field.fixed) = (DefaultItem::Absent, false);
        }
        5 => field.bits = random.near(field.bits.into()).clamp(1, 64) as u32,
        _ => {
            (field.bits, field.repr, field.arg) = (random.pick(&[64, 72]), random.pick(&[0, SLICE]), 0);
            (field.default, field.fixed) = (DefaultItem::Absent, false);
        }
    }
    true
}
