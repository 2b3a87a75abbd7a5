//! The fields of an accepted sheet: their records, and that they are read and written as they say.

use pktfmt_checked as port;
use port::ffi::{self, Locator, Span, HOLDS_BYTES, HOLDS_FIXED, HOLDS_NUMBER};
use port::{Group, Value};

use super::details::Accepted;
use super::found::Found;
use crate::by_hand;
use crate::generate;
use crate::original::{Arg, DefaultVal, Field};
use crate::random::Random;
use crate::sheet::{DefaultItem, FieldBlock, BLOCK, DEFAULT_BYTES, NAME};
use crate::single::code_of;

pub fn compare(accepted: &Accepted, sheet: &port::Sheet, template: &[u8], random: &mut Random, found: &mut Found) {
    let records = records(accepted);
    let mut all = [ffi::Field::default(); ffi::MAX_FIELDS];
    all[..records.len()].copy_from_slice(&records);
    found.same("header and fields", &Ok((accepted.header(), all)), &ffi::fields(accepted.bytes));
    found.same("fields of the crate's sheet", &records.len(), &sheet.fields().len());
    for ((record, (name, original, _)), field) in records.iter().zip(accepted.definition.fields()).zip(sheet.fields()) {
        found.same("field by index", &Ok(*record), &ffi::field_by_index(accepted.bytes, record.at.index));
        found.same("field by name", &Ok(*record), &ffi::field_by_name(accepted.bytes, name.as_bytes()));
        found.same("the crate's field", &in_words(name, record), &told(field));
        found.same("the crate's field by name", &Some(field), &sheet.field(name));
        let default = default_of(original);
        found.same("default", &default, &Some(field.default()));
        found.same("field read in the template", &default, &field.read(template).ok());
    }
    asked_for(accepted, &records, random, found);
    if !records.is_empty() {
        by_the_sheet(accepted, &records[random.below(records.len())].at, template, random, found);
    }
}

/// Every field as include/pktfmt.h has it, by the original.
fn records(accepted: &Accepted) -> Vec<ffi::Field> {
    let header_bytes = accepted.header().bytes;
    let fields = accepted.definition.fields().zip(&accepted.stated.fields).zip(0..);
    let fields = fields.map(|(((_, field, start), block), index)| {
        let (held, default_number) = held(field);
        let first_bit = start.to_global_pos();
        record(Locator { index, header_bytes, first_bit, bits: field.bit, held, default_number }, field, block)
    });
    fields.collect()
}

fn held(field: &Field) -> (u64, u64) {
    match field.default {
        DefaultVal::Num(number) if field.default_fix => (HOLDS_FIXED, number),
        DefaultVal::Num(number) => (HOLDS_NUMBER, number),
        _ => (HOLDS_BYTES, 0),
    }
}

/// A field's record; its block tells where in the sheet its name and its bytes stand.
fn record(at: Locator, field: &Field, block: &FieldBlock) -> ffi::Field {
    let span = |offset, count| Span { at: at.index * BLOCK as u64 + offset as u64, count: count as u64 };
    ffi::Field {
        at,
        repr: code_of(field.repr).into(),
        arg: match &field.arg {
            Arg::BuiltinTypes(builtin) => code_of(*builtin).into(),
            Arg::Code(_) => ffi::CODE,
        },
        generated: field.gen.into(),
        guarded: field.need_write_guard().into(),
        name: span(NAME, block.name.len()),
        default_bytes: match &block.default {
            DefaultItem::Bytes(bytes) => span(DEFAULT_BYTES, bytes.len()),
            _ => Span::default(),
        },
    }
}

/// The default; none where it is a bool, which no accepted field has.
fn default_of(field: &Field) -> Option<Value<'_>> {
    match &field.default {
        DefaultVal::Num(number) => Some(Value::Number(*number)),
        DefaultVal::Bytes(bytes) => Some(Value::Bytes(bytes)),
        DefaultVal::Bool(_) => None,
    }
}

/// What the crate tells of a field: its name, its numbers, and its marks.
type Told<'a> = (&'a str, [u64; 5], [bool; 3]);

fn in_words<'a>(name: &'a str, ffi::Field { at, repr, arg, generated, guarded, .. }: &ffi::Field) -> Told<'a> {
    let marks = [*generated == 1, *guarded == 1, at.held == HOLDS_FIXED];
    (name, [at.index, at.first_bit, at.bits, *repr, *arg], marks)
}

fn told(field: &port::Field) -> Told<'_> {
    let types = [field.repr() as u64, field.arg() as u64];
    let numbers = [field.index() as u64, field.first_bit(), field.bits(), types[0], types[1]];
    (field.name(), numbers, [field.generated(), field.guarded(), field.is_fixed()])
}

/// A field of any index, and of any name.
fn asked_for(accepted: &Accepted, records: &[ffi::Field], random: &mut Random, found: &mut Found) {
    let access_1 = |place| ffi::Refusal { group: Group::Access as u64, number: 1, place };
    let count = records.len() as u64;
    let index = if random.percent(50) { count } else { random.number() };
    let record = usize::try_from(index).ok().and_then(|index| records.get(index)).copied();
    found.same("field of any index", &record.ok_or(access_1(index)), &ffi::field_by_index(accepted.bytes, index));
    let name = generate::name(random);
    let named = accepted.definition.fields().zip(records).find(|((other, ..), _)| *other == name);
    let record = named.map(|(_, record)| *record);
    let told = ffi::field_by_name(accepted.bytes, name.as_bytes());
    found.same("field of any name", &record.ok_or(access_1(count)), &told);
}

/// One field written and read by sheet and index, beside what is done by hand, and for bytes beside the locator.
fn by_the_sheet(accepted: &Accepted, at: &Locator, template: &[u8], random: &mut Random, found: &mut Found) {
    let (mut left, mut right) = (template.to_vec(), template.to_vec());
    if at.held == HOLDS_BYTES {
        let count = if random.percent(80) { at.bits / 8 } else { random.near(at.bits / 8).min(at.bits) };
        let bytes = generate::bytes(random, count as usize);
        let by_sheet = ffi::write_bytes(accepted.bytes, at.index, &mut left, &bytes);
        found.same("bytes written by the sheet", &ffi::write_bytes_at(at, &mut right, &bytes), &by_sheet);
        let by_sheet = ffi::read_bytes(accepted.bytes, at.index, &left);
        found.same("bytes read by the sheet", &Ok(Span { at: at.first_bit / 8, count: at.bits / 8 }), &by_sheet);
    } else {
        let value = if random.percent(20) { at.default_number } else { random.number() };
        let by_sheet = ffi::write_number(accepted.bytes, at.index, &mut left, value).map_err(access);
        found.same("number written by the sheet", &by_hand::write_number(at, &mut right, value), &by_sheet);
        let by_sheet = ffi::read_number(accepted.bytes, at.index, &left).map_err(access);
        found.same("number read by the sheet", &by_hand::read_number(at, &right), &by_sheet);
    }
    found.same("buffer written by the sheet", &right, &left);
}

/// A refusal as it is by hand; number 0 stands for one of another group.
fn access(ffi::Refusal { group, number, place }: ffi::Refusal) -> by_hand::Refusal {
    by_hand::Refusal { number: if group == Group::Access as u64 { number } else { 0 }, place }
}
