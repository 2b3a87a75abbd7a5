//! The original's answer in the lister's words.

use std::fmt::Write;
use std::ops::Bound;

use crate::original::ast::max_value;
use crate::original::{CondBounds, Definition, LengthField, Refused};
use crate::sheet::SLOTS;

/// The buffer of the lister's template, in bytes.
pub const TEMPLATE_ROOM: usize = 8_192;

/// The listing of an accepted sheet of so many blocks.
pub fn accepted(definition: &Definition, blocks: usize) -> String {
    if definition.header.header_len_in_bytes() > TEMPLATE_ROOM {
        return format!("refused room 1 {blocks}\n");
    }
    let mut text = String::new();
    put_fields(&mut text, definition);
    put_template(&mut text, definition.header.header_template());
    put_lengths(&mut text, definition);
    put_conds(&mut text, definition);
    text
}

/// The line of a refusal up to its place, and with it where the original tells it.
pub fn refused(refused: &Refused) -> String {
    let Refused { group, number, place } = refused;
    match place {
        Some(place) => format!("refused {group} {number} {place}\n"),
        None => format!("refused {group} {number} "),
    }
}

/// The first and the last number of a range that has been clipped.
pub fn first_and_last(bounds: &CondBounds) -> (u64, u64) {
    let first = match bounds.start {
        Bound::Unbounded => 0,
        Bound::Included(number) => number,
        Bound::Excluded(number) => number + 1,
    };
    let last = match bounds.end {
        Bound::Unbounded => u64::MAX,
        Bound::Included(number) => number,
        Bound::Excluded(number) => number - 1,
    };
    (first, last)
}

fn put_fields(text: &mut String, definition: &Definition) {
    put(text, format_args!("header {}\n", definition.header.header_len_in_bytes()));
    for (index, (name, field, start)) in definition.fields().enumerate() {
        let (byte, bit, width) = (start.byte_pos(), start.bit_pos(), field.bit);
        let (repr, guard) = (field.repr.to_string(), u8::from(field.need_write_guard()));
        put(text, format_args!("field {index} {byte} {bit} {width} {repr} {guard} {name}\n"));
    }
}

fn put_template(text: &mut String, template: &[u8]) {
    text.push_str(if template.is_empty() { "template" } else { "template " });
    for byte in template {
        put(text, format_args!("{byte:02x}"));
    }
    text.push('\n');
}

fn put_lengths(text: &mut String, definition: &Definition) {
    for (slot, held) in SLOTS.iter().zip(definition.length.as_slice()) {
        match held {
            LengthField::None => {}
            LengthField::Undefined => put(text, format_args!("length {slot} undefined\n")),
            LengthField::Expr { expr } => {
                let name = expr.field_name();
                let (field, _) = definition.header.field(name).expect("an accepted length has its field");
                let largest = max_value(field.bit).and_then(|value| expr.exec(value)).expect("and a largest length");
                put(text, format_args!("length {slot} {name} {largest}\n"));
            }
        }
    }
}

fn put_conds(text: &mut String, definition: &Definition) {
    for (name, ranges) in definition.conds() {
        put(text, format_args!("cond {name}"));
        for (first, last) in ranges.iter().map(first_and_last) {
            put(text, format_args!(" {first} {last}"));
        }
        text.push('\n');
    }
}

fn put(text: &mut String, words: std::fmt::Arguments) {
    text.write_fmt(words).expect("a string takes any text");
}

#[cfg(test)]
mod tests {
    use super::*;
    use crate::original::{ask, Inputs};
    use crate::sheet::{CondBlock, DefaultItem, End, FieldBlock, Form, LengthBlock, Range, Sheet};

    fn field(name: &str, bits: u32, arg: u8, gen: u8, default: DefaultItem) -> FieldBlock {
        FieldBlock { name: name.to_string(), bits, repr: 0, arg, gen, default, fixed: false }
    }

    /// The sheet of eight blocks in the rules.
    #[test]
    fn the_example() {
        let sheet = Sheet {
            fields: vec![
                field("ver", 4, 0, 0, DefaultItem::Number(4)),
                field("hl", 4, 0, 1, DefaultItem::Number(1)),
                field("size", 12, 0, 1, DefaultItem::Absent),
                field("flag", 1, 6, 0, DefaultItem::Number(1)),
                field("rest", 3, 0, 0, DefaultItem::Number(5)),
            ],
            lengths: vec![
                LengthBlock { slot: 0, name: "hl".to_string(), form: Form::Times(4) },
                LengthBlock { slot: 2, name: "size".to_string(), form: Form::X },
            ],
            conds: vec![CondBlock {
                name: "ver".to_string(),
                ranges: vec![Range { start: Some(4), end: End::Included(4) }],
            }],
        };
        let definition = ask(Inputs::of(&sheet)).expect("it is accepted");
        let expected = "\
header 3
field 0 0 0 4 u8 1 ver
field 1 0 4 4 u8 1 hl
field 2 1 0 12 u16 1 size
field 3 2 4 1 u8 1 flag
field 4 2 5 3 u8 1 rest
template 41000d
length header_len hl 60
length packet_len size 4095
cond ver 4 4
";
        assert_eq!(accepted(&definition, sheet.blocks()), expected);
    }
}
