//! Fields, and headers made of them.

use crate::random::Random;
use crate::sheet::{DefaultItem, FieldBlock, MOST_DEFAULT_BYTES, MOST_FIELDS};

use super::largest;

/// The code of a byte slice.
pub const SLICE: u8 = 5;
/// The code of a bool.
pub const BOOL: u8 = 6;
/// The code of an arg that is code.
pub const CODE: u8 = 7;

const WIDTHS: [u32; 36] = [
    1, 1, 1, 2, 3, 4, 4, 5, 6, 7, 7, 8, 8, 8, 9, 12, 13, 15, 16, 16, 17, 22, 23, 24, 31, 32, 33, 40, 48, 56, 57, 58,
    63, 64, 72, 128,
];
const LONG_WIDTHS: [u32; 5] = [3_384, 3_392, 3_400, 65_528, 65_536];
const LONGEST: u32 = 33_554_424;
const WRONG_WIDTHS: [u32; 12] =
    [0, 65, 66, 71, 73, 100, 33_554_425, 33_554_431, 33_554_432, 1 << 31, u32::MAX - 7, u32::MAX];

const NAMES: [&str; 12] = ["a", "b", "ab", "ba", "len", "ver", "types", "Type", "typ", "x", "!", "~"];

/// Fields that make a header.
pub fn header(random: &mut Random) -> Vec<FieldBlock> {
    let count = match random.weighted(&[2, 84, 12, 2]) {
        0 => 0,
        1 => random.from_to(1, 6),
        2 => random.from_to(7, 20),
        _ => random.from_to(21, MOST_FIELDS as u64 - 1),
    };
    let (mut fields, mut bit) = (Vec::new(), 0);
    for _ in 0..count {
        let bits = fitting_width(random, bit);
        push(random, &mut fields, bits, bit);
        bit = (bit + bits) % 8;
    }
    if bit != 0 {
        push(random, &mut fields, 8 - bit, bit);
    }
    fields
}

/// A width that a field may have, and with which it makes no fault where it starts at this bit of its byte.
fn fitting_width(random: &mut Random, bit: u32) -> u32 {
    let fits = |bits: u32| if bits > 64 { bit == 0 } else { bit + bits <= 64 };
    if bit != 0 && random.percent(40) {
        return 8 - bit + 8 * random.below(4) as u32;
    }
    let bits = match random.below(2_000) {
        0 => LONGEST,
        1..=20 => random.pick(&LONG_WIDTHS),
        21..=500 => random.from_to(1, 64) as u32,
        _ => random.pick(&WIDTHS),
    };
    if fits(bits) {
        bits
    } else {
        64 - bit
    }
}

/// Any width, often one that no field may have.
pub fn any_width(random: &mut Random) -> u32 {
    match random.below(200) {
        0 => LONGEST,
        1..=3 => random.pick(&LONG_WIDTHS),
        4..=60 => random.pick(&WRONG_WIDTHS),
        61..=120 => random.from_to(1, 136) as u32,
        _ => random.pick(&WIDTHS),
    }
}

fn push(random: &mut Random, fields: &mut Vec<FieldBlock>, bits: u32, bit: u32) {
    let name = new_name(random, fields);
    fields.push(field(random, name, bits, bit == 0));
}

/// A field that breaks no rule of its own, of a width that a field may have.
pub fn field(random: &mut Random, name: String, bits: u32, on_boundary: bool) -> FieldBlock {
    let repr = match random.below(10) {
        0..=5 => 0,
        6..=7 if bits > 8 && bits % 8 == 0 && on_boundary => SLICE,
        _ => inferred(bits),
    };
    let mut made =
        FieldBlock { name, bits, repr, arg: 0, gen: random.below(3) as u8, default: DefaultItem::Absent, fixed: false };
    made.arg = match random.below(10) {
        0..=1 => made.held(),
        2 => CODE,
        3..=6 if bits == 1 => BOOL,
        _ => 0,
    };
    if random.percent(65) {
        made.default = right_default(random, &made);
        made.fixed = matches!(made.default, DefaultItem::Number(_)) && random.percent(25);
    }
    made
}

fn right_default(random: &mut Random, field: &FieldBlock) -> DefaultItem {
    if field.held() != SLICE {
        return DefaultItem::Number(random.up_to(largest(field.bits)));
    }
    match field.bits as usize / 8 {
        count if count <= MOST_DEFAULT_BYTES => DefaultItem::Bytes(bytes(random, count)),
        _ => DefaultItem::Absent,
    }
}

/// Any default, of any kind.
pub fn any_default(random: &mut Random, bits: u32) -> DefaultItem {
    match random.below(8) {
        0 => DefaultItem::Absent,
        1 => DefaultItem::Bool(random.percent(50)),
        2 => DefaultItem::Bytes(bytes(random, (bits as usize / 8).min(MOST_DEFAULT_BYTES))),
        3 => {
            let near = random.near(u64::from(bits) / 8);
            DefaultItem::Bytes(bytes(random, near.min(9) as usize))
        }
        4 => DefaultItem::Number(random.number()),
        5 => DefaultItem::Number(random.from_to(0, 3)),
        _ => DefaultItem::Number(random.near(largest(bits))),
    }
}

pub fn bytes(random: &mut Random, count: usize) -> Vec<u8> {
    let zeros = random.percent(10);
    (0..count).map(|_| if zeros { 0 } else { random.draw() as u8 }).collect()
}

/// The code of the type that is inferred from a width.
pub fn inferred(bits: u32) -> u8 {
    match bits {
        0..=8 => 1,
        9..=16 => 2,
        17..=32 => 3,
        33..=64 => 4,
        _ => SLICE,
    }
}

/// A name that no field has yet.
pub fn new_name(random: &mut Random, fields: &[FieldBlock]) -> String {
    loop {
        let name = any_name(random);
        if name != "type" && fields.iter().all(|field| field.name != name) {
            return name;
        }
    }
}

/// Any name, mostly a short one.
pub fn any_name(random: &mut Random) -> String {
    let length = match random.below(20) {
        0..=7 => return random.pick(&NAMES).to_string(),
        8 => 64,
        9 => random.from_to(1, 64),
        _ => random.from_to(1, 4),
    };
    (0..length).map(|_| char::from(random.from_to(33, 126) as u8)).collect()
}

impl FieldBlock {
    /// The code of its type, stated or inferred.
    pub fn held(&self) -> u8 {
        match self.repr {
            0 => inferred(self.bits),
            stated => stated,
        }
    }
}
