//! Sheets as values, written to blocks and read from them by the layout of docs/RULES.md.
//!
//! What is written passes step 1, as long as names, counts and codes are those that the layout has.

pub const BLOCK: usize = 512;
pub const MOST_FIELDS: usize = 64;
pub const MOST_CONDS: usize = 32;
pub const MOST_NODES: usize = 32;
pub const MOST_RANGES: usize = 24;
pub const MOST_DEFAULT_BYTES: usize = 424;

/// The names of the length slots.
pub const SLOTS: [&str; 3] = ["header_len", "payload_len", "packet_len"];

/// Where the name stands in a block.
pub const NAME: usize = 2;
/// Where the bytes of a default stand in a field's block.
pub const DEFAULT_BYTES: usize = 86;
const NODES: usize = 88;
const NODE: usize = 12;
const RANGES: usize = 68;
const RANGE: usize = 18;
const CHECK: usize = 510;

#[derive(Clone, Debug, Default, PartialEq, Eq)]
pub struct Sheet {
    pub fields: Vec<FieldBlock>,
    pub lengths: Vec<LengthBlock>,
    pub conds: Vec<CondBlock>,
}

#[derive(Clone, Debug, PartialEq, Eq)]
pub struct FieldBlock {
    pub name: String,
    pub bits: u32,
    /// 0 absent, 1 u8, 2 u16, 3 u32, 4 u64, 5 byte slice, 6 bool.
    pub repr: u8,
    /// The same codes, and 7 code.
    pub arg: u8,
    /// 0 absent, 1 false, 2 true.
    pub gen: u8,
    pub default: DefaultItem,
    /// Never where the default is absent.
    pub fixed: bool,
}

#[derive(Clone, Debug, PartialEq, Eq)]
pub enum DefaultItem {
    Absent,
    Number(u64),
    Bytes(Vec<u8>),
    Bool(bool),
}

#[derive(Clone, Debug, PartialEq, Eq)]
pub struct LengthBlock {
    pub slot: u8,
    /// Empty exactly where the form is undefined.
    pub name: String,
    pub form: Form,
}

/// How a length is stated; the numbers in the order of the block.
#[derive(Clone, Debug, PartialEq, Eq)]
pub enum Form {
    Undefined,
    X,
    Plus(u64),
    Times(u64),
    PlusTimes(u64, u64),
    TimesPlus(u64, u64),
    /// Each operator stands after its children; the root is the last.
    Tree(Vec<Node>),
}

#[derive(Clone, Copy, Debug, PartialEq, Eq)]
pub enum Node {
    Number(u64),
    Field,
    Operation { operator: Operator, left: u8, right: u8 },
}

#[derive(Clone, Copy, Debug, PartialEq, Eq)]
pub enum Operator {
    Add = 2,
    Subtract = 3,
    Multiply = 4,
    Divide = 5,
}

#[derive(Clone, Debug, PartialEq, Eq)]
pub struct CondBlock {
    pub name: String,
    pub ranges: Vec<Range>,
}

#[derive(Clone, Copy, Debug, PartialEq, Eq)]
pub struct Range {
    pub start: Option<u64>,
    pub end: End,
}

#[derive(Clone, Copy, Debug, PartialEq, Eq)]
pub enum End {
    None,
    Included(u64),
    Excluded(u64),
}

impl Sheet {
    /// How many blocks there are, of all kinds.
    pub fn blocks(&self) -> usize {
        self.fields.len() + self.lengths.len() + self.conds.len()
    }

    /// The index of the first block of a condition.
    pub fn first_cond(&self) -> usize {
        self.fields.len() + self.lengths.len()
    }

    pub fn to_bytes(&self) -> Vec<u8> {
        let mut bytes = vec![0; self.blocks() * BLOCK];
        let mut blocks = bytes.chunks_exact_mut(BLOCK);
        self.fields.iter().zip(&mut blocks).for_each(|(field, block)| field.write(block));
        self.lengths.iter().zip(&mut blocks).for_each(|(length, block)| length.write(block));
        self.conds.iter().zip(&mut blocks).for_each(|(cond, block)| cond.write(block));
        bytes.chunks_exact_mut(BLOCK).for_each(write_check);
        bytes
    }

    /// The sheet of bytes that pass step 1.
    pub fn from_bytes(bytes: &[u8]) -> Sheet {
        let mut sheet = Sheet::default();
        for block in bytes.chunks_exact(BLOCK) {
            match block[0] {
                b'F' => sheet.fields.push(FieldBlock::read(block)),
                b'L' => sheet.lengths.push(LengthBlock::read(block)),
                _ => sheet.conds.push(CondBlock::read(block)),
            }
        }
        sheet
    }
}

impl FieldBlock {
    fn write(&self, block: &mut [u8]) {
        write_head(block, b'F', &self.name);
        put(block, 66, &self.bits.to_be_bytes());
        put(block, 70, &[self.repr, self.arg, self.gen, self.default.kind(), self.fixed.into()]);
        match &self.default {
            DefaultItem::Absent => {}
            DefaultItem::Number(number) => put(block, 76, &number.to_be_bytes()),
            DefaultItem::Bool(value) => put(block, 76, &u64::from(*value).to_be_bytes()),
            DefaultItem::Bytes(bytes) => {
                put(block, 84, &(bytes.len() as u16).to_be_bytes());
                put(block, DEFAULT_BYTES, bytes);
            }
        }
    }

    fn read(block: &[u8]) -> FieldBlock {
        let default = match block[73] {
            0 => DefaultItem::Absent,
            1 => DefaultItem::Number(number(block, 76)),
            2 => {
                let count = usize::from(block[84]) << 8 | usize::from(block[85]);
                DefaultItem::Bytes(block[DEFAULT_BYTES..][..count].to_vec())
            }
            _ => DefaultItem::Bool(number(block, 76) == 1),
        };
        FieldBlock {
            name: read_name(block),
            bits: (number(block, 66) >> 32) as u32,
            repr: block[70],
            arg: block[71],
            gen: block[72],
            default,
            fixed: block[74] == 1,
        }
    }
}

impl DefaultItem {
    fn kind(&self) -> u8 {
        match self {
            DefaultItem::Absent => 0,
            DefaultItem::Number(_) => 1,
            DefaultItem::Bytes(_) => 2,
            DefaultItem::Bool(_) => 3,
        }
    }
}

impl LengthBlock {
    fn write(&self, block: &mut [u8]) {
        write_head(block, b'L', &self.name);
        let (code, first, second) = self.form.numbers();
        put(block, 66, &[self.slot, code]);
        put(block, 68, &first.to_be_bytes());
        put(block, 76, &second.to_be_bytes());
        if let Form::Tree(nodes) = &self.form {
            block[84] = nodes.len() as u8;
            let parts = block[NODES..].chunks_exact_mut(NODE);
            nodes.iter().zip(parts).for_each(|(node, part)| node.write(part));
        }
    }

    fn read(block: &[u8]) -> LengthBlock {
        let (first, second) = (number(block, 68), number(block, 76));
        let form = match block[67] {
            0 => Form::Undefined,
            1 => Form::X,
            2 => Form::Plus(first),
            3 => Form::Times(first),
            4 => Form::PlusTimes(first, second),
            5 => Form::TimesPlus(first, second),
            _ => Form::Tree(block[NODES..].chunks_exact(NODE).take(block[84].into()).map(Node::read).collect()),
        };
        LengthBlock { slot: block[66], name: read_name(block), form }
    }
}

impl Form {
    /// The code, and the two numbers of the block.
    fn numbers(&self) -> (u8, u64, u64) {
        match self {
            Form::Undefined => (0, 0, 0),
            Form::X => (1, 0, 0),
            Form::Plus(a) => (2, *a, 0),
            Form::Times(m) => (3, *m, 0),
            Form::PlusTimes(a, m) => (4, *a, *m),
            Form::TimesPlus(m, a) => (5, *m, *a),
            Form::Tree(_) => (6, 0, 0),
        }
    }
}

impl Node {
    fn write(&self, part: &mut [u8]) {
        match self {
            Node::Number(number) => put(part, 4, &number.to_be_bytes()),
            Node::Field => part[0] = 1,
            Node::Operation { operator, left, right } => put(part, 0, &[*operator as u8, *left, *right]),
        }
    }

    fn read(part: &[u8]) -> Node {
        let operator = match part[0] {
            0 => return Node::Number(number(part, 4)),
            1 => return Node::Field,
            2 => Operator::Add,
            3 => Operator::Subtract,
            4 => Operator::Multiply,
            _ => Operator::Divide,
        };
        Node::Operation { operator, left: part[1], right: part[2] }
    }
}

impl CondBlock {
    fn write(&self, block: &mut [u8]) {
        write_head(block, b'C', &self.name);
        block[66] = self.ranges.len() as u8;
        let parts = block[RANGES..].chunks_exact_mut(RANGE);
        self.ranges.iter().zip(parts).for_each(|(range, part)| range.write(part));
    }

    fn read(block: &[u8]) -> CondBlock {
        let parts = block[RANGES..].chunks_exact(RANGE).take(block[66].into());
        CondBlock { name: read_name(block), ranges: parts.map(Range::read).collect() }
    }

    /// Whether it has a range whose text overflows in the original, which works out start + 1 for it.
    pub fn text_overflows(&self) -> bool {
        self.ranges.iter().any(|range| range.start == Some(u64::MAX) && matches!(range.end, End::Excluded(_)))
    }
}

impl Range {
    fn write(&self, part: &mut [u8]) {
        let (end_kind, end) = match self.end {
            End::None => (0, 0),
            End::Included(number) => (1, number),
            End::Excluded(number) => (2, number),
        };
        put(part, 0, &[self.start.is_some().into(), end_kind]);
        put(part, 2, &self.start.unwrap_or(0).to_be_bytes());
        put(part, 10, &end.to_be_bytes());
    }

    fn read(part: &[u8]) -> Range {
        let end = match part[1] {
            0 => End::None,
            1 => End::Included(number(part, 10)),
            _ => End::Excluded(number(part, 10)),
        };
        Range { start: (part[0] == 1).then(|| number(part, 2)), end }
    }
}

fn write_head(block: &mut [u8], kind: u8, name: &str) {
    put(block, 0, &[kind, name.len() as u8]);
    put(block, NAME, name.as_bytes());
}

fn read_name(block: &[u8]) -> String {
    let bytes = &block[NAME..][..block[1].into()];
    bytes.iter().map(|byte| char::from(*byte)).collect()
}

/// Bytes 510 and 511 are what the ones' complement sum of the other words lacks (RFC 1071).
fn write_check(block: &mut [u8]) {
    let words = block[..CHECK].chunks_exact(2).map(|word| u64::from(word[0]) << 8 | u64::from(word[1]));
    let mut sum: u64 = words.sum();
    while sum > 0xffff {
        sum = (sum >> 16) + (sum & 0xffff);
    }
    put(block, CHECK, &(0xffff - sum as u16).to_be_bytes());
}

fn put(block: &mut [u8], at: usize, bytes: &[u8]) {
    block[at..][..bytes.len()].copy_from_slice(bytes);
}

fn number(block: &[u8], at: usize) -> u64 {
    block[at..][..8].iter().fold(0, |high, byte| high << 8 | u64::from(*byte))
}

#[cfg(test)]
mod tests {
    use super::*;
    use crate::generate;

    #[test]
    fn what_is_written_is_read() {
        for index in 0..2_000 {
            let sheet = generate::sheet(3, index);
            assert_eq!(Sheet::from_bytes(&sheet.to_bytes()), sheet);
        }
    }

    #[test]
    fn a_sheet_has_as_many_blocks_of_each_kind_as_it_may() {
        for index in 0..20_000 {
            let Sheet { fields, lengths, conds } = generate::sheet(3, index);
            assert!(fields.len() <= MOST_FIELDS && lengths.len() <= SLOTS.len() && conds.len() <= MOST_CONDS);
        }
    }
}
