//! A sheet as the original takes it.

use std::ops::Bound;

use super::ast::{AlgExpr, AlgOp, Arg, BuiltinTypes, CondBounds, DefaultVal, UsableAlgExpr};
use crate::sheet::{CondBlock, DefaultItem, End, FieldBlock, Form, LengthBlock, Node, Operator, Range, Sheet};

/// What the original's functions are called with.
#[derive(Clone)]
pub struct Inputs {
    pub fields: Vec<FieldInput>,
    /// In the order of the blocks.
    pub lengths: Vec<LengthInput>,
    pub conds: Vec<Entry>,
    /// How many blocks the sheet has.
    pub blocks: usize,
}

/// A name, and the arguments of `Field::new`.
#[derive(Clone)]
pub struct FieldInput {
    pub name: String,
    pub bit: u64,
    pub repr: Option<BuiltinTypes>,
    pub arg: Option<Arg>,
    pub default: Option<(DefaultVal, bool)>,
    pub gen: Option<bool>,
}

#[derive(Clone)]
pub struct LengthInput {
    pub slot: usize,
    pub(super) stated: Stated,
}

#[derive(Clone)]
pub(super) enum Stated {
    Undefined,
    Usable(UsableAlgExpr),
    Tree(AlgExpr),
}

/// A name and its ranges, as `Cond::from_cond_list` takes them.
pub type Entry = (String, Vec<CondBounds>);

/// A tree of 32 nodes of which none is shared has at most as many levels.
const LEVELS: u32 = 16;

impl Inputs {
    pub fn of(sheet: &Sheet) -> Inputs {
        Inputs {
            fields: sheet.fields.iter().map(field).collect(),
            lengths: sheet.lengths.iter().map(length).collect(),
            conds: sheet.conds.iter().map(cond).collect(),
            blocks: sheet.blocks(),
        }
    }
}

fn field(block: &FieldBlock) -> FieldInput {
    let value = match &block.default {
        DefaultItem::Absent => None,
        DefaultItem::Number(number) => Some(DefaultVal::Num(*number)),
        DefaultItem::Bytes(bytes) => Some(DefaultVal::Bytes(bytes.clone())),
        DefaultItem::Bool(value) => Some(DefaultVal::Bool(*value)),
    };
    FieldInput {
        name: block.name.clone(),
        bit: block.bits.into(),
        repr: builtin(block.repr),
        arg: match block.arg {
            7 => Some(Arg::Code("code".to_string())),
            code => builtin(code).map(Arg::BuiltinTypes),
        },
        default: value.map(|value| (value, block.fixed)),
        gen: match block.gen {
            0 => None,
            code => Some(code == 2),
        },
    }
}

fn builtin(code: u8) -> Option<BuiltinTypes> {
    match code {
        0 => None,
        1 => Some(BuiltinTypes::U8),
        2 => Some(BuiltinTypes::U16),
        3 => Some(BuiltinTypes::U32),
        4 => Some(BuiltinTypes::U64),
        5 => Some(BuiltinTypes::ByteSlice),
        _ => Some(BuiltinTypes::Bool),
    }
}

fn length(block: &LengthBlock) -> LengthInput {
    let name = block.name.clone();
    let stated = match &block.form {
        Form::Undefined => Stated::Undefined,
        Form::X => Stated::Usable(UsableAlgExpr::IdentOnly(name)),
        Form::Plus(a) => Stated::Usable(UsableAlgExpr::SimpleAdd(name, *a)),
        Form::Times(m) => Stated::Usable(UsableAlgExpr::SimpleMult(name, *m)),
        Form::PlusTimes(a, m) => Stated::Usable(UsableAlgExpr::AddMult(name, *a, *m)),
        Form::TimesPlus(m, a) => Stated::Usable(UsableAlgExpr::MultAdd(name, *m, *a)),
        Form::Tree(nodes) => Stated::Tree(tree(nodes, nodes.len() - 1, &name, LEVELS)),
    };
    LengthInput { slot: block.slot.into(), stated }
}

/// The tree below a node, with a copy of a shared node for each that shares it. As these copies double from level to
/// level, what lies below the last level is left out, and stands as the number 0.
fn tree(nodes: &[Node], index: usize, name: &str, levels: u32) -> AlgExpr {
    let (operator, left, right) = match nodes[index] {
        Node::Number(number) => return AlgExpr::Num(number),
        Node::Field => return AlgExpr::Ident(name.to_string()),
        Node::Operation { .. } if levels == 0 => return AlgExpr::Num(0),
        Node::Operation { operator, left, right } => (operator, left, right),
    };
    let operator = match operator {
        Operator::Add => AlgOp::Add,
        Operator::Subtract => AlgOp::Sub,
        Operator::Multiply => AlgOp::Mul,
        Operator::Divide => AlgOp::Div,
    };
    let child = |child: u8| Box::new(tree(nodes, child.into(), name, levels - 1));
    AlgExpr::Binary(child(left), operator, child(right))
}

fn cond(block: &CondBlock) -> Entry {
    (block.name.clone(), block.ranges.iter().map(bounds).collect())
}

fn bounds(range: &Range) -> CondBounds {
    CondBounds {
        start: range.start.map_or(Bound::Unbounded, Bound::Included),
        end: match range.end {
            End::None => Bound::Unbounded,
            End::Included(number) => Bound::Included(number),
            End::Excluded(number) => Bound::Excluded(number),
        },
    }
}
