//! Lengths, and trees that state them.

use crate::random::Random;
use crate::sheet::{DefaultItem, FieldBlock, Form, LengthBlock, Node, Operator, Sheet, MOST_NODES};

use super::fields::{BOOL, CODE, SLICE};
use super::largest;

/// The most bytes that a length may be.
pub const LIMIT: u64 = 4_194_303;

/// The operators of the forms stand here more often than the others.
const OPERATORS: [Operator; 8] = [
    Operator::Add,
    Operator::Add,
    Operator::Add,
    Operator::Multiply,
    Operator::Multiply,
    Operator::Multiply,
    Operator::Subtract,
    Operator::Divide,
];

/// Adds lengths that break no rule to a sheet, in any order of blocks.
pub fn add(random: &mut Random, sheet: &mut Sheet) {
    let slots: &[u8] = random.pick(&[&[0][..], &[1], &[2], &[0, 1], &[0, 2], &[1, 0], &[2, 0]]);
    for slot in slots {
        let length = length(random, sheet, *slot);
        sheet.lengths.push(length);
    }
}

fn length(random: &mut Random, sheet: &mut Sheet, slot: u8) -> LengthBlock {
    let undefined = LengthBlock { slot, name: String::new(), form: Form::Undefined };
    if random.percent(12) {
        return undefined;
    }
    let header = sheet.fields.iter().map(|field| u64::from(field.bits)).sum::<u64>() / 8;
    let Some(field) = serving(random, &mut sheet.fields, slot) else { return undefined };
    for _ in 0..8 {
        let form = form(random, largest(field.bits), header);
        if serves(random, field, &form, slot, header) {
            return LengthBlock { slot, name: field.name.clone(), form: stated(random, form) };
        }
    }
    undefined
}

/// A number field, changed so that a length may be worked out of it. Of many bits few lengths can.
fn serving<'a>(random: &mut Random, fields: &'a mut [FieldBlock], slot: u8) -> Option<&'a mut FieldBlock> {
    let wide = random.percent(5);
    let serves = |field: &FieldBlock| field.held() != SLICE && (wide || field.bits <= 22);
    let count = fields.iter().filter(|field| serves(field)).count();
    let chosen = random.below(count.max(1));
    let field = fields.iter_mut().filter(|field| serves(field)).nth(chosen)?;
    field.gen = 1;
    if field.arg == BOOL || field.arg == CODE {
        field.arg = 0;
    }
    field.fixed &= slot == 0;
    Some(field)
}

/// A form whose length of the largest value is often at the limit.
fn form(random: &mut Random, most: u64, header: u64) -> Form {
    let times = match random.below(12) {
        0 => 0,
        1..=2 => LIMIT / most,
        3..=4 => header.max(1),
        _ => random.from_to(1, 8),
    };
    let left = LIMIT.saturating_sub(most.saturating_mul(times));
    let plus = match random.below(5) {
        0 => left,
        1 => header,
        2 => 0,
        _ => random.up_to(left),
    };
    match random.below(6) {
        0 => Form::X,
        1 => Form::Plus(if random.percent(50) { LIMIT.saturating_sub(most) } else { plus }),
        2 => Form::Times(times),
        3 => Form::PlusTimes(random.from_to(0, 9), times),
        4 => Form::PlusTimes(LIMIT.checked_div(times).unwrap_or(plus).saturating_sub(most), times),
        _ => Form::TimesPlus(times, plus),
    }
}

/// Whether the form breaks no rule on the field. For the header the default is set so that it gives enough.
fn serves(random: &mut Random, field: &mut FieldBlock, form: &Form, slot: u8, header: u64) -> bool {
    let most = largest(field.bits);
    let Some(longest) = forward(form, most).filter(|length| *length <= LIMIT) else { return false };
    if slot == 0 {
        let enough = |x: u64| forward(form, x).is_some_and(|length| length >= header);
        let value = if random.percent(60) { least(most, enough) } else { most };
        field.default = DefaultItem::Number(value);
    }
    slot != 0 || longest >= header
}

/// The least number for which a test holds that holds of all from there on, and of `most`.
fn least(most: u64, holds: impl Fn(u64) -> bool) -> u64 {
    let (mut low, mut high) = (0, most);
    while low < high {
        let middle = low + (high - low) / 2;
        if holds(middle) {
            high = middle;
        } else {
            low = middle + 1;
        }
    }
    low
}

fn forward(form: &Form, x: u64) -> Option<u64> {
    match form {
        Form::Plus(a) => x.checked_add(*a),
        Form::Times(m) => x.checked_mul(*m),
        Form::PlusTimes(a, m) => x.checked_add(*a)?.checked_mul(*m),
        Form::TimesPlus(m, a) => x.checked_mul(*m)?.checked_add(*a),
        _ => Some(x),
    }
}

/// The form as it is, or as a tree.
fn stated(random: &mut Random, form: Form) -> Form {
    if random.percent(60) {
        return form;
    }
    let mut nodes = loose_nodes(random);
    match form {
        Form::Plus(a) => beside(random, &mut nodes, None, Operator::Add, a),
        Form::Times(m) => beside(random, &mut nodes, None, Operator::Multiply, m),
        Form::PlusTimes(a, m) => {
            beside(random, &mut nodes, None, Operator::Add, a);
            let inner = nodes.len() - 1;
            beside(random, &mut nodes, Some(inner), Operator::Multiply, m);
        }
        Form::TimesPlus(m, a) => {
            beside(random, &mut nodes, None, Operator::Multiply, m);
            let inner = nodes.len() - 1;
            beside(random, &mut nodes, Some(inner), Operator::Add, a);
        }
        _ => nodes.push(Node::Field),
    }
    Form::Tree(nodes)
}

/// Adds a number, and an operation on it and an earlier node, or the field, in either order.
fn beside(random: &mut Random, nodes: &mut Vec<Node>, earlier: Option<usize>, operator: Operator, number: u64) {
    let operand = earlier.unwrap_or_else(|| {
        nodes.push(Node::Field);
        nodes.len() - 1
    }) as u8;
    nodes.push(Node::Number(number));
    let number = nodes.len() as u8 - 1;
    let (left, right) = if random.percent(50) { (operand, number) } else { (number, operand) };
    nodes.push(Node::Operation { operator, left, right });
}

/// Nodes that nothing reaches, mostly none.
fn loose_nodes(random: &mut Random) -> Vec<Node> {
    let count = if random.percent(70) { 0 } else { random.below(MOST_NODES - 5) };
    nodes(random, count)
}

/// A table of any nodes.
pub fn nodes(random: &mut Random, count: usize) -> Vec<Node> {
    (0..count).map(|index| node(random, index)).collect()
}

/// Any node that may stand at this index.
pub fn node(random: &mut Random, index: usize) -> Node {
    match random.below(if index == 0 { 4 } else { 10 }) {
        0..=1 => Node::Field,
        2..=3 => Node::Number(random.number()),
        _ => Node::Operation {
            operator: random.pick(&OPERATORS),
            left: random.below(index) as u8,
            right: random.below(index) as u8,
        },
    }
}

/// Any form, of any numbers.
pub fn any_form(random: &mut Random) -> Form {
    match random.below(9) {
        0 => Form::Undefined,
        1 => Form::X,
        2 => Form::Plus(random.number()),
        3 => Form::Times(random.number()),
        4 => Form::PlusTimes(random.number(), random.number()),
        5 => Form::TimesPlus(random.number(), random.number()),
        6 => {
            let count = random.from_to(1, 5) as usize;
            Form::Tree(nodes(random, count))
        }
        7 => {
            let count = random.from_to(1, MOST_NODES as u64) as usize;
            Form::Tree(nodes(random, count))
        }
        _ => {
            let form = Form::TimesPlus(random.from_to(0, 8), random.number());
            stated(random, form)
        }
    }
}
