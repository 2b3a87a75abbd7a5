//! Which questions are asked.

use std::ops::Bound;

use super::record::LONGEST_NAME;
use super::{Bounds, Form, Question};
use crate::random::Random;

/// Questions on both sides of each line, and others.
pub fn questions(random: &mut Random) -> Vec<Question> {
    let mut all = bytes_and_widths();
    all.extend(type_names(random));
    all.extend(positions(random));
    all.extend(forms(random));
    all.extend(ranges(random));
    all
}

fn bytes_and_widths() -> Vec<Question> {
    let numbers =
        [0, 1, 2, 127, 128, 254, 255, 256, 257, 511, 512, 65_535, 65_536, 1 << 32, 1 << 63, u64::MAX - 255, u64::MAX];
    let bytes = numbers.into_iter().map(|number| Question::Byte { number });
    let widths = (0..=70).chain([127, 128, 255, 256, 1 << 32, (1 << 32) + 8, 1 << 63, u64::MAX]);
    bytes.chain(widths.map(|width| Question::MaxValue { width })).collect()
}

fn type_names(random: &mut Random) -> Vec<Question> {
    const NAMES: [&str; 6] = ["u8", "u16", "u32", "u64", "&[u8]", "bool"];
    let mut names: Vec<String> = NAMES.map(String::from).to_vec();
    names.extend(
        ["", "u", "U8", "u128", "i8", "[u8]", "&[u8", "&[u8] ", " u8", "Bool", "boo", "bools", "usize", "u08"]
            .map(String::from),
    );
    for name in NAMES {
        names.extend((0..name.len()).map(|end| name[..end].to_string()));
        names.extend((0..20).map(|_| near_name(random, name)));
    }
    names.push("u8".repeat(LONGEST_NAME / 2));
    names.into_iter().map(|name| Question::TypeName { name }).collect()
}

/// A name with one byte changed, taken away or added.
fn near_name(random: &mut Random, name: &str) -> String {
    let mut bytes = name.as_bytes().to_vec();
    let at = random.below(bytes.len());
    let byte = random.from_to(33, 126) as u8;
    match random.below(3) {
        0 => bytes[at] = byte,
        1 => drop(bytes.remove(at)),
        _ => bytes.insert(at, byte),
    }
    bytes.into_iter().map(char::from).collect()
}

fn positions(random: &mut Random) -> Vec<Question> {
    let edges =
        [0, 1, 7, 8, 9, 57, 63, 64, 65, 33_554_424, 1 << 32, u64::MAX - 64, u64::MAX - 8, u64::MAX - 1, u64::MAX];
    let pairs = edges.iter().flat_map(|start| edges.map(|len| (*start, len)));
    let mut all: Vec<Question> = pairs.map(|(start, len)| Question::NextPos { start, len }).collect();
    all.extend((0..200).map(|_| Question::NextPos { start: random.number(), len: random.number() }));
    all.extend((0..100).map(|_| {
        let start = random.number();
        Question::NextPos { start, len: random.near(u64::MAX - start) }
    }));
    all
}

fn forms(random: &mut Random) -> Vec<Question> {
    let mut all = Vec::new();
    for code in 1..=5 {
        for _ in 0..120 {
            let form = Form::with_code(random, code);
            let x = random.number();
            all.push(Question::Exec { form, x });
            all.push(Question::ReverseExec { form, y: random.number() });
            let length = form.expr().exec(x).unwrap_or(x);
            all.push(Question::ReverseExec { form, y: length });
            all.push(Question::ReverseExec { form, y: random.near(length) });
        }
    }
    all
}

impl Form {
    /// A form of any numbers, often small ones, with zeros for those that it does not have.
    pub fn any(random: &mut Random) -> Form {
        let code = random.from_to(1, 5) as u8;
        Form::with_code(random, code)
    }

    fn with_code(random: &mut Random, code: u8) -> Form {
        let mut number = || if random.percent(50) { random.from_to(0, 9) } else { random.number() };
        let first = if code == 1 { 0 } else { number() };
        let second = if code < 4 { 0 } else { number() };
        Form { code, first, second }
    }
}

fn ranges(random: &mut Random) -> Vec<Question> {
    let edges = [0, 1, 255, 256, u64::MAX - 1, u64::MAX];
    let mut all = Vec::new();
    for start in bounds_of(&edges) {
        for end in bounds_of(&edges) {
            let range = (start, end);
            all.push(Question::IsEmpty { range });
            let largest = random.pick(&[0, 1, 254, 255, 256, u64::MAX - 1, u64::MAX]);
            all.push(Question::UpdateEnd { range, largest });
            all.push(Question::Intersect { one: range, other: any_bounds(random) });
        }
    }
    for _ in 0..300 {
        let (one, other) = (any_bounds(random), any_bounds(random));
        all.push(Question::IsEmpty { range: one });
        all.push(Question::Intersect { one, other });
        let largest = random.number();
        all.push(Question::UpdateEnd { range: (one.0, bound(random, largest)), largest });
    }
    all
}

/// No bound, and both kinds at each number.
fn bounds_of(numbers: &[u64]) -> Vec<Bound<u64>> {
    let both = numbers.iter().flat_map(|number| [Bound::Included(*number), Bound::Excluded(*number)]);
    [Bound::Unbounded].into_iter().chain(both).collect()
}

/// Any range, often one that is about to be empty.
fn any_bounds(random: &mut Random) -> Bounds {
    let about = random.number();
    (bound(random, about), bound(random, about))
}

fn bound(random: &mut Random, about: u64) -> Bound<u64> {
    let number = if random.percent(70) { random.near(about) } else { random.number() };
    random.pick(&[Bound::Unbounded, Bound::Included(number), Bound::Excluded(number), Bound::Included(about)])
}
