//! A question and its answer as a record of 64 bytes (README.md).

use super::{numbers, Given, Outcome, Question};

pub const RECORD: usize = 64;

/// The longest name of a type that a record has room for.
pub const LONGEST_NAME: usize = 32;

impl Question {
    /// The question and its answer as a record.
    pub fn record(&self) -> [u8; RECORD] {
        let (kind, codes, inputs) = self.parts();
        let (outcome, given) = match self.outcome() {
            Outcome::None => (0, Given::default()),
            Outcome::Given(given) => (1, given),
            Outcome::Panics => (2, Given::default()),
        };
        let mut record = [0; RECORD];
        record[0] = kind;
        record[1..5].copy_from_slice(&codes);
        put(&mut record[8..40], &inputs);
        if let Question::TypeName { name } = self {
            record[8..][..name.len()].copy_from_slice(name.as_bytes());
        }
        record[40] = outcome;
        record[41..43].copy_from_slice(&given.codes);
        put(&mut record[48..], &given.numbers);
        record
    }

    /// Kind, small codes and numbers.
    fn parts(&self) -> (u8, [u8; 4], [u64; 4]) {
        match self {
            Question::Byte { number } => (1, [0; 4], [*number, 0, 0, 0]),
            Question::TypeName { name } => (2, [name.len() as u8, 0, 0, 0], [0; 4]),
            Question::MaxValue { width } => (3, [0; 4], [*width, 0, 0, 0]),
            Question::NextPos { start, len } => (4, [0; 4], [*start, *len, 0, 0]),
            Question::Exec { form, x } => (5, [form.code, 0, 0, 0], [form.first, form.second, *x, 0]),
            Question::ReverseExec { form, y } => (6, [form.code, 0, 0, 0], [form.first, form.second, *y, 0]),
            Question::UpdateEnd { range, largest } => {
                let ([start, end], [first, last]) = numbers(range);
                (7, [start, end, 0, 0], [first, last, *largest, 0])
            }
            Question::IsEmpty { range } => {
                let ([start, end], [first, last]) = numbers(range);
                (8, [start, end, 0, 0], [first, last, 0, 0])
            }
            Question::Intersect { one, other } => {
                let ([start, end], [first, last]) = numbers(one);
                let ([other_start, other_end], [other_first, other_last]) = numbers(other);
                (9, [start, end, other_start, other_end], [first, last, other_first, other_last])
            }
        }
    }
}

fn put(part: &mut [u8], numbers: &[u64]) {
    let parts = part.chunks_exact_mut(8);
    parts.zip(numbers).for_each(|(part, number)| part.copy_from_slice(&number.to_be_bytes()));
}
