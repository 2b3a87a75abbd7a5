//! The stored sheets of the tests (crates/test_stored/data/sheets), whose answers come from neither side.

use pktfmt_checked::Group;

use crate::original::{ask, Fault, Inputs, Refused, Step};
use crate::packing::unpacked;
use crate::sheet::{CondBlock, Sheet};

/// The groups that the original has too. In the file a group has its number in include/pktfmt.h, and 0 is a sheet that
/// is accepted.
const GROUPS: [Group; 4] = [Group::Field, Group::Header, Group::Length, Group::Cond];

/// A stored sheet and its answer.
pub struct Record {
    pub sheet: Vec<u8>,
    pub group: u8,
    pub number: u8,
    pub place: u8,
}

/// What came of holding the original against the file.
#[derive(Default)]
pub struct Outcome {
    pub agree: usize,
    /// Cond 4 of a range whose text overflows in the original.
    pub explained: usize,
    /// Refused by step 1, which the original does not have.
    pub skipped: usize,
    /// The index of each record that differs, and what the original answers.
    pub differ: Vec<(usize, String)>,
}

pub fn records(file: &[u8]) -> Vec<Record> {
    let (mut all, mut rest) = (Vec::new(), file);
    while let [p0, p1, s0, s1, group, number, place, t0, t1, tail @ ..] = rest {
        let (pack, tail) = tail.split_at(usize::from(u16::from_be_bytes([*p0, *p1])));
        let size = u16::from_be_bytes([*s0, *s1]).into();
        rest = &tail[usize::from(u16::from_be_bytes([*t0, *t1]))..];
        all.push(Record { sheet: unpacked(pack, size), group: *group, number: *number, place: *place });
    }
    all
}

pub fn hold(records: &[Record]) -> Outcome {
    let mut outcome = Outcome::default();
    for (index, record) in records.iter().enumerate() {
        if record.group == Group::Sheet as u8 {
            outcome.skipped += 1;
            continue;
        }
        let sheet = Sheet::from_bytes(&record.sheet);
        let answer = ask(Inputs::of(&sheet));
        if agrees(record, &answer) {
            outcome.agree += 1;
        } else if is_explained(record, &sheet, &answer) {
            outcome.explained += 1;
        } else {
            let words = answer.map_or_else(|fault| format!("{fault:?}"), |_| "accepted".to_string());
            outcome.differ.push((index, words));
        }
    }
    outcome
}

fn agrees<T>(record: &Record, answer: &Result<T, Fault>) -> bool {
    match answer {
        Ok(_) => record.group == 0,
        Err(Fault::Refused(Refused { group, number, place })) => {
            GROUPS.into_iter().any(|other| other as u8 == record.group && other.name() == *group)
                && u64::from(record.number) == *number
                && place.is_none_or(|place| place == usize::from(record.place))
        }
        Err(Fault::Panicked(_)) => false,
    }
}

/// Whether the original panics on a range that is cond 4 by the file.
fn is_explained<T>(record: &Record, sheet: &Sheet, answer: &Result<T, Fault>) -> bool {
    let cond_4 = (record.group, record.number) == (Group::Cond as u8, 4);
    let panics = matches!(answer, Err(Fault::Panicked(Step::Cond)));
    let entry = usize::from(record.place).checked_sub(sheet.first_cond()).and_then(|index| sheet.conds.get(index));
    cond_4 && panics && entry.is_some_and(CondBlock::text_overflows)
}
