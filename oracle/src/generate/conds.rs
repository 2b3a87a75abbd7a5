//! Conditions and their ranges.

use crate::random::Random;
use crate::sheet::{CondBlock, End, FieldBlock, Range, Sheet, MOST_RANGES};

use super::fields::SLICE;
use super::largest;

/// The most entries that a sheet may have.
pub const MOST_ENTRIES: usize = 8;

/// Adds entries that break no rule to a sheet.
pub fn add(random: &mut Random, sheet: &mut Sheet) {
    let mut fields: Vec<&FieldBlock> = sheet.fields.iter().filter(|field| field.held() != SLICE).collect();
    random.shuffle(&mut fields);
    let count = if random.percent(90) { random.from_to(1, 3) } else { random.from_to(4, MOST_ENTRIES as u64) };
    let entries = fields.iter().take(count as usize).map(|field| entry(random, field));
    sheet.conds = entries.collect();
}

/// An entry of a field.
pub fn entry(random: &mut Random, field: &FieldBlock) -> CondBlock {
    let count = match random.weighted(&[10, 80, 10]) {
        0 => 0,
        1 => random.from_to(1, 4),
        _ => random.from_to(5, MOST_RANGES as u64),
    };
    CondBlock { name: field.name.clone(), ranges: ranges(random, largest(field.bits), count as usize) }
}

/// Up to so many ranges that do not meet, in any order, each with a value of the field.
fn ranges(random: &mut Random, most: u64, count: usize) -> Vec<Range> {
    let mut ends: Vec<u64> = (0..2 * count).map(|_| random.up_to(most)).collect();
    if random.percent(30) {
        let first = random.up_to(most);
        ends = (0..2 * count as u64).map(|step| first.saturating_add(step / 2).min(most)).collect();
    }
    ends.sort_unstable();
    let mut ranges = Vec::new();
    let mut next = Some(0);
    for pair in ends.chunks_exact(2) {
        let Some(least) = next else { break };
        if pair[1] < least {
            continue;
        }
        let first = pair[0].max(least);
        ranges.push(stated(random, first, pair[1], most));
        next = pair[1].checked_add(1).filter(|least| *least <= most);
    }
    random.shuffle(&mut ranges);
    ranges
}

/// One of the ways to state a range.
fn stated(random: &mut Random, first: u64, last: u64, most: u64) -> Range {
    let start = if first == 0 && random.percent(50) { None } else { Some(first) };
    let past = random.from_to(last, u64::MAX);
    let end = match random.below(6) {
        0 if last == most => End::None,
        1 if last == most => End::Included(past),
        2 if last == most && past > last => End::Excluded(past),
        3..=4 if last < u64::MAX => End::Excluded(last + 1),
        _ => End::Included(last),
    };
    Range { start, end }
}

/// Any range, often about a field's largest value.
pub fn any_range(random: &mut Random, most: u64) -> Range {
    let start = (!random.percent(20)).then(|| about(random, most));
    let end = match random.below(5) {
        0 => End::None,
        1..=2 => End::Included(about(random, most)),
        _ => End::Excluded(about(random, most)),
    };
    Range { start, end }
}

fn about(random: &mut Random, most: u64) -> u64 {
    match random.below(4) {
        0 => random.near(most),
        1 => random.near(u64::MAX),
        2 => random.up_to(most),
        _ => random.number(),
    }
}
