//! Changes of conditions.

use crate::random::Random;
use crate::sheet::{CondBlock, End, Sheet, MOST_CONDS, MOST_FIELDS, MOST_RANGES};

use super::super::conds::{any_range, entry, MOST_ENTRIES};
use super::super::fields::{field, new_name};
use super::super::{largest, wild};
use super::{any, slice_name};

fn with_cond(random: &mut Random, sheet: &mut Sheet, change: impl Fn(&mut Random, &mut CondBlock)) -> bool {
    any(random, &mut sheet.conds).map(|cond| change(random, cond)).is_some()
}

pub fn name(random: &mut Random, sheet: &mut Sheet) -> bool {
    let name = wild::name_of(random, &sheet.fields);
    with_cond(random, sheet, |_, cond| cond.name.clone_from(&name))
}

pub fn name_of_slice(random: &mut Random, sheet: &mut Sheet) -> bool {
    let Some(name) = slice_name(random, sheet) else { return false };
    with_cond(random, sheet, |_, cond| cond.name.clone_from(&name))
}

pub fn range(random: &mut Random, sheet: &mut Sheet) -> bool {
    with_cond(random, sheet, |random, cond| {
        let Some(range) = any(random, &mut cond.ranges) else { return };
        match (random.below(3), &mut range.start, &mut range.end) {
            (0, Some(start), _) => *start = random.near(*start),
            (1, _, End::Included(end) | End::Excluded(end)) => *end = random.near(*end),
            (2, _, End::Included(end)) => range.end = End::Excluded(*end),
            (2, _, End::Excluded(end)) => range.end = End::Included(*end),
            _ => range.start = None,
        }
    })
}

pub fn range_added(random: &mut Random, sheet: &mut Sheet) -> bool {
    let bits = sheet.fields.iter().map(|field| field.bits).max().unwrap_or(8);
    with_cond(random, sheet, |random, cond| {
        if cond.ranges.len() < MOST_RANGES {
            let at = random.below(cond.ranges.len() + 1);
            cond.ranges.insert(at, any_range(random, largest(bits)));
        }
    })
}

pub fn repeated(random: &mut Random, sheet: &mut Sheet) -> bool {
    let room = sheet.conds.len() < MOST_CONDS;
    let Some(entry) = any(random, &mut sheet.conds).filter(|_| room).cloned() else { return false };
    let at = random.below(sheet.conds.len() + 1);
    sheet.conds.insert(at, entry);
    true
}

/// About as many entries as there may be, now and then as many as a sheet has room for.
pub fn many_entries(random: &mut Random, sheet: &mut Sheet) -> bool {
    let most = if random.percent(5) { MOST_CONDS } else { random.near(MOST_ENTRIES as u64 + 1) as usize };
    while sheet.conds.len() < most && sheet.fields.len() < MOST_FIELDS {
        let (name, bits) = (new_name(random, &sheet.fields), 8 * random.from_to(1, 3) as u32);
        let added = field(random, name, bits, false);
        sheet.conds.push(entry(random, &added));
        sheet.fields.push(added);
    }
    true
}
