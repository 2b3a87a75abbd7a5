//! Sheets of all shapes, every one of which passes step 1.

mod change;
mod conds;
mod fields;
mod lengths;
mod wild;

use crate::random::Random;
use crate::sheet::Sheet;

pub use fields::{any_name as name, bytes};

/// Sheet `index` of a seed: one that should be accepted, such a one with an item changed, or one of any items.
pub fn sheet(seed: u64, index: u64) -> Sheet {
    let random = &mut Random::new(seed, index);
    match random.weighted(&[30, 56, 14]) {
        0 => good(random),
        1 => changed(random),
        _ => wild::sheet(random),
    }
}

/// A sheet that breaks no rule.
fn good(random: &mut Random) -> Sheet {
    let mut sheet = Sheet { fields: fields::header(random), ..Sheet::default() };
    if random.percent(60) {
        lengths::add(random, &mut sheet);
    }
    if random.percent(60) {
        conds::add(random, &mut sheet);
    }
    sheet
}

/// A sheet that breaks no rule, with one item changed, now and then two.
fn changed(random: &mut Random) -> Sheet {
    let mut sheet = good(random);
    change::one(random, &mut sheet);
    if random.percent(10) {
        change::one(random, &mut sheet);
    }
    sheet
}

/// The largest number of so many bits; of a byte slice over 64 bits, that of 64.
fn largest(bits: u32) -> u64 {
    match bits {
        0 => 0,
        1..=63 => (1 << bits) - 1,
        _ => u64::MAX,
    }
}
