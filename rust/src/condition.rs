//! Conditions on the values of fields.

use std::ops::RangeInclusive;

use crate::ffi;

/// A condition of an accepted sheet: the values that one of its fields may have.
///
/// It says what is meant to stand in a packet. Reads and writes do not ask for it.
///
/// ```
/// use pktfmt_checked::Sheet;
///
/// let sheet = Sheet::new(include_bytes!(concat!(env!("CARGO_MANIFEST_DIR"), "/../examples/bits.sheet")))?;
/// let channel = &sheet.conditions()[0];
/// assert_eq!(sheet.fields()[channel.field_index()].name(), "channel");
/// assert_eq!(channel.ranges(), [1..=63, 80..=95, 100..=127]);
/// assert!(channel.allows(80));
/// assert!(!channel.allows(64));
/// # Ok::<(), pktfmt_checked::Refusal>(())
/// ```
#[derive(Clone, Debug, PartialEq, Eq)]
pub struct Condition {
    field: usize,
    ranges: Vec<RangeInclusive<u64>>,
}

impl Condition {
    /// The index of the field.
    pub fn field_index(&self) -> usize {
        self.field
    }

    /// The values that it may have, in the order of the sheet. They are cut at the field's largest value, and no value
    /// lies in two of them.
    pub fn ranges(&self) -> &[RangeInclusive<u64>] {
        &self.ranges
    }

    /// Whether a value lies in one of the ranges. Where there are none, no value does.
    pub fn allows(&self, value: u64) -> bool {
        self.ranges.iter().any(|range| range.contains(&value))
    }

    /// The condition as the library tells it.
    pub(crate) fn told(condition: &ffi::Condition) -> Condition {
        let ranges = condition.ranges[..condition.count as usize].iter();
        let ranges = ranges.map(|ffi::Range { first, last }| *first..=*last).collect();
        Condition { field: condition.field as usize, ranges }
    }
}
