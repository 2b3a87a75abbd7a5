//! What was found on all sheets.

use std::collections::BTreeMap;
use std::fmt;

use super::found::{Found, Unexplained};
use crate::sheet::BLOCK;

/// So many differences are kept; the others are counted.
const KEPT: usize = 50;

#[derive(Default)]
pub struct Tally {
    pub sheets: u64,
    pub accepted: u64,
    /// By group and number, as the original has them.
    pub refused: BTreeMap<(&'static str, u64), u64>,
    pub questions: u64,
    pub explained: BTreeMap<&'static str, u64>,
    /// The sheets on which something differs without explanation.
    pub unexplained: u64,
    pub kept: Vec<Difference>,
}

/// A sheet on which the two differ.
pub struct Difference {
    pub index: u64,
    pub sheet: Vec<u8>,
    pub answers: Vec<Unexplained>,
}

impl Tally {
    pub(super) fn add(&mut self, index: u64, sheet: &[u8], found: Found) {
        self.sheets += 1;
        self.questions += found.questions;
        for kind in found.explained {
            *self.explained.entry(kind).or_default() += 1;
        }
        if !found.unexplained.is_empty() {
            self.unexplained += 1;
            self.kept.push(Difference { index, sheet: sheet.to_vec(), answers: found.unexplained });
            self.keep_smallest();
        }
    }

    pub(super) fn merged(mut self, other: Tally) -> Tally {
        self.sheets += other.sheets;
        self.accepted += other.accepted;
        self.questions += other.questions;
        self.unexplained += other.unexplained;
        self.kept.extend(other.kept);
        self.keep_smallest();
        for (refusal, count) in other.refused {
            *self.refused.entry(refusal).or_default() += count;
        }
        for (kind, count) in other.explained {
            *self.explained.entry(kind).or_default() += count;
        }
        self
    }

    /// The smallest sheets say most.
    fn keep_smallest(&mut self) {
        self.kept.sort_by_key(|difference| (difference.sheet.len(), difference.index));
        self.kept.truncate(KEPT);
    }
}

impl fmt::Display for Tally {
    fn fmt(&self, f: &mut fmt::Formatter<'_>) -> fmt::Result {
        writeln!(f, "{:>12} sheets", self.sheets)?;
        writeln!(f, "{:>12} accepted", self.accepted)?;
        for ((group, number), count) in &self.refused {
            writeln!(f, "{count:>12} refused {group} {number}")?;
        }
        writeln!(f, "{:>12} answers compared", self.questions)?;
        for (kind, count) in &self.explained {
            writeln!(f, "{count:>12} explained: {kind}")?;
        }
        writeln!(f, "{:>12} sheets with an unexplained difference", self.unexplained)
    }
}

impl fmt::Display for Difference {
    fn fmt(&self, f: &mut fmt::Formatter<'_>) -> fmt::Result {
        writeln!(f, "sheet {}", self.index)?;
        for Unexplained { what, original, port } in &self.answers {
            writeln!(f, "  {what}\n    original {original}\n    port     {port}")?;
        }
        for (index, block) in self.sheet.chunks(BLOCK).enumerate() {
            writeln!(f, "  block {index} {}", runs(block).join(" "))?;
        }
        Ok(())
    }
}

/// The bytes of a block that are not zero, each run of them after its offset.
fn runs(block: &[u8]) -> Vec<String> {
    let mut runs = Vec::new();
    let mut at = 0;
    for run in block.split(|byte| *byte == 0) {
        if !run.is_empty() {
            let hex: String = run.iter().map(|byte| format!("{byte:02x}")).collect();
            runs.push(format!("{at}:{hex}"));
        }
        at += run.len() + 1;
    }
    runs
}
