//! The port held against the original.

mod conds;
mod details;
mod fields;
mod found;
mod lengths;
mod tally;

use std::sync::atomic::{AtomicU64, Ordering};
use std::thread;

use pktfmt_checked as port;
use port::ffi;

use crate::generate;
use crate::listing;
use crate::original::{ask, Fault, Inputs, Step};
use crate::random::Random;
use crate::sheet::Sheet;

use details::Accepted;
use found::Found;
pub use tally::{Difference, Tally};

/// Which sheets are compared.
#[derive(Clone, Copy)]
pub struct Run {
    pub seed: u64,
    /// The index of the first sheet of the seed.
    pub first: u64,
    pub sheets: u64,
    pub threads: u64,
}

const PROGRESS: u64 = 1_000_000;

/// Compares all sheets of a run.
pub fn run(run: Run) -> Tally {
    let done = &AtomicU64::new(0);
    thread::scope(|scope| {
        let parts: Vec<_> = (0..run.threads).map(|part| scope.spawn(move || compare_part(run, part, done))).collect();
        let tallies = parts.into_iter().map(|part| part.join().expect("a part ends"));
        tallies.fold(Tally::default(), Tally::merged)
    })
}

fn compare_part(run: Run, part: u64, done: &AtomicU64) -> Tally {
    let mut comparison = Comparison::new();
    for index in (run.first + part..run.first + run.sheets).step_by(run.threads as usize) {
        let bytes = generate::sheet(run.seed, index).to_bytes();
        comparison.sheet(index, &bytes, &mut Random::new(!run.seed, index));
        let count = done.fetch_add(1, Ordering::Relaxed) + 1;
        if count % PROGRESS == 0 {
            eprintln!("{} million sheets", count / PROGRESS);
        }
    }
    comparison.tally
}

/// Sheets compared one after the other.
pub struct Comparison {
    pub tally: Tally,
    text: Vec<u8>,
}

impl Comparison {
    pub fn new() -> Comparison {
        Comparison { tally: Tally::default(), text: vec![0; ffi::MAX_LISTING] }
    }

    /// Compares one sheet that passes step 1. The random numbers are what lengths and fields are asked of.
    pub fn sheet(&mut self, index: u64, bytes: &[u8], random: &mut Random) {
        let sheet = Sheet::from_bytes(bytes);
        let count = ffi::list(bytes, &mut self.text);
        let text = String::from_utf8_lossy(&self.text[..count]).into_owned();
        let mut found = Found::default();
        list_in_part(bytes, &text, random, &mut found);
        match ask(Inputs::of(&sheet)) {
            Ok(definition) => {
                self.tally.accepted += 1;
                found.same("listing", &listing::accepted(&definition, sheet.blocks()), &text);
                let accepted = Accepted { definition: &definition, stated: &sheet, bytes };
                details::compare(&accepted, random, &mut found);
            }
            Err(Fault::Refused(refused)) => {
                *self.tally.refused.entry((refused.group, refused.number)).or_default() += 1;
                let words = listing::refused(&refused);
                let same = if refused.place.is_some() { text == words } else { is_at_some_place(&text, &words) };
                found.told(same, "refusal", || (words, text.clone()));
                refuses(bytes, &text, &mut found);
            }
            Err(Fault::Panicked(Step::Cond)) if is_cond_4_of_the_last_number(&sheet, &text) => {
                found.explained("cond 4 of a start 2^64 - 1 with an excluded end: the original panics");
            }
            Err(Fault::Panicked(step)) => {
                found.told(false, "verdict", || (format!("panics at {step:?}"), text.clone()))
            }
        }
        lengths::compare_any(random, &mut found);
        self.tally.add(index, bytes, found);
    }
}

impl Default for Comparison {
    fn default() -> Self {
        Comparison::new()
    }
}

/// A listing in a buffer that may be too short for it: its front, and the length of all of it.
fn list_in_part(bytes: &[u8], text: &str, random: &mut Random, found: &mut Found) {
    let room = random.from_to(0, text.len() as u64 + 2) as usize;
    let mut expected = text.as_bytes().to_vec();
    expected.resize(room, b'?');
    let mut out = vec![b'?'; room];
    let count = ffi::list(bytes, &mut out);
    found.same("listing in part", &(expected, text.len()), &(out, count));
}

/// A sheet that is refused is refused by every function in the same way, and by the crate with the line of the listing.
fn refuses(bytes: &[u8], text: &str, found: &mut Found) {
    let Err(refusal) = port::Sheet::new(bytes) else {
        return found.told(false, "the crate's sheet", || (text.into(), "accepted".into()));
    };
    let (group, number, place) = (refusal.reason.group(), refusal.reason.number(), refusal.place);
    found.same("the crate's refusal", text, &format!("refused {} {number} {place}\n", group.name())[..]);
    let refusal = ffi::Refusal { group: group as u64, number, place };
    found.same("check", &Err(refusal), &ffi::check(bytes));
    found.same("fields", &Err(refusal), &ffi::fields(bytes));
    found.same("lengths", &Err(refusal), &ffi::lengths(bytes));
    found.same("conditions", &Err(refusal), &ffi::conditions(bytes));
    found.same("field by index", &Err(refusal), &ffi::field_by_index(bytes, 0));
    found.same("template", &Err(refusal), &ffi::template(bytes, &mut []));
}

/// Whether a text is a refusal's line, of which the original tells all but the place.
fn is_at_some_place(text: &str, words: &str) -> bool {
    let place = text.strip_prefix(words).and_then(|rest| rest.strip_suffix('\n'));
    place.is_some_and(|place| place.parse::<u8>().is_ok())
}

/// Whether the port refuses, cond 4, an entry with a range whose text overflows in the original.
fn is_cond_4_of_the_last_number(sheet: &Sheet, text: &str) -> bool {
    let mut entries = (sheet.first_cond()..).zip(&sheet.conds);
    entries.any(|(place, entry)| entry.text_overflows() && text == format!("refused cond 4 {place}\n"))
}
