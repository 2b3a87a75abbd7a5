//! Files of the original's answers, for a program that has no original at hand (README.md).

use std::collections::BTreeMap;
use std::fs;
use std::io;
use std::path::Path;

use crate::generate;
use crate::listing;
use crate::original::{ask, Fault, Inputs};
use crate::packing::packed;
use crate::random::Random;
use crate::sheet::Sheet;
use crate::single::{self, RECORD};

/// What was written.
pub struct Stored {
    /// How many sheets there are of each answer.
    pub answers: BTreeMap<String, usize>,
    pub answer_bytes: usize,
    pub singles: usize,
}

/// So many sheets of each refusal, and accepted.
const EACH_REFUSAL: usize = 45;
const ACCEPTED: usize = 1_000;
/// So many of these may be large.
const LARGE: usize = 25;
const SMALL_RECORD: usize = 1_200;
const LARGEST_RECORD: usize = 16_000;
/// So many sheets are looked at.
const LOOKED_AT: u64 = 200_000;

/// Writes the files `answers` and `alone` to a folder. The sheets of the folder of examples are among the answers.
pub fn write(folder: &Path, examples: &Path, seed: u64) -> io::Result<Stored> {
    let (answers, counts) = answers(sheets_in(examples)?, seed);
    let alone = alone(seed);
    fs::create_dir_all(folder)?;
    fs::write(folder.join("answers"), &answers)?;
    fs::write(folder.join("alone"), &alone)?;
    Ok(Stored { answers: counts, answer_bytes: answers.len(), singles: alone.len() / RECORD })
}

fn alone(seed: u64) -> Vec<u8> {
    let questions = single::questions(&mut Random::new(seed, u64::MAX));
    questions.iter().flat_map(|question| question.record()).collect()
}

/// The sheets in a folder, by the names of their files.
fn sheets_in(folder: &Path) -> io::Result<Vec<Sheet>> {
    let mut files = fs::read_dir(folder)?.map(|entry| Ok(entry?.path())).collect::<io::Result<Vec<_>>>()?;
    files.retain(|file| file.extension().is_some_and(|word| word == "sheet"));
    files.sort();
    files.iter().map(|file| Ok(Sheet::from_bytes(&fs::read(file)?))).collect()
}

fn answers(examples: Vec<Sheet>, seed: u64) -> (Vec<u8>, BTreeMap<String, usize>) {
    let (mut content, mut counts, mut large) = (Vec::new(), BTreeMap::new(), 0);
    let generated = (0..LOOKED_AT).map(|index| generate::sheet(seed, index));
    for sheet in examples.into_iter().chain(generated) {
        let Some((name, record)) = record(&sheet) else {
            continue;
        };
        let is_large = record.len() > SMALL_RECORD;
        let wanted = if name == "accepted" { ACCEPTED } else { EACH_REFUSAL };
        let count = counts.entry(name).or_default();
        if *count < wanted && record.len() <= LARGEST_RECORD && (!is_large || large < LARGE) {
            *count += 1;
            large += usize::from(is_large);
            content.extend(record);
        }
    }
    (content, counts)
}

/// A sheet's record, with the name of its answer; none where the original panics.
fn record(sheet: &Sheet) -> Option<(String, Vec<u8>)> {
    let (name, text) = match ask(Inputs::of(sheet)) {
        Ok(definition) => {
            let text = listing::accepted(&definition, sheet.blocks());
            let name = if text.starts_with("refused room 1 ") { "room 1" } else { "accepted" };
            (name.to_string(), text)
        }
        Err(Fault::Refused(refused)) => {
            let text = format!("refused {} {} ", refused.group, refused.number);
            (format!("{} {}", refused.group, refused.number), text)
        }
        Err(Fault::Panicked(_)) => return None,
    };
    let bytes = sheet.to_bytes();
    let pack = packed(&bytes);
    let sizes = [pack.len(), bytes.len(), text.len()].map(|size| (size as u16).to_be_bytes());
    Some((name, [sizes.as_flattened(), &pack, text.as_bytes()].concat()))
}
