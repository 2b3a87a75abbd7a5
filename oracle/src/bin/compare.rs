//! Holds the port against the original. `README.md` tells what is compared.

use std::fs;
use std::path::Path;
use std::process::ExitCode;

use oracle::compare::{self, Run, Tally};
use oracle::{store, stored};

const USAGE: &str = "usage: compare [--seed N] [--first N] [--sheets N] [--threads N] [--differences FILE]
       compare --stored FILE
       compare --store DIR [--seed N]";

/// What is asked for on the command line.
struct Options {
    run: Run,
    /// Where the sheets go on which the two differ.
    differences: String,
    /// The stored sheets of the tests, to hold the original against.
    stored: Option<String>,
    /// Where files of answers are written.
    store: Option<String>,
}

fn main() -> ExitCode {
    let Some(options) = options(std::env::args().skip(1)) else {
        eprintln!("{USAGE}");
        return ExitCode::from(2);
    };
    silence_the_original();
    let good = match (&options.store, &options.stored) {
        (Some(folder), _) => write_answers(Path::new(folder), options.run.seed),
        (None, Some(file)) => hold_stored(file),
        (None, None) => run(&options),
    };
    if good {
        ExitCode::SUCCESS
    } else {
        ExitCode::FAILURE
    }
}

fn options(mut words: impl Iterator<Item = String>) -> Option<Options> {
    let mut options = Options {
        run: Run { seed: 1, first: 0, sheets: 1_000_000, threads: 1 },
        differences: "target/oracle/differences".to_string(),
        stored: None,
        store: None,
    };
    while let Some(word) = words.next() {
        let value = words.next()?;
        match &word[..] {
            "--seed" => options.run.seed = value.parse().ok()?,
            "--first" => options.run.first = value.parse().ok()?,
            "--sheets" => options.run.sheets = value.parse().ok()?,
            "--threads" => options.run.threads = value.parse().ok().filter(|count| (1..=2).contains(count))?,
            "--differences" => options.differences = value,
            "--stored" => options.stored = Some(value),
            "--store" => options.store = Some(value),
            _ => return None,
        }
    }
    Some(options)
}

/// The original's panics are answers, and print nothing; others are printed.
fn silence_the_original() {
    std::panic::set_hook(Box::new(|panic| {
        let in_original = panic.location().is_some_and(|location| location.file().contains("target/oracle/ast/"));
        if !in_original {
            eprintln!("{panic}");
        }
    }));
}

fn run(options: &Options) -> bool {
    let Run { seed, first, sheets, .. } = options.run;
    println!("seed {seed}, sheets {first} to {}", first + sheets.saturating_sub(1));
    let tally = compare::run(options.run);
    print!("{tally}");
    if tally.unexplained > 0 {
        report(&tally, &options.differences);
    }
    tally.unexplained == 0
}

/// Writes down the smallest sheets on which the two differ.
fn report(tally: &Tally, file: &str) {
    let text: String = tally.kept.iter().map(|difference| format!("{difference}\n")).collect();
    match fs::write(file, text) {
        Ok(()) => println!("the smallest of these sheets are in {file}"),
        Err(error) => println!("{file} cannot be written: {error}"),
    }
}

fn hold_stored(file: &str) -> bool {
    let content = match fs::read(file) {
        Ok(content) => content,
        Err(error) => {
            println!("{file} cannot be read: {error}");
            return false;
        }
    };
    let outcome = stored::hold(&stored::records(&content));
    println!("{:>12} sheets agree with the original", outcome.agree);
    println!("{:>12} sheets, cond 4 of a start 2^64 - 1 with an excluded end: the original panics", outcome.explained);
    println!("{:>12} sheets that step 1 refuses, which the original does not have", outcome.skipped);
    println!("{:>12} sheets differ", outcome.differ.len());
    for (index, words) in &outcome.differ {
        println!("record {index}: {words}");
    }
    outcome.differ.is_empty()
}

fn write_answers(folder: &Path, seed: u64) -> bool {
    match store::write(folder, Path::new("examples"), seed) {
        Ok(stored) => {
            println!("seed {seed}");
            for (name, count) in &stored.answers {
                println!("{count:>12} {name}");
            }
            let sheets: usize = stored.answers.values().sum();
            println!("{sheets:>12} sheets, {} bytes", stored.answer_bytes);
            println!("{:>12} questions alone", stored.singles);
            true
        }
        Err(error) => {
            println!("examples cannot be read, or {} not be written: {error}", folder.display());
            false
        }
    }
}
