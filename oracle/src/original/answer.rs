//! What the original answers where it accepts nothing.

use super::ast::Error;

/// Why the original gives no definition.
#[derive(Clone, Debug, PartialEq, Eq)]
pub enum Fault {
    Refused(Refused),
    /// It panics at this step.
    Panicked(Step),
}

/// A refusal, as far as the original tells it.
#[derive(Clone, Debug, PartialEq, Eq)]
pub struct Refused {
    /// The name of the group in docs/RULES.md.
    pub group: &'static str,
    pub number: u64,
    /// The place, where the original tells it.
    pub place: Option<usize>,
}

/// Steps 2 to 5.
#[derive(Clone, Copy, Debug, PartialEq, Eq)]
pub enum Step {
    Fields,
    Header,
    Length,
    Cond,
}

impl Refused {
    /// Group and number are told by the first line of the error's text, as `field error 3:`.
    pub(super) fn new(error: &Error, place: Option<usize>) -> Refused {
        let text = error.to_string();
        let line = text.split(':').next().unwrap_or("");
        let (word, number) = line.split_once(" error ").expect("an error's text has its group and number");
        let group = match word {
            "number" => "number",
            "field" => "field",
            "header" => "header",
            "length" => "length",
            "conditional" => "cond",
            other => panic!("no step gives an error of the group {other}"),
        };
        Refused { group, number: number.parse().expect("a number"), place }
    }
}
