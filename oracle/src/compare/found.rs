//! What is found on one sheet.

use std::fmt::Debug;

#[derive(Default)]
pub struct Found {
    /// How many answers were held against each other.
    pub questions: u64,
    /// The kinds of the differences that are known.
    pub explained: Vec<&'static str>,
    pub unexplained: Vec<Unexplained>,
}

/// Two answers that should be the same.
#[derive(Clone, Debug)]
pub struct Unexplained {
    pub what: String,
    pub original: String,
    pub port: String,
}

impl Found {
    /// Holds two answers against each other.
    pub fn same<T: PartialEq + Debug + ?Sized>(&mut self, what: &str, original: &T, port: &T) {
        self.told(original == port, what, || (format!("{original:?}"), format!("{port:?}")))
    }

    /// Notes whether two answers are the same, and which they are if not.
    pub fn told(&mut self, same: bool, what: &str, answers: impl FnOnce() -> (String, String)) {
        self.questions += 1;
        if !same {
            let (original, port) = answers();
            self.unexplained.push(Unexplained { what: what.to_string(), original, port });
        }
    }

    pub fn explained(&mut self, kind: &'static str) {
        self.questions += 1;
        self.explained.push(kind);
    }
}
