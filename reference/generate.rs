//! Making a block file from words: a construction and a truth table.

use std::fmt;

use crate::construct::{self, Construction};
use crate::file;
use crate::table::{self, TruthTable};

/// What is answered to words that ask for no block.
pub const USAGE: &str = "usage: generate ghpc|ghpc_ll INPUTS OUTPUTS ENTRY ..   \
    (writes a block file to standard output)";

/// What words are answered with.
pub enum Answer {
    File(Vec<u8>),
    Refused(Refusal),
    Usage,
}

/// Why there is no block for a table.
#[derive(Clone, Copy, Debug, PartialEq, Eq)]
pub enum Refusal {
    Table(table::Fault),
    Construction(construct::Fault),
}

impl From<table::Fault> for Refusal {
    fn from(fault: table::Fault) -> Self {
        Refusal::Table(fault)
    }
}

impl From<construct::Fault> for Refusal {
    fn from(fault: construct::Fault) -> Self {
        Refusal::Construction(fault)
    }
}

impl fmt::Display for Refusal {
    fn fmt(&self, f: &mut fmt::Formatter<'_>) -> fmt::Result {
        match self {
            Refusal::Table(fault) => fault.fmt(f),
            Refusal::Construction(fault) => fault.fmt(f),
        }
    }
}

/// Answers the words after `generate`.
pub fn generate(words: &[&str]) -> Answer {
    let Some(request) = Request::from_words(words) else {
        return Answer::Usage;
    };
    match request.file() {
        Ok(file) => Answer::File(file),
        Err(refusal) => Answer::Refused(refusal),
    }
}

/// What the words ask for. The numbers may make no lawful table.
struct Request {
    construction: Construction,
    inputs: usize,
    outputs: usize,
    entries: Vec<u8>,
}

impl Request {
    fn from_words(words: &[&str]) -> Option<Request> {
        let [construction, inputs, outputs, entries @ ..] = words else {
            return None;
        };
        Some(Request {
            construction: Construction::from_name(construction)?,
            inputs: number(inputs, usize::MAX)?,
            outputs: number(outputs, usize::MAX)?,
            entries: entries
                .iter()
                .map(|entry| number(entry, u8::MAX))
                .collect::<Option<_>>()?,
        })
    }

    fn file(self) -> Result<Vec<u8>, Refusal> {
        let table = TruthTable::new(self.inputs, self.outputs, self.entries)?;
        Ok(file::write(&self.construction.block(&table)?))
    }
}

/// The number that `word` writes in decimal digits, or `largest` if it is
/// too large for its type.
fn number<T: std::str::FromStr>(word: &str, largest: T) -> Option<T> {
    let is_number = !word.is_empty() && word.bytes().all(|byte| byte.is_ascii_digit());
    is_number.then(|| word.parse().unwrap_or(largest))
}
