//! What may go wrong.

use crate::verdicts::Refusal;
use crate::writing::Why;
use std::fmt;

/// Why there is no answer, or the answer is no transmission.
#[derive(Clone, Debug, PartialEq, Eq)]
#[non_exhaustive]
pub enum Error {
    /// Memory was refused.
    Memory,
    /// A limit isn't in its range.
    Limits,
    /// The library that was linked is for another version of this crate.
    Interface,
    /// Three letters name no kind of this profile, or a kind has no such field.
    NoSuchField,
    /// The text is wider than its field.
    TooWide,
    /// No transmission continues from a record and a field of the text.
    Refused(Refusal),
    /// The text ended too early.
    Truncated {
        /// After how many records.
        records: u32,
    },
    /// No transmission was written.
    Unwritten {
        /// The record or the line of JSON at which that came, from 1; 0 behind all.
        line: u64,
        /// Why.
        why: Why,
    },
}

impl fmt::Display for Error {
    fn fmt(&self, f: &mut fmt::Formatter<'_>) -> fmt::Result {
        match self {
            Error::Memory => f.write_str("out of memory"),
            Error::Limits => f.write_str("a limit isn't in its range"),
            Error::Interface => f.write_str("libcwr has another interface"),
            Error::NoSuchField => f.write_str("no such kind or field"),
            Error::TooWide => f.write_str("wider than its field"),
            Error::Refused(refusal) => write!(f, "{refusal}"),
            Error::Truncated { records } => write!(f, "TRUNCATED records {records}"),
            Error::Unwritten { line, why } => match why {
                Why::Json(words) => f.write_str(words),
                why if *line == 0 => write!(f, "the end of the records {why}"),
                why => write!(f, "record {line} {why}"),
            },
        }
    }
}

impl std::error::Error for Error {}
