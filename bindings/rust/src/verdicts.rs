//! Verdicts and findings.

use crate::calls::{self, RawVerdict};
use crate::errors::Error;
use std::fmt;

/// How many records and groups a transmission may have, and how many records each of its transactions.
#[derive(Clone, Copy, Debug, PartialEq, Eq)]
pub struct Limits {
    /// The most records of a transmission, 5 to 99,999,999.
    pub records: u32,
    /// The most groups, 1 to 99,999.
    pub groups: u32,
    /// The most records of one transaction, 1 to 999,999. It bounds the memory that a stranger's text can take.
    pub transaction: u32,
}

impl Limits {
    /// The most that any transmission may have.
    pub const NONE: Limits = Limits { records: 99_999_999, groups: 99_999, transaction: 999_999 };
}

impl Default for Limits {
    fn default() -> Self {
        Limits::NONE
    }
}

/// How much a refusal rejects, or a finding concerns.
#[derive(Clone, Copy, Debug, PartialEq, Eq)]
pub enum Level {
    /// `E`: the file.
    File,
    /// `G`: the group.
    Group,
    /// `T`: the transaction.
    Transaction,
    /// `R`: the record.
    Record,
    /// `F`: the field.
    Field,
}

impl Level {
    /// The level of a letter of the library.
    fn of(letter: u32) -> Level {
        match letter {
            0x45 => Level::File,
            0x47 => Level::Group,
            0x54 => Level::Transaction,
            0x52 => Level::Record,
            _ => Level::Field,
        }
    }

    /// Its letter in reports.
    pub fn letter(self) -> char {
        match self {
            Level::File => 'E',
            Level::Group => 'G',
            Level::Transaction => 'T',
            Level::Record => 'R',
            Level::Field => 'F',
        }
    }
}

/// What is wrong with a cell.
#[derive(Clone, Copy, Debug, PartialEq, Eq)]
#[non_exhaustive]
pub enum CellFault {
    /// Blank, where something must stand.
    Blank,
    /// A control byte.
    Control,
    /// Something else than digits.
    NotDigits,
    /// No day of the calendar.
    NotADate,
    /// No time of day, or no duration.
    NotATime,
    /// More than 100 %.
    OverShare,
    /// No code of the field's table, or no flag.
    NotACode,
    /// Something else than the field's word.
    NotConstant,
}

/// Which limit is passed.
#[derive(Clone, Copy, Debug, PartialEq, Eq)]
#[non_exhaustive]
pub enum LimitKind {
    /// That of all records.
    Records,
    /// That of groups.
    Groups,
    /// That of the records of one transaction.
    Transaction,
}

impl LimitKind {
    /// The limit of a number of the library.
    pub(crate) fn of(detail: u32) -> LimitKind {
        match detail {
            1 => LimitKind::Records,
            2 => LimitKind::Groups,
            _ => LimitKind::Transaction,
        }
    }

    /// Its word in reports.
    pub(crate) fn word(self) -> &'static str {
        match self {
            LimitKind::Records => "records",
            LimitKind::Groups => "groups",
            LimitKind::Transaction => "transaction",
        }
    }
}

/// Why a record is refused.
#[derive(Clone, Copy, Debug, PartialEq, Eq)]
#[non_exhaustive]
pub enum Reason {
    /// The line's first three letters name no kind of this profile.
    UnknownKind,
    /// No such record may come here.
    Misplaced,
    /// The field holds something else.
    Cell(CellFault),
    /// The number is wrong.
    Number {
        /// The one that belongs there.
        expected: u64,
    },
    /// A limit is passed.
    Limit(LimitKind),
    /// Something stands behind the last field.
    Excess,
}

impl Reason {
    /// The reason of the library's numbers.
    fn of(raw: &RawVerdict) -> Reason {
        match (raw.reason, raw.detail) {
            (1, _) => Reason::UnknownKind,
            (2, _) => Reason::Misplaced,
            (3, 1) => Reason::Cell(CellFault::Blank),
            (3, 2) => Reason::Cell(CellFault::Control),
            (3, 3) => Reason::Cell(CellFault::NotDigits),
            (3, 4) => Reason::Cell(CellFault::NotADate),
            (3, 5) => Reason::Cell(CellFault::NotATime),
            (3, 6) => Reason::Cell(CellFault::OverShare),
            (3, 7) => Reason::Cell(CellFault::NotACode),
            (3, _) => Reason::Cell(CellFault::NotConstant),
            (4, _) => Reason::Number { expected: raw.expected },
            (5, detail) => Reason::Limit(LimitKind::of(detail)),
            _ => Reason::Excess,
        }
    }
}

impl fmt::Display for Reason {
    fn fmt(&self, f: &mut fmt::Formatter<'_>) -> fmt::Result {
        match self {
            Reason::UnknownKind => f.write_str("unknown kind"),
            Reason::Misplaced => f.write_str("misplaced"),
            Reason::Cell(fault) => f.write_str(match fault {
                CellFault::Blank => "cell blank",
                CellFault::Control => "cell control",
                CellFault::NotDigits => "cell not digits",
                CellFault::NotADate => "cell not a date",
                CellFault::NotATime => "cell not a time",
                CellFault::OverShare => "cell over share",
                CellFault::NotACode => "cell not a code",
                CellFault::NotConstant => "cell not constant",
            }),
            Reason::Number { expected } => write!(f, "number expected {expected}"),
            Reason::Limit(limit) => write!(f, "limit {}", limit.word()),
            Reason::Excess => f.write_str("excess"),
        }
    }
}

/// The first record and field from which no transmission continues.
#[derive(Clone, Copy, Debug, PartialEq, Eq)]
#[non_exhaustive]
pub struct Refusal {
    /// The record, from 1. It is the line of that number.
    pub record: u32,
    /// The field, from 1; one past the last is what stands behind it.
    pub field: u32,
    /// How much is rejected.
    pub level: Level,
    /// Why.
    pub reason: Reason,
}

impl fmt::Display for Refusal {
    fn fmt(&self, f: &mut fmt::Formatter<'_>) -> fmt::Result {
        let Refusal { record, field, level, reason } = self;
        write!(f, "REFUSED record {record} field {field} level {} {reason}", level.letter())
    }
}

/// The verdict on a text. It prints as the line that `cwr check` writes.
#[derive(Clone, Copy, Debug, PartialEq, Eq)]
pub enum Verdict {
    /// The text begins with a transmission.
    Good {
        /// How many groups it has.
        groups: u32,
        /// How many transactions.
        transactions: u32,
        /// How many records.
        records: u32,
    },
    /// No transmission continues from a record and a field.
    Refused(Refusal),
    /// The text ended too early.
    Truncated {
        /// After how many records.
        records: u32,
    },
}

impl Verdict {
    /// Whether the text begins with a transmission.
    pub fn is_good(&self) -> bool {
        matches!(self, Verdict::Good { .. })
    }

    /// The verdict that the library tells.
    pub(crate) fn of(raw: &RawVerdict) -> Result<Verdict, Error> {
        match raw.ending {
            0 => Ok(Verdict::Good { groups: raw.groups, transactions: raw.transactions, records: raw.records }),
            1 => Ok(Verdict::Refused(Refusal {
                record: raw.records,
                field: raw.field,
                level: Level::of(raw.level),
                reason: Reason::of(raw),
            })),
            2 => Ok(Verdict::Truncated { records: raw.records }),
            3 => Err(Error::Memory),
            _ => Err(Error::Limits),
        }
    }
}

impl fmt::Display for Verdict {
    fn fmt(&self, f: &mut fmt::Formatter<'_>) -> fmt::Result {
        match self {
            Verdict::Good { groups, transactions, records } => {
                write!(f, "GOOD groups {groups} transactions {transactions} records {records}")
            }
            Verdict::Refused(refusal) => write!(f, "{refusal}"),
            Verdict::Truncated { records } => write!(f, "TRUNCATED records {records}"),
        }
    }
}

/// Whether the library that was linked is for this crate.
pub(crate) fn linked() -> Result<(), Error> {
    if calls::fits() {
        Ok(())
    } else {
        Err(Error::Interface)
    }
}

/// The verdict on a text: what `cwr check` says of it. Memory holds one transaction.
///
/// # Errors
///
/// [`Error::Memory`], [`Error::Limits`] and [`Error::Interface`]; a text that isn't good is none.
pub fn check(text: &[u8], limits: &Limits) -> Result<Verdict, Error> {
    linked()?;
    Verdict::of(&calls::check(text, limits))
}

/// A rule that a record breaks. The verdict stays as it is.
#[derive(Clone, Copy, Debug, PartialEq, Eq)]
#[non_exhaustive]
pub struct Finding {
    /// The record, from 1. It is the line of that number.
    pub record: u32,
    /// The field, from 1.
    pub field: u32,
    /// The number of the rule: 1 for V1, up to 11.
    pub rule: u32,
    /// How much it concerns.
    pub level: Level,
}

/// The findings that `cwr check` prints before its verdict, also of a text that is refused later, and the verdict.
///
/// # Errors
///
/// As [`check`].
pub fn findings(text: &[u8], limits: &Limits) -> Result<(Vec<Finding>, Verdict), Error> {
    linked()?;
    let (found, raw) = calls::findings(text, limits)?;
    let verdict = Verdict::of(&raw)?;
    let list = found.iter().map(|it| Finding { record: it.record, field: it.field, rule: it.rule, level: Level::of(it.level) });
    Ok((list.collect(), verdict))
}
