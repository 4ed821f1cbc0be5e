//! Writing.

use crate::calls::{self, RawWritten};
use crate::errors::Error;
use crate::layouts::{fields, kinds};
use crate::records::Record;
use crate::reports::lint;
use crate::verdicts::{linked, LimitKind, Limits};
use std::fmt;

/// Why no transmission was written.
#[derive(Clone, Debug, PartialEq, Eq)]
#[non_exhaustive]
pub enum Why {
    /// The line carries no record: its first wrong field, and why, in the words of a verdict. Fields that are made aren't looked at.
    NotARecord(String),
    /// Its record can't come there.
    OutOfOrder,
    /// It is of another kind than its group's.
    WrongKind,
    /// The transaction that it begins, or the group that it ends, isn't whole.
    Incomplete,
    /// A limit is passed.
    Limit(LimitKind),
    /// Lines of JSON aren't taken: the words that `cwr write` tells.
    Json(String),
}

impl fmt::Display for Why {
    fn fmt(&self, f: &mut fmt::Formatter<'_>) -> fmt::Result {
        match self {
            Why::NotARecord(words) => write!(f, "carries no record, {words}"),
            Why::OutOfOrder => f.write_str("can't come there"),
            Why::WrongKind => f.write_str("is of another kind than its group's"),
            Why::Incomplete => f.write_str("begins or ends what isn't whole"),
            Why::Limit(limit) => write!(f, "passes the limit of {}", limit.word()),
            Why::Json(words) => f.write_str(words),
        }
    }
}

/// The first wrong field of a line that carries no record, and why.
fn no_record(line: &[u8]) -> Result<String, Error> {
    let kind = String::from_utf8_lossy(line.get(..3).unwrap_or(line)).into_owned();
    let told = lint(&[line, b"\n"].concat())?;
    let mut rows = told.lines().filter_map(|row| row.split_once(" record 1 field ")?.1.split_once(" level "));
    let found = rows.find_map(|(number, words)| {
        let field = fields(&kind).iter().find(|it| it.number.to_string() == number);
        let why = words.get(2..)?;
        let is_carried = field.map_or(false, |it| !it.derived) && why.starts_with("cell ");
        let name = field.map_or(String::new(), |it| format!(" ({})", it.name));
        (is_carried || ["unknown kind", "excess"].contains(&why)).then(|| format!("field {number}{name}: {why}"))
    });
    Ok(found.unwrap_or_default())
}

/// The line of that number, from 1.
fn line_of(lines: &[u8], number: u64) -> &[u8] {
    let at = usize::try_from(number.saturating_sub(1)).unwrap_or(usize::MAX);
    lines.split(|it| *it == b'\n').nth(at).unwrap_or_default()
}

fn made(lines: &[u8], text: Vec<u8>, told: &RawWritten) -> Result<Vec<u8>, Error> {
    let why = match told.ending {
        0 => return Ok(text),
        1 => Why::NotARecord(no_record(line_of(lines, told.line))?),
        2 => Why::OutOfOrder,
        3 => Why::WrongKind,
        4 => Why::Incomplete,
        5 => Why::Limit(LimitKind::of(told.detail)),
        6 => return Err(Error::Memory),
        7 => return Err(Error::Limits),
        _ => Why::Json(String::from_utf8_lossy(&text).trim_end().to_owned()),
    };
    Err(Error::Unwritten { line: told.line, why })
}

/// The canonical text of the transmission with these records, in order: HDR, GRH, transactions, GRT and so on. Sequence
/// numbers, IDs and counts are made, whatever the records have. TRL may be left out.
///
/// # Errors
///
/// [`Error::Unwritten`] says at which record, and why; else as [`crate::check`].
pub fn write<'a>(records: impl IntoIterator<Item = Record<'a>>, limits: &Limits) -> Result<Vec<u8>, Error> {
    linked()?;
    let widths: Vec<(Vec<u8>, usize)> = kinds().iter().map(|kind| (kind.as_bytes().to_vec(), calls::blank(kind.as_bytes()).len())).collect();
    let (mut lines, mut size) = (Vec::new(), 4096);
    for it in records {
        size += widths.iter().find(|(kind, _)| it.line().starts_with(kind)).map_or(0, |(_, width)| width + 2);
        lines.extend_from_slice(it.line());
        lines.push(b'\n');
    }
    let (text, told) = calls::write(&lines, limits, false, size)?;
    made(&lines, text, &told)
}

/// The canonical text of the transmission that lines of JSON are.
///
/// # Errors
///
/// [`Error::Unwritten`] says at which line, and why; else as [`crate::check`].
pub fn from_json(json: &[u8], limits: &Limits) -> Result<Vec<u8>, Error> {
    linked()?;
    let (text, told) = calls::write(json, limits, true, 2 * json.len() + 4096)?;
    made(json, text, &told)
}
