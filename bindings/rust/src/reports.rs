//! What the program writes of a text.

use crate::calls;
use crate::errors::Error;
use crate::verdicts::{linked, Limits, Verdict};

/// A report: what the program writes to standard output for a command.
#[derive(Clone, Copy, Debug, PartialEq, Eq)]
#[non_exhaustive]
pub enum Report {
    /// `cwr check`.
    Check,
    /// `cwr show`.
    Show,
    /// `cwr explain`.
    Explain,
    /// `cwr json`.
    Json,
    /// `cwr json --numbers`.
    NumberedJson,
    /// `cwr lint`.
    Lint,
    /// `cwr lint --explain`.
    ExplainedLint,
}

/// A report on a text, and the verdict. `name` is what explanations call the text. Memory holds the report.
///
/// # Errors
///
/// [`Error::Memory`], [`Error::Limits`] and [`Error::Interface`]; a text that isn't good is none.
pub fn report(what: Report, text: &[u8], limits: &Limits, name: &str) -> Result<(Vec<u8>, Verdict), Error> {
    linked()?;
    let first = match what {
        Report::Show | Report::Json | Report::NumberedJson => text.len() + text.len() * 3 / 4 + 4096,
        _ => 4096,
    };
    let (made, raw) = calls::report(what as u32, text, limits, name, first)?;
    Ok((made, Verdict::of(&raw)?))
}

fn report_of(what: Report, text: &[u8], name: &str) -> Result<Vec<u8>, Error> {
    Ok(report(what, text, &Limits::NONE, name)?.0)
}

/// What was found, in words.
pub fn explain(text: &[u8], name: &str) -> Result<String, Error> {
    Ok(String::from_utf8_lossy(&report_of(Report::Explain, text, name)?).into_owned())
}

/// Every fault and finding.
pub fn lint(text: &[u8]) -> Result<String, Error> {
    Ok(String::from_utf8_lossy(&report_of(Report::Lint, text, "")?).into_owned())
}

/// The records and their cells.
pub fn show(text: &[u8]) -> Result<Vec<u8>, Error> {
    report_of(Report::Show, text, "")
}

/// The data as lines of JSON. Of a text that is refused it has what comes before that.
pub fn to_json(text: &[u8]) -> Result<String, Error> {
    Ok(String::from_utf8_lossy(&report_of(Report::Json, text, "")?).into_owned())
}
