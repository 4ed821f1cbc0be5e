//! CWR 2.1 transmissions, over the C library whose answers are proved.
//!
//! ```no_run
//! let text = std::fs::read("CW240001PB_052.V21")?;
//! let document = cwr::Document::read(&text)?;
//! for transaction in document.transactions() {
//!     for record in transaction {
//!         println!("{} {:?}", record.kind(), record.text("title"));
//!     }
//! }
//! # Ok::<(), Box<dyn std::error::Error>>(())
//! ```
//!
//! Sizes are bytes, and numbers of records and fields count from 1. A text is judged up to the end of its transmission; what
//! follows isn't looked at. It is borrowed and never copied.

#![warn(missing_docs)]

// the example of the page is a test
#[cfg(doctest)]
#[doc = include_str!("../README.md")]
struct Page;

mod calls;
mod documents;
mod errors;
mod layouts;
mod records;
mod reports;
mod selecting;
mod summaries;
mod verdicts;
mod writing;

pub use documents::{Document, Line, Transaction, Transactions};
pub use errors::Error;
pub use layouts::{fields, kinds, Field, Type};
pub use records::{Record, RecordBuf};
pub use reports::{explain, lint, report, show, to_json, Report};
pub use selecting::{select, Place};
pub use summaries::{summary, Right, Summary, COLUMNS};
pub use verdicts::{check, findings, CellFault, Finding, Level, LimitKind, Limits, Reason, Refusal, Verdict};
pub use writing::{from_json, write, Why};
