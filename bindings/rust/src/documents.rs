//! Texts and the index of their records.

use crate::calls;
use crate::errors::Error;
use crate::records::Record;
use crate::verdicts::{linked, Limits, Verdict};
use std::fmt;

/// Where a record's line stands in the text.
#[repr(C)]
#[derive(Clone, Copy, Debug, Default, PartialEq, Eq)]
#[non_exhaustive]
pub struct Line {
    /// Its first byte, from 0.
    pub offset: usize,
    /// Its bytes, without its end.
    pub length: usize,
    /// How many groups have begun with it.
    pub group: u32,
    /// How many transactions have begun with it, in all groups.
    pub transaction: u32,
}

/// A text and the index of its records.
#[derive(Clone)]
pub struct Document<'a> {
    text: &'a [u8],
    lines: Vec<Line>,
    verdict: Verdict,
    size: usize,
}

impl fmt::Debug for Document<'_> {
    fn fmt(&self, f: &mut fmt::Formatter<'_>) -> fmt::Result {
        f.debug_struct("Document").field("verdict", &self.verdict).field("records", &self.lines.len()).finish_non_exhaustive()
    }
}

/// The shortest line of a record, with its end.
const SHORTEST: usize = 20;

impl<'a> Document<'a> {
    /// The document of a text, whatever its verdict.
    ///
    /// # Errors
    ///
    /// [`Error::Memory`], [`Error::Limits`] and [`Error::Interface`]; a text that isn't good is none.
    pub fn within(text: &'a [u8], limits: &Limits) -> Result<Document<'a>, Error> {
        linked()?;
        let first = text.iter().filter(|it| **it == b'\n').count().min(text.len() / SHORTEST) + 1;
        let (lines, mut raw) = calls::index(text, limits, first)?;
        if let (0, Some(last)) = (raw.ending, lines.last()) {
            (raw.groups, raw.transactions, raw.records) = (last.group, last.transaction, lines.len() as u32);
        }
        let verdict = Verdict::of(&raw)?;
        Ok(Document { text, lines, verdict, size: raw.used as usize })
    }

    /// The document of a text that begins with a transmission.
    ///
    /// # Errors
    ///
    /// [`Error::Refused`] and [`Error::Truncated`] for any other, and those of [`Document::within`].
    pub fn read(text: &'a [u8]) -> Result<Document<'a>, Error> {
        let document = Document::within(text, &Limits::NONE)?;
        match document.verdict {
            Verdict::Good { .. } => Ok(document),
            Verdict::Refused(refusal) => Err(Error::Refused(refusal)),
            Verdict::Truncated { records } => Err(Error::Truncated { records }),
        }
    }

    /// How the text ended.
    pub fn verdict(&self) -> Verdict {
        self.verdict
    }

    /// The bytes of the transmission, where the text begins with one.
    pub fn size(&self) -> usize {
        self.size
    }

    /// Where the lines of the accepted records stand.
    pub fn lines(&self) -> &[Line] {
        &self.lines
    }

    /// The record HDR, where there is one.
    pub fn header(&self) -> Option<Record<'a>> {
        self.record(1)
    }

    /// The record of that number, from 1.
    pub fn record(&self, number: usize) -> Option<Record<'a>> {
        let it = self.lines.get(number.checked_sub(1)?)?;
        Some(Record::of_line(self.text.get(it.offset..)?.get(..it.length)?))
    }

    /// The records, in order.
    pub fn records(&self) -> impl ExactSizeIterator<Item = Record<'a>> + '_ {
        self.lines.iter().map(|it| Record::of_line(&self.text[it.offset..][..it.length]))
    }

    /// The transactions, in order. One that a refusal or the end of the text cut off isn't among them.
    pub fn transactions(&self) -> Transactions<'a, '_> {
        Transactions { document: self, at: 0 }
    }
}

/// The transactions of a document.
#[derive(Clone, Debug)]
pub struct Transactions<'a, 'd> {
    document: &'d Document<'a>,
    at: usize,
}

/// A transaction: its records, the header first.
#[derive(Clone)]
pub struct Transaction<'a, 'd> {
    document: &'d Document<'a>,
    first: usize,
    /// The next one that it gives as an iterator.
    at: usize,
    end: usize,
}

impl fmt::Debug for Transaction<'_, '_> {
    fn fmt(&self, f: &mut fmt::Formatter<'_>) -> fmt::Result {
        let records: Vec<Record> = self.records().collect();
        f.debug_struct("Transaction").field("group", &self.group()).field("number", &self.number()).field("records", &records).finish()
    }
}

fn is_outside(kind: &[u8]) -> bool {
    matches!(kind, b"HDR" | b"GRH" | b"GRT" | b"TRL")
}

impl<'a, 'd> Iterator for Transactions<'a, 'd> {
    type Item = Transaction<'a, 'd>;

    fn next(&mut self) -> Option<Self::Item> {
        let Transactions { document, at } = self;
        let outside = |it: &Line| is_outside(&document.text[it.offset..][..3]);
        while outside(document.lines.get(*at)?) {
            *at += 1;
        }
        let start = *at;
        let number = document.lines[start].transaction;
        loop {
            // without a record behind it the transaction is cut off
            let it = document.lines.get(*at)?;
            if it.transaction != number || outside(it) {
                return Some(Transaction { document, first: start, at: start, end: *at });
            }
            *at += 1;
        }
    }
}

impl<'a, 'd> Transaction<'a, 'd> {
    /// The number of its group in the transmission, from 1.
    pub fn group(&self) -> u32 {
        self.document.lines.get(self.first).map_or(0, |it| it.group)
    }

    /// Its number in the transmission, from 1, in all groups.
    pub fn number(&self) -> u32 {
        self.document.lines.get(self.first).map_or(0, |it| it.transaction)
    }

    /// All its records, also those that it gave as an iterator.
    fn records(&self) -> Transaction<'a, 'd> {
        Transaction { at: self.first, ..self.clone() }
    }

    /// Its first record: AGR, NWR, REV or ACK.
    pub fn header(&self) -> Option<Record<'a>> {
        self.records().next()
    }

    /// Its records of a kind, in order.
    pub fn of_kind(&self, kind: &str) -> Vec<Record<'a>> {
        self.records().filter(|it| it.kind() == kind).collect()
    }
}

impl<'a, 'd> Iterator for Transaction<'a, 'd> {
    type Item = Record<'a>;

    fn next(&mut self) -> Option<Self::Item> {
        if self.at == self.end {
            return None;
        }
        self.at += 1;
        self.document.record(self.at)
    }

    fn size_hint(&self) -> (usize, Option<usize>) {
        (self.end - self.at, Some(self.end - self.at))
    }
}

impl ExactSizeIterator for Transaction<'_, '_> {}
