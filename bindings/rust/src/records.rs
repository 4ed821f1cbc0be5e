//! Records, cell by cell.

use crate::calls;
use crate::errors::Error;
use crate::layouts::{field_named, Field, Type};
use std::borrow::Cow;
use std::fmt;

/// The bytes as text: each byte is the character of its number (Latin-1).
fn characters(bytes: &[u8]) -> Cow<'_, str> {
    match std::str::from_utf8(bytes) {
        Ok(text) if text.is_ascii() => Cow::Borrowed(text),
        _ => Cow::Owned(bytes.iter().map(|it| char::from(*it)).collect()),
    }
}

/// The bytes without the spaces at their end.
fn trimmed(bytes: &[u8]) -> &[u8] {
    let count = bytes.iter().rposition(|it| *it != b' ').map_or(0, |at| at + 1);
    &bytes[..count]
}

/// A record, where it stands in its text.
#[derive(Clone, Copy, PartialEq, Eq)]
pub struct Record<'a> {
    line: &'a [u8],
}

impl fmt::Debug for Record<'_> {
    fn fmt(&self, f: &mut fmt::Formatter<'_>) -> fmt::Result {
        f.debug_tuple("Record").field(&characters(self.line)).finish()
    }
}

impl<'a> Record<'a> {
    /// The record of a line without its end. Nothing is judged.
    pub fn of_line(line: &'a [u8]) -> Record<'a> {
        Record { line }
    }

    /// Its line, without its end.
    pub fn line(&self) -> &'a [u8] {
        self.line
    }

    /// The three letters of its kind.
    pub fn kind(&self) -> Cow<'a, str> {
        characters(&self.line[..self.line.len().min(3)])
    }

    /// The cell of a field of its kind, as far as the line has it: what is missing are spaces.
    pub fn cell(&self, field: &Field) -> &'a [u8] {
        let from = field.start.min(self.line.len());
        &self.line[from..field.start.saturating_add(field.width).min(self.line.len())]
    }

    fn named(&self, name: &str) -> Option<(&'a [u8], Type)> {
        let field = field_named(&self.line[..self.line.len().min(3)], name)?;
        Some((trimmed(self.cell(field)), field.ty))
    }

    /// The cell of the field of that name as text, without the spaces at its end. `None` where its kind has no such field.
    pub fn text(&self, name: &str) -> Option<Cow<'a, str>> {
        self.named(name).map(|(cell, _)| characters(cell))
    }

    /// The share in hundredths of a percent. `None` where it is blank, or there is no share of that name.
    pub fn share(&self, name: &str) -> Option<u32> {
        let (cell, ty) = self.named(name)?;
        (ty == Type::Share).then(|| std::str::from_utf8(cell).ok()?.parse().ok())?
    }

    /// The number. `None` where it is blank, or there is no number of that name.
    pub fn number(&self, name: &str) -> Option<u64> {
        let (cell, ty) = self.named(name)?;
        matches!(ty, Type::Digits | Type::OptionalDigits).then(|| std::str::from_utf8(cell).ok()?.parse().ok())?
    }

    /// The date as year, month and day. `None` where it is blank or zeros, or there is no date of that name.
    pub fn date(&self, name: &str) -> Option<(u16, u8, u8)> {
        let (cell, ty) = self.named(name)?;
        if !matches!(ty, Type::Date | Type::OptionalDate) || cell.len() != 8 || !cell.is_ascii() {
            return None;
        }
        let text = std::str::from_utf8(cell).ok()?;
        let date = (text[..4].parse().ok()?, text[4..6].parse().ok()?, text[6..].parse().ok()?);
        (date != (0, 0, 0)).then_some(date)
    }
}

/// A record that is made cell by cell.
#[derive(Clone, PartialEq, Eq)]
pub struct RecordBuf {
    line: Vec<u8>,
}

impl fmt::Debug for RecordBuf {
    fn fmt(&self, f: &mut fmt::Formatter<'_>) -> fmt::Result {
        f.debug_tuple("RecordBuf").field(&characters(&self.line)).finish()
    }
}

impl RecordBuf {
    /// A record of the kind in which nothing was set but constants. [`Error::NoSuchField`] where the letters name no kind.
    pub fn blank(kind: &str) -> Result<RecordBuf, Error> {
        let line = calls::blank(kind.as_bytes());
        if line.is_empty() {
            return Err(Error::NoSuchField);
        }
        Ok(RecordBuf { line })
    }

    /// Sets the cell of the field of that name. Characters above U+00FF are refused as too wide; nothing else is judged.
    pub fn set(&mut self, name: &str, text: &str) -> Result<&mut RecordBuf, Error> {
        let &Field { start, width, .. } = field_named(&self.line[..3], name).ok_or(Error::NoSuchField)?;
        let mut cell = Vec::with_capacity(width);
        for it in text.chars() {
            cell.push(u8::try_from(u32::from(it)).map_err(|_| Error::TooWide)?);
        }
        if cell.len() > width {
            return Err(Error::TooWide);
        }
        cell.resize(width, b' ');
        self.line[start..start + width].copy_from_slice(&cell);
        Ok(self)
    }

    /// The record.
    pub fn record(&self) -> Record<'_> {
        Record::of_line(&self.line)
    }
}
