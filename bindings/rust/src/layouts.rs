//! The kinds of records and their layouts, as the library has them.

use crate::calls;
use std::cell::Cell;
use std::sync::{Mutex, PoisonError};

/// What the cells of a field hold.
#[derive(Clone, Copy, Debug, PartialEq, Eq)]
#[non_exhaustive]
pub enum Type {
    /// Text without control bytes.
    Text,
    /// The same, and not blank.
    Required,
    /// Digits.
    Digits,
    /// Digits or spaces.
    OptionalDigits,
    /// `YYYYMMDD`.
    Date,
    /// `YYYYMMDD`, zeros or spaces.
    OptionalDate,
    /// `HHMMSS`, a time of day.
    Time,
    /// `HHMMSS` or spaces.
    OptionalTime,
    /// `HHMMSS` with at most 99 hours, or spaces.
    OptionalDuration,
    /// Five digits, hundredths of a percent up to 10000, or spaces.
    Share,
    /// `Y`, `N`, `U` or a space.
    Flag,
    /// A code.
    Code,
    /// A code or spaces.
    OptionalCode,
    /// One word.
    Constant,
}

impl Type {
    /// The type of a number of the library.
    fn of(ty: u32) -> Type {
        match ty {
            1 => Type::Text,
            2 => Type::Required,
            3 => Type::Digits,
            4 => Type::OptionalDigits,
            5 => Type::Date,
            6 => Type::OptionalDate,
            7 => Type::Time,
            8 => Type::OptionalTime,
            9 => Type::OptionalDuration,
            10 => Type::Share,
            11 => Type::Flag,
            12 => Type::Code,
            13 => Type::OptionalCode,
            _ => Type::Constant,
        }
    }
}

/// A field of a kind.
#[derive(Clone, Debug, PartialEq, Eq)]
#[non_exhaustive]
pub struct Field {
    /// Its number in reports, from 1.
    pub number: u8,
    /// Its name in reports, as `pr share`.
    pub name: String,
    /// Its first byte in the line, from 0.
    pub start: usize,
    /// How many bytes it has.
    pub width: usize,
    /// What its cells hold.
    pub ty: Type,
    /// Whether its cells are computed when they are written.
    pub derived: bool,
}

impl Field {
    /// The texts that its cells may hold where these can be listed: codes, flags, a constant.
    pub fn codes(&self, kind: &str) -> Vec<String> {
        (0..)
            .map(|i| calls::code(kind.as_bytes(), self.number, i))
            .take_while(|code| !code.is_empty())
            .map(|code| String::from_utf8_lossy(&code).into_owned())
            .collect()
    }
}

/// The kinds, and of each its fields, as the library has them.
struct Layouts {
    kinds: Vec<String>,
    fields: Vec<Vec<Field>>,
}

impl Layouts {
    fn read() -> Layouts {
        let kinds: Vec<String> = (0..)
            .map(calls::kind)
            .take_while(|kind| !kind.is_empty())
            .map(|kind| String::from_utf8_lossy(&kind).into_owned())
            .collect();
        let fields = kinds.iter().map(|kind| fields_of(kind.as_bytes())).collect();
        Layouts { kinds, fields }
    }

    fn of(&self, kind: &[u8]) -> &[Field] {
        let at = self.kinds.iter().position(|it| it.as_bytes() == kind);
        at.and_then(|at| self.fields.get(at)).map_or(&[], Vec::as_slice)
    }
}

fn fields_of(kind: &[u8]) -> Vec<Field> {
    (1..=u8::MAX)
        .map(|number| (number, calls::field(kind, number)))
        .take_while(|(_, (name, _))| !name.is_empty())
        .map(|(number, (name, place))| Field {
            number,
            name: String::from_utf8_lossy(&name).into_owned(),
            start: place.start,
            width: place.width,
            ty: Type::of(place.ty),
            derived: place.derived != 0,
        })
        .collect()
}

/// The layouts. They are read once, and kept as long as the program runs; a thread that has asked once waits for no other.
fn layouts() -> &'static Layouts {
    static KEPT: Mutex<Option<&'static Layouts>> = Mutex::new(None);
    thread_local! {
        static NEAR: Cell<Option<&'static Layouts>> = Cell::new(None);
    }
    NEAR.with(|near| {
        near.get().unwrap_or_else(|| {
            let mut kept = KEPT.lock().unwrap_or_else(PoisonError::into_inner);
            let found: &'static Layouts = kept.get_or_insert_with(|| &*Box::leak(Box::new(Layouts::read())));
            near.set(Some(found));
            found
        })
    })
}

/// The kinds of this profile, in order: `HDR` first.
pub fn kinds() -> &'static [String] {
    &layouts().kinds
}

/// The fields of a kind, in order. Empty where three letters name no kind.
pub fn fields(kind: &str) -> &'static [Field] {
    layouts().of(kind.as_bytes())
}

/// The field of that name.
pub(crate) fn field_named(kind: &[u8], name: &str) -> Option<&'static Field> {
    layouts().of(kind).iter().find(|it| it.name == name)
}
