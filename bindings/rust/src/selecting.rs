//! Selecting transactions.

use crate::calls;
use crate::errors::Error;
use crate::verdicts::{linked, Limits, Verdict};

/// The place of a transaction: so the program names it.
#[repr(C)]
#[derive(Clone, Copy, Debug, PartialEq, Eq, PartialOrd, Ord, Hash)]
pub struct Place {
    /// The place of its group, from 1.
    pub group: u32,
    /// Its own in that group, from 0: its transaction sequence.
    pub transaction: u32,
}

/// The canonical text of the transactions with these places, as a transmission of their own, and the verdict: of a text that is good how
/// many transactions these are, and no other number. Places that no transaction has are passed over, and where none has any there is no
/// text. It has the HDR, of each group with such a transaction the GRH and these in their order, and a GRT, whose total is left out where
/// a transaction is. Memory holds the text, and the places.
///
/// # Errors
///
/// [`Error::Memory`], [`Error::Limits`] and [`Error::Interface`]; a text that isn't good is none.
pub fn select(text: &[u8], places: &[Place], limits: &Limits) -> Result<(Vec<u8>, Verdict), Error> {
    linked()?;
    let (made, raw) = calls::select(text, places, limits, text.len() + 4096)?;
    Ok((made, Verdict::of(&raw)?))
}
