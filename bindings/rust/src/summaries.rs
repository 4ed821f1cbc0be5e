//! What stands in a transmission, in numbers.

use crate::calls;
use crate::errors::Error;
use crate::verdicts::{linked, Limits, Verdict};

/// How many columns a summary has.
pub const COLUMNS: usize = 80;

/// What stands in a text's transmission; of one that is refused or ends too early, what stands in the items before. A work is a transaction
/// that begins with NWR or REV: the copy in an acknowledgement is none, though its records count as records.
#[derive(Clone, Copy, Debug, PartialEq, Eq)]
pub struct Summary {
    /// The numbers, in the order of `cwr_column` of the C header.
    pub numbers: [u64; COLUMNS],
}

/// A right in which shares of works are owned.
#[derive(Clone, Copy, Debug, PartialEq, Eq)]
pub enum Right {
    /// Performing.
    Performing,
    /// Mechanical.
    Mechanical,
    /// Synchronization.
    Synchronization,
}

impl Summary {
    /// How many groups there are.
    pub fn groups(&self) -> u64 {
        self.numbers[0]
    }

    /// How many transactions there are of each type: AGR, NWR, REV, ACK.
    pub fn transactions(&self) -> &[u64] {
        &self.numbers[1..5]
    }

    /// How many records there are of each kind, in the order of [`kinds`](crate::kinds).
    pub fn records(&self) -> &[u64] {
        &self.numbers[5..45]
    }

    /// How many works there are of each version type: ORI, MOD.
    pub fn works(&self) -> &[u64] {
        &self.numbers[45..47]
    }

    /// How many acknowledgements there are with each status: CO, DU, RA, AS, AC, SR, CR, RJ, NP, RC.
    pub fn acknowledgements(&self) -> &[u64] {
        &self.numbers[47..57]
    }

    /// How many findings each rule makes, V1 to V11.
    pub fn findings(&self) -> &[u64] {
        &self.numbers[57..68]
    }

    /// The shares of SPU and SWR in works in the right added up, in hundredths of a percent: a control, and no money.
    pub fn controlled(&self, right: Right) -> u64 {
        self.numbers[68 + right as usize]
    }

    /// Those of OPU and OWR.
    pub fn others(&self, right: Right) -> u64 {
        self.numbers[71 + right as usize]
    }

    /// How many works have no share in the right: each is blank.
    pub fn works_without(&self, right: Right) -> u64 {
        self.numbers[74 + right as usize]
    }

    /// How many works have shares in the right that add up to neither nothing nor about the whole (V3, V4, V5).
    pub fn works_off(&self, right: Right) -> u64 {
        self.numbers[77 + right as usize]
    }
}

/// What stands in the text, and the verdict. Memory holds one transaction.
///
/// # Errors
///
/// [`Error::Memory`], [`Error::Limits`] and [`Error::Interface`]; a text that isn't good is none.
pub fn summary(text: &[u8], limits: &Limits) -> Result<(Summary, Verdict), Error> {
    linked()?;
    let mut numbers = [0; COLUMNS];
    let (count, raw) = calls::summary(text, limits, &mut numbers);
    let verdict = Verdict::of(&raw)?;
    if count != COLUMNS {
        return Err(Error::Interface);
    }
    Ok((Summary { numbers }, verdict))
}
