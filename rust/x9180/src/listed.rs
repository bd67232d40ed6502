//! A row of the list that a salvage gives: a record of the torn file, and what became of it (request 11). The library fills the rows.

use crate::kinds::Kind;
use crate::refusal::Number;

/// A record of a torn file that was walked, and what became of it.
#[repr(C)]
#[derive(Clone, Copy, Debug, Default, PartialEq, Eq)]
pub struct Listed {
    /// The offset of the record's four-byte length in the torn file.
    pub offset: u64,
    /// The record's type by its first two characters alone; 0 where they are no digits.
    pub record_type: u64,
    status: u64,
    number: u64,
}

/// What became of a record of a torn file.
#[derive(Clone, Copy, Debug, PartialEq, Eq, PartialOrd, Ord, Hash)]
pub enum Status {
    /// It stands in the new file as it stood in the torn one (of a file in EBCDIC, in ASCII).
    Kept,
    /// A Cash Letter Control or File Control Record whose counts and sums were worked out anew.
    MadeNew,
    /// It is not in the new file.
    Dropped,
}

impl Listed {
    /// How many numbers a row has.
    pub(crate) const NUMBERS: usize = 4;

    /// The record's kind, where its first two characters name one.
    pub fn kind(&self) -> Option<&'static Kind> {
        Kind::of(self.record_type)
    }

    /// What became of it.
    pub fn status(&self) -> Status {
        match self.status {
            0 => Status::Kept,
            1 => Status::MadeNew,
            _ => Status::Dropped,
        }
    }

    /// Of a dropped record, the number of its run's first fault under a sound header, whichever of the run's records that is at; otherwise `PLACE`.
    pub fn fault(&self) -> Option<Number> {
        (self.status() == Status::Dropped).then_some(Number(self.number))
    }

    /// The record's own bytes in the torn file, without the length before them.
    pub fn body<'f>(&self, file: &'f [u8]) -> Option<&'f [u8]> {
        let (length, after) = file.get(usize::try_from(self.offset).ok()?..)?.split_first_chunk()?;
        after.get(..u32::from_be_bytes(*length) as usize)
    }

    /// The offset of the byte behind it.
    pub(crate) fn end(&self, file: &[u8]) -> u64 {
        self.offset.saturating_add(4).saturating_add(self.body(file).map_or(0, |body| body.len() as u64))
    }
}
