//! One record of a draft, as its row tells where its values stand in the draft's text. Of the crate's modules it imports `kinds` alone.

use std::ops::Range;

use crate::kinds::{Kind, Place};

/// One record of a draft: the ten numbers of its row, in their order (include/x9180.h).
#[derive(Clone, Copy, Debug, Default, PartialEq, Eq)]
#[repr(C)]
pub(crate) struct DraftRow {
    pub record_type: u64,
    /// Where the fixed part begins in the text; the variable fields follow it there.
    pub start: u64,
    /// Of a Bundle Control Record, 1 asks for a blank MICR Valid Debit Total Amount.
    pub flag: u64,
    /// The sizes of the variable fields, in their order.
    pub sizes: [u64; DraftRow::PARTS],
}

// The library takes it for that many numbers.
const _: () = assert!(size_of::<DraftRow>() == DraftRow::NUMBERS * size_of::<u64>());

impl DraftRow {
    /// How many numbers a row has.
    pub const NUMBERS: usize = 10;

    /// The most variable fields that a record has.
    pub const PARTS: usize = 7;

    /// The record's kind.
    pub fn kind(&self) -> Option<&'static Kind> {
        Kind::of(self.record_type)
    }

    pub fn asks_blank_micr_total(&self) -> bool {
        self.record_type == 70 && self.flag == 1
    }

    /// The bytes that the record takes in the file, its four-byte length among them.
    pub fn bytes_in_file(&self) -> u64 {
        self.length().saturating_add(4)
    }

    /// The record in the text: the fixed part and the variable fields. What is worked out stands there too, as anything.
    pub fn body<'t>(&self, text: &'t [u8]) -> Option<&'t [u8]> {
        text.get(self.range_of_body()?)
    }

    /// Where the record stands in the text.
    pub fn range_of_body(&self) -> Option<Range<usize>> {
        self.stretch(0, self.length())
    }

    /// Where a field stands within the record, counted from 0.
    pub fn range(&self, number: u64) -> Option<Range<u64>> {
        let kind = self.kind()?;
        if let Place::Positions(first, last) = kind.field(number)?.place {
            return Some(first as u64 - 1..last as u64);
        }
        let place = kind.parts().position(|part| part.number == number)?;
        let before =
            self.sizes.get(..place)?.iter().fold(kind.fixed_length() as u64, |sum, size| sum.saturating_add(*size));
        Some(before..before.saturating_add(*self.sizes.get(place)?))
    }

    /// Where a field stands in the text.
    pub fn range_in_text(&self, number: u64) -> Option<Range<usize>> {
        let range = self.range(number)?;
        self.stretch(range.start, range.end)
    }

    /// The size of the variable field that this field states the length of.
    pub fn size_stated_by(&self, number: u64) -> Option<u64> {
        let place = self.kind()?.parts().position(|part| part.place == Place::SizedBy(number))?;
        self.sizes.get(place).copied()
    }

    fn length(&self) -> u64 {
        let fixed = self.kind().map_or(0, Kind::fixed_length) as u64;
        let parts = self.kind().map_or(0, |kind| kind.parts().count());
        self.sizes.iter().take(parts).fold(fixed, |sum, size| sum.saturating_add(*size))
    }

    /// A stretch of the record as one of the text.
    fn stretch(&self, from: u64, to: u64) -> Option<Range<usize>> {
        let place = |within| usize::try_from(self.start.checked_add(within)?).ok();
        Some(place(from)?..place(to)?)
    }
}
