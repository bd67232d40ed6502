//! One record of an accepted file, as its row in the table tells of it. Of the crate's modules it imports `kinds`, `digits` and
//! `character_set` alone.

use crate::character_set::CharacterSet;
use crate::digits::number_in;
use crate::kinds::{DataType, Kind};

/// One record of an accepted file: the seven numbers of its row in the table, in their order.
#[derive(Clone, Copy, Debug, Default, PartialEq, Eq)]
#[repr(C)]
pub struct Row {
    /// The record type.
    pub record_type: u64,
    /// Where the record's four-byte length field stands in the file.
    pub offset: u64,
    /// The record's length, without the length field.
    pub length: u64,
    /// The cash letter's ordinal in the file; 0 outside any.
    pub letter: u64,
    /// The bundle's ordinal in its cash letter; 0 outside any.
    pub bundle: u64,
    /// The item's ordinal in its bundle; 0 outside any bundle, and so at a credit that stands directly in its cash letter.
    pub item: u64,
    /// Cents: an item's amount, or the debits that a control record's part adds up to; otherwise 0.
    pub amount: u64,
}

impl Row {
    /// How many numbers a row has.
    pub(crate) const NUMBERS: usize = 7;

    /// The record's kind.
    pub fn kind(&self) -> Option<&'static Kind> {
        Kind::of(self.record_type)
    }

    /// The record's own bytes, without the length before them, in the file that was read.
    pub fn body<'f>(&self, file: &'f [u8]) -> Option<&'f [u8]> {
        let start = usize::try_from(self.offset).ok()?.checked_add(4)?;
        file.get(start..start.checked_add(usize::try_from(self.length).ok()?)?)
    }

    /// The bytes of one field, in the file that was read, as they stand there: of an EBCDIC file in EBCDIC. [`Row::text`] translates them.
    ///
    /// ```
    /// # fn main() -> Result<(), Box<dyn std::error::Error>> {
    /// let file = std::fs::read("../../peer/samples/sound-2-checks.x9")?;
    /// let reading = x9180::read(&file)?;
    /// assert_eq!(reading.rows()[0].field(&file, 6), Some(b"20050230".as_slice())); // File Creation Date
    /// # Ok(())
    /// # }
    /// ```
    pub fn field<'f>(&self, file: &'f [u8], number: u64) -> Option<&'f [u8]> {
        let body = self.body(file)?;
        body.get(self.kind()?.range(CharacterSet::of(file), body, number)?)
    }

    /// The characters of one field, in the file that was read, whatever set that is in. `None` for a Binary field, which holds no
    /// characters.
    ///
    /// ```
    /// # fn main() -> Result<(), Box<dyn std::error::Error>> {
    /// for name in ["../../samples/two-letters-with-pictures.x9", "../../samples/ebcdic-with-pictures.x9"] {
    ///     let file = std::fs::read(name)?;
    ///     let header = x9180::read(&file)?.rows()[0];
    ///     assert_eq!(header.text(&file, 6).as_deref(), Some("20240116")); // File Creation Date
    /// }
    /// # Ok(())
    /// # }
    /// ```
    pub fn text(&self, file: &[u8], number: u64) -> Option<String> {
        let is_binary = self.kind()?.field(number)?.data_type == DataType::Binary;
        let bytes = self.field(file, number).filter(|_| !is_binary)?;
        CharacterSet::of(file).text(bytes)
    }

    /// Whether the record is an item's first: a Check Detail, a Return or a Credit/Reconciliation Record (clause 35.4 counts all three).
    pub fn is_item(&self) -> bool {
        matches!(self.record_type, 25 | 31 | 61)
    }

    /// Whether the record is an addendum of an item.
    pub fn is_addendum(&self) -> bool {
        matches!(self.record_type, 26..=28 | 32..=35)
    }

    /// Whether the record is a Credit/Reconciliation Record that makes a debit: its Record Usage Indicator is 9, "Debit Adjustment"
    /// (clause 26.2).
    pub(crate) fn is_debit_adjustment(&self, file: &[u8]) -> bool {
        let usage = || number_in(CharacterSet::of(file), self.field(file, 2)?);
        self.record_type == 61 && usage() == Some(9)
    }
}
