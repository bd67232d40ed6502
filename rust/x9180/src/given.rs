//! The values of one record, on their way into a draft. Of the crate's modules it imports `fit`, `value`, `misfit`, `kinds` and
//! `character_set` alone.

use std::borrow::Cow;

use crate::character_set::CharacterSet;
use crate::fit::{self, Slot};
use crate::kinds::{DataType, Kind};
use crate::misfit::Misfit;
use crate::value::Value;

/// The values of one record, field by field, for a [`Draft`](crate::Draft): blank where none is given. Fields that the writer works out are not
/// given ([`Kind::works_out`]). The makers of [`make`](crate::make) fill these in by name.
///
/// ```
/// let picture = [0x49, 0x49, 0x2A, 0x00];
/// let mut data = x9180::Record::new(52)?;
/// data.set(5, "1")?; // ECE Institution Item Sequence Number
/// data.lend(27, &picture)?; // Image Data: lent, not copied
/// assert_eq!(data.text(5).as_deref(), Some("1              "));
/// assert!(data.set(20, 4).is_err()); // Length of Image Data: worked out
/// # Ok::<(), x9180::Misfit>(())
/// ```
#[derive(Clone, Debug, PartialEq, Eq)]
pub struct Record<'p> {
    kind: &'static Kind,
    /// The fixed part in ASCII.
    fixed: Vec<u8>,
    /// The variable fields, in ASCII where they are characters.
    parts: Vec<Cow<'p, [u8]>>,
    blank_micr_total: bool,
}

impl<'p> Record<'p> {
    /// A record of this type, every field of it blank. Refused for a type that is not carried.
    pub fn new(record_type: u64) -> Result<Record<'p>, Misfit> {
        let kind = fit::carried(record_type)?;
        // The type is worked out, but for the first record, whose type tells the writer the set of the whole text.
        let fixed = format!("{:<length$}", format!("{:02}", kind.number), length = kind.fixed_length()).into_bytes();
        Ok(Record { kind, fixed, parts: vec![Cow::default(); kind.parts().count()], blank_micr_total: false })
    }

    /// The record's kind.
    pub fn kind(&self) -> &'static Kind {
        self.kind
    }

    /// The characters of a field that is given, blanks among them; `None` for a Binary field, and for what the writer works out.
    pub fn text(&self, field: u64) -> Option<String> {
        let named = self.kind.field(field).filter(|named| named.data_type != DataType::Binary)?;
        let bytes = match fit::given(self.kind, named.number).ok()?.1 {
            Slot::Fixed(range) => self.fixed.get(range)?,
            Slot::Part(place) => self.parts.get(place)?,
        };
        CharacterSet::Ascii.text(bytes)
    }

    /// Gives a field its value, in place of an earlier one. Refused where it does not fit or is not in the field's data type, and for a field that
    /// the writer works out.
    pub fn set<'v>(&mut self, field: u64, value: impl Into<Value<'v>>) -> Result<(), Misfit> {
        let (slot, characters) = fit::characters(self.kind, field, value.into())?;
        match slot {
            Slot::Fixed(range) => {
                if let Some(place) = self.fixed.get_mut(range) {
                    place.copy_from_slice(characters.as_bytes());
                }
            }
            Slot::Part(place) => self.put(place, Cow::Owned(characters.into_bytes())),
        }
        Ok(())
    }

    /// Lends a Binary field its bytes: a picture, a signature, a certificate. They are copied when the record is put into a draft, and not before.
    pub fn lend(&mut self, field: u64, bytes: &'p [u8]) -> Result<(), Misfit> {
        let place = fit::binary(self.kind, field, bytes.len())?;
        self.put(place, Cow::Borrowed(bytes));
        Ok(())
    }

    /// Asks that the MICR Valid Debit Total Amount of a Bundle Control Record (type 70) be left blank, or be worked out as it is otherwise. Refused
    /// for any other record.
    pub fn ask_blank_micr_total(&mut self, blank: bool) -> Result<(), Misfit> {
        fit::micr_total(self.kind)?;
        self.blank_micr_total = blank;
        Ok(())
    }

    fn put(&mut self, place: usize, bytes: Cow<'p, [u8]>) {
        if let Some(part) = self.parts.get_mut(place) {
            *part = bytes;
        }
    }

    pub(crate) fn fixed(&self) -> &[u8] {
        &self.fixed
    }

    /// The variable fields, and whether each holds characters.
    pub(crate) fn parts(&self) -> impl Iterator<Item = (&[u8], bool)> {
        let are_characters = self.kind.parts().map(|part| part.data_type != DataType::Binary);
        self.parts.iter().map(|part| part.as_ref()).zip(are_characters)
    }

    pub(crate) fn asks_blank_micr_total(&self) -> bool {
        self.blank_micr_total
    }
}
