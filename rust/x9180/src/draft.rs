//! The draft of a file: the values of its records, from which the proved library works out the rest and writes the file (request 4).

use std::borrow::Cow;

use crate::character_set::CharacterSet;
use crate::draft_row::DraftRow;
use crate::explain;
use crate::explain_draft::Unwritten;
use crate::ffi;
use crate::fit::{self, Slot};
use crate::given::Record;
use crate::kinds::{DataType, Kind};
use crate::misfit::Misfit;
use crate::more_bytes::LIMIT;
use crate::refusal::{Number, Refusal};
use crate::room::room;
use crate::value::Value;

/// The draft of a file: the values of its records in their order. What is right, the proved library decides, when the file is written; it works out
/// every length, count, record number and sum ([`Kind::works_out`]).
///
/// Records are counted from 1, as in a refusal, and so are fields.
///
/// To change a file and write it again:
///
/// ```
/// use x9180::{Date, Draft};
///
/// # fn main() -> Result<(), Box<dyn std::error::Error>> {
/// let file = std::fs::read("../../samples/two-letters-with-pictures.x9")?;
/// let mut draft = Draft::of(&file)?;
/// assert_eq!(draft.write()?, file);
///
/// for letter in draft.of_type(90) {
///     draft.set(letter, 7, Date::new(2024, 1, 18))?; // Settlement Date
/// }
/// let check = draft.of_type(25)[0];
/// draft.set(check, 6, 1_000)?; // Item Amount, in cents, 12550 before: all sums follow
/// let changed = draft.write()?;
/// assert_eq!(x9180::read(&changed)?.letter(1).map(|letter| letter.totals().debit), Some(5_007));
/// # Ok(())
/// # }
/// ```
///
/// To make one from nothing, by names, see [`make`](crate::make).
#[derive(Clone, Debug)]
pub struct Draft<'t> {
    set: CharacterSet,
    text: Cow<'t, [u8]>,
    rows: Vec<DraftRow>,
}

impl<'t> Draft<'t> {
    /// A draft without a record.
    pub fn new() -> Draft<'static> {
        Draft { set: CharacterSet::Ascii, text: Cow::Borrowed(&[]), rows: Vec::new() }
    }

    /// The draft of a file. The file is lent as its text: nothing is copied before the draft is changed. Refused as
    /// [`read`](crate::read) refuses. Written again it gives the same bytes; of a file in EBCDIC, its copy in ASCII.
    pub fn of(file: &'t [u8]) -> Result<Draft<'t>, Refusal> {
        let mut rows = Vec::new();
        loop {
            let [number, record, field, offset, ..] = ffi::draft(file, &mut rows);
            match Number(number) {
                Number::ACCEPTED => {
                    return Ok(Draft { set: CharacterSet::of(file), text: Cow::Borrowed(file), rows });
                }
                // The first call, with no rows, tells how many are needed; the second has them.
                Number::ROOM if rows.is_empty() && room(&mut rows, record) => {}
                refused => return Err(explain::reading(file, refused, record, field, offset)),
            }
        }
    }

    /// The draft of these records, in ASCII. Each picture is copied once.
    pub fn of_records(records: &[Record<'_>]) -> Draft<'static> {
        let bytes =
            |record: &Record<'_>| record.fixed().len() + record.parts().map(|(part, _)| part.len()).sum::<usize>();
        let text = Vec::with_capacity(records.iter().map(bytes).sum());
        let mut draft = Draft { text: Cow::Owned(text), ..Draft::new() };
        draft.rows.reserve_exact(records.len());
        records.iter().for_each(|record| draft.push(record));
        draft
    }

    /// How many records there are.
    pub fn records(&self) -> u64 {
        self.rows.len() as u64
    }

    /// The kind of a record.
    pub fn kind(&self, record: u64) -> Option<&'static Kind> {
        self.row(record)?.kind()
    }

    /// The records of a type, in their order.
    pub fn of_type(&self, record_type: u64) -> Vec<u64> {
        let numbered = (1..).zip(&self.rows);
        numbered.filter(|(_, row)| row.record_type == record_type).map(|(record, _)| record).collect()
    }

    /// The characters of a field that is given, blanks among them; `None` for a Binary field, for what the writer works out, and where there is no
    /// such field.
    pub fn text(&self, record: u64, field: u64) -> Option<String> {
        let is_binary = self.kind(record)?.field(field)?.data_type == DataType::Binary;
        let bytes = self.bytes(record, field).filter(|_| !is_binary)?;
        self.set.text(bytes)
    }

    /// The bytes of a field that is given, as they stand in the draft's text: characters in the set of the file that the draft is of. `None` for what
    /// the writer works out, and where there is no such field.
    pub fn bytes(&self, record: u64, field: u64) -> Option<&[u8]> {
        let row = self.row(record)?;
        let is_given = !row.kind()?.works_out(field);
        self.text.get(row.range_in_text(field)?).filter(|_| is_given)
    }

    /// Gives a field its value, in place of an earlier one. Refused where it does not fit or is not in the field's data type, and for a field that
    /// the writer works out.
    ///
    /// ```
    /// use x9180::{Draft, Misfit};
    ///
    /// # fn main() -> Result<(), Box<dyn std::error::Error>> {
    /// let file = std::fs::read("../../peer/samples/sound-2-checks.x9")?;
    /// let mut draft = Draft::of(&file)?;
    /// let misfit = draft.set(4, 12, 2).unwrap_err();
    /// assert_eq!(
    ///     misfit.to_string(),
    ///     "record 4 of the draft, Check Detail Record (type 25); field 12, Check Detail Record Addendum Count; asked: nothing: the \
    ///      writer works it out"
    /// );
    /// # Ok(())
    /// # }
    /// ```
    pub fn set<'v>(&mut self, record: u64, field: u64, value: impl Into<Value<'v>>) -> Result<(), Misfit> {
        let kind = self.known(record)?;
        let fitted = fit::characters(kind, field, value.into());
        let (slot, characters) = fitted.map_err(|misfit| misfit.of_record(record))?;
        let bytes = in_set(self.set, characters.as_bytes());
        match slot {
            Slot::Fixed(_) => self.overwrite(record, field, &bytes),
            Slot::Part(place) => self.replace(record, field, place, &bytes),
        }
        Ok(())
    }

    /// Gives a Binary field its bytes, as a picture, in place of earlier ones.
    pub fn set_bytes(&mut self, record: u64, field: u64, bytes: &[u8]) -> Result<(), Misfit> {
        let fitted = fit::binary(self.known(record)?, field, bytes.len());
        let place = fitted.map_err(|misfit| misfit.of_record(record))?;
        self.replace(record, field, place, bytes);
        Ok(())
    }

    /// Whether a Bundle Control Record (type 70) is to have a blank MICR Valid Debit Total Amount.
    pub fn asks_blank_micr_total(&self, record: u64) -> bool {
        self.row(record).is_some_and(DraftRow::asks_blank_micr_total)
    }

    /// Asks that the MICR Valid Debit Total Amount of a Bundle Control Record (type 70) be left blank, or be worked out. Refused for any other record.
    pub fn ask_blank_micr_total(&mut self, record: u64, blank: bool) -> Result<(), Misfit> {
        let kind = self.known(record)?;
        fit::micr_total(kind).map_err(|misfit| misfit.of_record(record))?;
        if let Some(row) = self.row_mut(record) {
            row.flag = u64::from(blank);
        }
        Ok(())
    }

    /// Adds a record at the end.
    pub fn push(&mut self, record: &Record<'_>) {
        let row = self.laid_down(record);
        self.rows.push(row);
    }

    /// Adds a record so that it becomes the one of this number; those from there on move up by one. Refused where that would leave a gap.
    pub fn insert(&mut self, number: u64, record: &Record<'_>) -> Result<(), Misfit> {
        let Some(index) = index(number).filter(|index| *index <= self.rows.len()) else {
            return Err(self.no_record(number));
        };
        let row = self.laid_down(record);
        self.rows.insert(index, row);
        Ok(())
    }

    /// Takes a record out; those behind it move down by one.
    pub fn remove(&mut self, record: u64) -> Result<(), Misfit> {
        let Some(index) = index(record).filter(|index| *index < self.rows.len()) else {
            return Err(self.no_record(record));
        };
        self.rows.remove(index);
        Ok(())
    }

    /// How many bytes the file will have.
    pub fn size(&self) -> u64 {
        self.rows.iter().fold(0, |size, row| size.saturating_add(row.bytes_in_file()))
    }

    /// Has the proved library write the file, in ASCII. What it writes, [`read`](crate::read) accepts. The refusal tells the record of the draft, the
    /// field, what was given there and what is asked; its offset is the one that the record would have in the file.
    ///
    /// ```
    /// use x9180::{Draft, Number};
    ///
    /// # fn main() -> Result<(), Box<dyn std::error::Error>> {
    /// let file = std::fs::read("../../peer/samples/sound-2-checks.x9")?;
    /// let mut draft = Draft::of(&file)?;
    /// draft.set(4, 4, "123456781")?;
    /// let refusal = draft.write().unwrap_err();
    /// assert_eq!((refusal.number(), refusal.record(), refusal.field(), refusal.offset()), (Number::FIELD, 4, 4, 252));
    /// assert!(format!("{refusal:#}").starts_with(
    ///     "FIELD: a field breaks its data type or its defined values\n\
    ///      record 4 of the draft, Check Detail Record (type 25), at offset 252 of the file being made\n\
    ///      field 4, Payor Bank Routing Number, at offset 274\n\
    ///      given \"123456781\"\n\
    ///      asked: a routing number in one of these forms: TTTTAAAAC (nine digits, the ninth the check digit of the ABA rule)"
    /// ));
    /// # Ok(())
    /// # }
    /// ```
    pub fn write(&self) -> Result<Vec<u8>, Refusal> {
        // A file past the limit is refused whatever the buffer, so none is made ready.
        let size = usize::try_from(self.size()).ok().filter(|size| *size <= LIMIT).unwrap_or(0);
        let mut file = Vec::new();
        let had = file.try_reserve_exact(size).is_ok();
        file.resize(if had { size } else { 0 }, 0);
        let [number, record, field, offset, ..] = ffi::write(&self.text, &self.rows, &mut file);
        match Number(number) {
            Number::ACCEPTED => {
                file.truncate(usize::try_from(offset).unwrap_or(usize::MAX));
                Ok(file)
            }
            number => {
                let (text, rows, size) = (self.text.as_ref(), self.rows.as_slice(), self.size());
                Err(Unwritten { set: self.set, text, rows, size, number, record, field, offset }.refusal())
            }
        }
    }

    fn row(&self, record: u64) -> Option<&DraftRow> {
        self.rows.get(index(record)?)
    }

    fn row_mut(&mut self, record: u64) -> Option<&mut DraftRow> {
        self.rows.get_mut(index(record)?)
    }

    /// The kind of a record that there is.
    fn known(&self, record: u64) -> Result<&'static Kind, Misfit> {
        self.kind(record).ok_or_else(|| self.no_record(record))
    }

    fn no_record(&self, record: u64) -> Misfit {
        let asked = format!("the number of a record: the draft has {}", self.rows.len());
        Misfit::without_record(0, Some(format!("record {record}")), asked)
    }

    /// Puts other bytes in the place of as many.
    fn overwrite(&mut self, record: u64, field: u64, bytes: &[u8]) {
        let range = self.row(record).and_then(|row| row.range_in_text(field));
        if let Some(place) = range.and_then(|range| self.text.to_mut().get_mut(range)) {
            place.copy_from_slice(bytes);
        }
    }

    /// Gives a variable field other bytes: in their place where they are as many, otherwise the whole record is laid down anew at the end of the text.
    fn replace(&mut self, record: u64, field: u64, place: usize, bytes: &[u8]) {
        let places = self.row(record).and_then(|row| Some((row.range_of_body()?, row.range_in_text(field)?)));
        let Some((whole, old)) = places.filter(|(whole, _)| whole.end <= self.text.len()) else { return };
        if old.len() == bytes.len() {
            return self.overwrite(record, field, bytes);
        }
        let (start, behind) = (self.text.len(), old.end..whole.end);
        let text = self.text.to_mut();
        text.extend_from_within(whole.start..old.start);
        text.extend_from_slice(bytes);
        text.extend_from_within(behind);
        if let Some(row) = self.row_mut(record) {
            row.start = start as u64;
            row.sizes.get_mut(place).into_iter().for_each(|size| *size = bytes.len() as u64);
        }
    }

    /// Lays a record down at the end of the text, in the draft's set, and gives its row.
    fn laid_down(&mut self, record: &Record<'_>) -> DraftRow {
        let set = self.set;
        let text = self.text.to_mut();
        let (record_type, start) = (record.kind().number, text.len() as u64);
        let flag = u64::from(record.asks_blank_micr_total());
        let mut row = DraftRow { record_type, start, flag, ..DraftRow::default() };
        text.extend_from_slice(&in_set(set, record.fixed()));
        for ((part, are_characters), size) in record.parts().zip(&mut row.sizes) {
            match are_characters {
                true => text.extend_from_slice(&in_set(set, part)),
                false => text.extend_from_slice(part),
            }
            *size = part.len() as u64;
        }
        row
    }
}

impl Default for Draft<'_> {
    fn default() -> Self {
        Draft::new()
    }
}

/// Where the record of a number, counted from 1, stands among the rows, counted from 0.
fn index(record: u64) -> Option<usize> {
    usize::try_from(record.checked_sub(1)?).ok()
}

/// Characters of ASCII in a set.
fn in_set(set: CharacterSet, ascii: &[u8]) -> Cow<'_, [u8]> {
    match set {
        CharacterSet::Ascii => Cow::Borrowed(ascii),
        CharacterSet::Ebcdic => ascii.iter().filter_map(|byte| set.byte(char::from(*byte))).collect(),
    }
}
