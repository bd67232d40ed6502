//! The plain words of a refusal to write a draft. The proved library says what is wrong and where; this module looks at the values that were given
//! there, and `before` at the records before them, to say what stands there. It decides nothing.
//!
//! It makes the refusals whose form `refusal` gives, as `explain` does for files, of which it uses the words for what a field asks.

use crate::before::Before;
use crate::character_set::CharacterSet;
use crate::draft_row::DraftRow;
use crate::explain::asked;
use crate::kinds::{DataType, Field, Kind, Place};
use crate::refusal::{Number, Refusal, Words};
use crate::shown::shown;

/// A draft as it was lent to the library, and what the library answered.
pub(crate) struct Unwritten<'d> {
    pub set: CharacterSet,
    pub text: &'d [u8],
    pub rows: &'d [DraftRow],
    /// The bytes that the file would have.
    pub size: u64,
    pub number: Number,
    pub record: u64,
    pub field: u64,
    pub offset: u64,
}

impl<'d> Unwritten<'d> {
    /// The refusal in plain words.
    pub fn refusal(&self) -> Refusal {
        let mut words = Words::default();
        match self.number {
            Number::SIZE => words.lines.push(format!("the file would have {} bytes", self.size)),
            Number::ROOM => words.lines.push(format!("{} bytes are needed", self.record)),
            _ => self.describe(&mut words),
        }
        let Unwritten { number, record, field, offset, .. } = *self;
        Refusal { number, record, field, offset, words: Box::new(words) }
    }

    /// The row of the record at fault; none where the rows end before a 99.
    fn row(&self) -> Option<&'d DraftRow> {
        self.rows.get(self.index())
    }

    /// Where that row stands among the rows, from 0.
    fn index(&self) -> usize {
        usize::try_from(self.record.saturating_sub(1)).unwrap_or(usize::MAX)
    }

    /// Says which record and field it is, what was given there, and what it disagrees with.
    fn describe(&self, words: &mut Words) {
        let (record, offset) = (self.record, self.offset);
        words.kind = self.row().and_then(DraftRow::kind);
        words.lines.push(match words.kind {
            Some(kind) => format!("record {record} of the draft, {kind}, at offset {offset} of the file being made"),
            None => format!("record {record} of the draft, which ends without a File Control Record (type 99)"),
        });
        if let (Some(row), Some(kind)) = (self.row(), words.kind) {
            self.describe_field(words, row, kind);
        }
        let before = self.before();
        match self.number {
            Number::PLACE => words.lines.extend(before.place(words.kind, record)),
            Number::LINK => words.lines.extend(before.link(words.kind, self.field)),
            Number::TOTAL => {
                words.lines.extend(before.total(words.kind, self.field, record));
                words.lines.extend(words.kind.map(|kind| holds_digits(kind, self.field)));
            }
            _ => {}
        }
    }

    /// Field 1 is the whole record's: nothing was given there.
    fn describe_field(&self, words: &mut Words, row: &DraftRow, kind: &'static Kind) {
        let Some(field) = kind.field(self.field).filter(|field| field.number != 1) else { return };
        let at = row.range(field.number).map(|range| self.offset.saturating_add(4).saturating_add(range.start));
        let at = at.map_or_else(String::new, |at| format!(", at offset {at}"));
        words.lines.push(format!("field {}, {}{at}", field.number, field.name));
        match kind.works_out(field.number) {
            true if self.number == Number::FIELD => words.lines.extend(self.outgrown(row, kind, field)),
            true => {}
            false => self.describe_given(words, row, kind, field),
        }
    }

    /// A value that was given.
    fn describe_given(&self, words: &mut Words, row: &DraftRow, kind: &Kind, field: &Field) {
        let Some(given) = row.range_in_text(field.number).and_then(|range| self.text.get(range)) else {
            words.lines.push("given nothing: it does not lie in the draft's text".to_string());
            return;
        };
        words.keep("given ", given, |bytes| shown(self.set, bytes));
        if self.number == Number::FIELD {
            words.lines.extend(asked(self.set, kind, field, given));
        }
    }

    /// A length or count that is worked out, and is too long for its field.
    fn outgrown(&self, row: &DraftRow, kind: &'static Kind, field: &Field) -> Vec<String> {
        let part = kind.parts().find(|part| part.place == Place::SizedBy(field.number));
        let what = match (part, row.size_stated_by(field.number)) {
            (Some(part), Some(size)) => {
                let unit = if part.data_type == DataType::Binary { "bytes" } else { "characters" };
                format!("field {}, {}, has {size} {unit}", part.number, part.name)
            }
            _ => format!("{} addenda follow the item", self.addenda_behind(row)),
        };
        vec![what, holds_digits(kind, field.number)]
    }

    /// How many addenda of its kind stand right behind an item.
    fn addenda_behind(&self, item: &DraftRow) -> usize {
        let of_item = |row: &&DraftRow| match item.record_type {
            25 => matches!(row.record_type, 26..=28),
            _ => matches!(row.record_type, 32..=35),
        };
        self.rows.iter().skip(self.index().saturating_add(1)).take_while(of_item).count()
    }

    /// The records before the one at fault, in which the library has found nothing wrong.
    fn before(&self) -> Before<'d> {
        let (text, rows) = (self.text, self.rows);
        let records = rows.iter().take(self.index()).filter_map(|row| Some((row.kind()?, row.body(text)?)));
        Before::of_draft(self.set, records)
    }
}

fn holds_digits(kind: &Kind, field: u64) -> String {
    format!("the field holds {} digits", kind.most(field))
}

#[cfg(test)]
mod tests {
    use super::*;

    /// The lines behind the first of a refusal of the one record of a draft.
    fn lines(row: DraftRow, text: &[u8], number: Number, field: u64) -> Vec<String> {
        let unwritten =
            Unwritten { set: CharacterSet::Ascii, text, rows: &[row], size: 7, number, record: 1, field, offset: 0 };
        format!("{:#}", unwritten.refusal()).lines().skip(1).map(str::to_string).collect()
    }

    /// What no draft of this package leads to, since it holds no more than fits, the library may answer all the same.
    #[test]
    fn parts_that_outgrow_their_lengths_and_values_outside_the_text() {
        let mut row = DraftRow { record_type: 52, ..DraftRow::default() };
        row.sizes[5] = 10_000_000;
        let expected = [
            "record 1 of the draft, Image View Data Record (type 52), at offset 0 of the file being made",
            "field 20, Length of Image Data, at offset 131",
            "field 27, Image Data, has 10000000 bytes",
            "the field holds 7 digits",
        ];
        assert_eq!(lines(row, b"", Number::FIELD, 20), expected);
        let row = DraftRow { record_type: 27, start: u64::MAX, sizes: [u64::MAX; 7], ..row };
        assert_eq!(
            lines(row, b"", Number::FIELD, 6)[2],
            "field 13, Image Archive Locator, has 18446744073709551615 characters"
        );
        for field in [2, 13, 18] {
            assert_eq!(lines(row, b"", Number::FIELD, field)[2], "given nothing: it does not lie in the draft's text");
        }
    }

    #[test]
    fn too_many_bytes() {
        assert_eq!(lines(DraftRow::default(), b"", Number::SIZE, 0), ["the file would have 7 bytes"]);
        assert_eq!(lines(DraftRow::default(), b"", Number::ROOM, 0), ["1 bytes are needed"]);
    }
}
