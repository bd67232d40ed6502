//! The records before a fault, as far as the plain words speak of them. The library has found no fault in these, and this module decides
//! nothing.

use crate::character_set::CharacterSet;
use crate::digits::number_in;
use crate::kinds::Kind;
use crate::reading::Totals;
use crate::shown::shown;
use crate::sums::{Stated, Sums};

impl SoFar {
    /// Its numbers in one list, to be put beside those of another: records, cash letters, bundles of the letter, items of the file and of the bundle; for file, letter and bundle the debits, their
    /// cents, the credits, their cents and the views; the MICR valid cents; of the item its addenda stated, those that came, the first and the last of them, and its views. Cents stop at 10^16, since no
    /// control field has more digits.
    pub fn numbers(&self) -> [u64; 26] {
        let cents = |sum: u64| sum.min(10_000_000_000_000_000);
        let of = |level: &Totals| {
            let (debit, credit) = (cents(level.debit), cents(level.credit));
            [level.debit_items(), debit, level.credit_items, credit, level.views]
        };
        let (file, letter, bundle, item) = (&self.file, &self.letter, &self.bundle, &self.item);
        let mut numbers = [0; 26];
        numbers[..5].copy_from_slice(&[file.records, file.letters, letter.bundles, file.items, bundle.items]);
        numbers[5..20].copy_from_slice([of(file), of(letter), of(bundle)].as_flattened());
        let addenda = [item.addenda, item.first_addenda, item.last_addenda];
        numbers[20..22].copy_from_slice(&[cents(self.micr_valid), self.stated_addenda.unwrap_or(0)]);
        numbers[22..25].copy_from_slice(&addenda);
        numbers[25] = item.views;
        numbers
    }
}

/// A record before the fault.
#[derive(Clone, Copy)]
struct Earlier<'f> {
    ordinal: u64,
    kind: &'static Kind,
    set: CharacterSet,
    body: &'f [u8],
}

impl<'f> Earlier<'f> {
    fn field(&self, number: u64) -> Option<&'f [u8]> {
        self.body.get(self.kind.range(self.set, self.body, number)?)
    }

    fn number(&self, field: u64) -> Option<u64> {
        number_in(self.set, self.field(field)?)
    }

    fn is_credit(&self) -> bool {
        self.kind.number == 61
    }

    /// The Item Amount: field 7 of a 61, field 6 of a 25 or 31.
    fn cents(&self) -> u64 {
        self.number(if self.is_credit() { 7 } else { 6 }).unwrap_or(0)
    }

    /// The field in which an item states its addenda; a 61 has none.
    fn addendum_count(&self) -> Option<u64> {
        match self.kind.number {
            25 => Some(12),
            31 => Some(8),
            _ => None,
        }
    }

    fn stated_addenda(&self) -> Option<u64> {
        self.number(self.addendum_count()?)
    }

    fn stands_before(&self) -> String {
        format!("the record before it is record {}, {}", self.ordinal, self.kind)
    }

    /// `field 8, Cash Letter Record Type Indicator, of record 2 is "N"`
    fn says(&self, number: u64) -> Option<String> {
        let name = self.kind.field(number)?.name;
        Some(format!("field {number}, {name}, of record {} is {}", self.ordinal, shown(self.set, self.field(number)?)))
    }
}

/// What the records before the fault come to.
#[derive(Clone, Copy, Default)]
pub(crate) struct Before<'f> {
    last: Option<Earlier<'f>>,
    /// The headers of the cash letter and of the bundle that are open.
    letter: Option<Earlier<'f>>,
    bundle: Option<Earlier<'f>>,
    /// The newest check or return of the bundle, whose type all of them have, whatever credits stand between.
    check_or_return: Option<Earlier<'f>>,
    /// The newest item of any kind, with which the next views lie.
    item: Option<Earlier<'f>>,
    detail: Option<Earlier<'f>>,
    letters: u64,
    file: Sums,
    in_letter: Sums,
    in_bundle: Sums,
    of_item: OfItem,
    /// A record of a kind that this module cannot add up has come.
    strange: bool,
    /// The records are a draft's, whose counts and sums are worked out: what stands in their places says nothing.
    of_draft: bool,
}

/// Of the newest item: its views, its addenda, and those of each numbered kind.
#[derive(Clone, Copy, Debug, Default, PartialEq, Eq)]
pub struct OfItem {
    /// Image View Detail Records (type 50).
    pub views: u64,
    /// Addenda of every kind.
    pub addenda: u64,
    /// Those of the bank of first deposit (types 26 and 32), numbered by themselves.
    pub first_addenda: u64,
    /// Those of later endorsers (types 28 and 35), numbered by themselves.
    pub last_addenda: u64,
}

/// What the records before one come to, at each level.
#[derive(Clone, Copy, Debug, Default, PartialEq, Eq)]
pub struct SoFar {
    /// Of the whole file.
    pub file: Totals,
    /// Since the newest Cash Letter Header Record (type 10).
    pub letter: Totals,
    /// Since the newest Bundle Header Record (type 20).
    pub bundle: Totals,
    /// Cents since that record, of the items with MICR Valid Indicator 1.
    pub micr_valid: u64,
    /// Of the newest item.
    pub item: OfItem,
    /// The addenda that the newest item states; `None` where there is none.
    pub stated_addenda: Option<u64>,
}

impl<'f> Before<'f> {
    /// Walks the lengths from the start to the record at this offset.
    pub fn walk(file: &'f [u8], offset: u64) -> Before<'f> {
        let set = CharacterSet::of(file);
        let mut before = Before::default();
        let mut left = &file[..usize::try_from(offset).unwrap_or(usize::MAX).min(file.len())];
        for ordinal in 1.. {
            let Some((length, after)) = left.split_first_chunk() else { break };
            let Some((body, after)) = after.split_at_checked(u32::from_be_bytes(*length) as usize) else { break };
            let Some(kind) = Kind::of_body(set, body) else { break };
            before.enter(Earlier { ordinal, kind, set, body });
            left = after;
        }
        before
    }

    /// Goes through these records, with their ordinals in the file.
    pub fn of_records(set: CharacterSet, records: impl Iterator<Item = (u64, &'f [u8])>) -> Before<'f> {
        let mut before = Before::default();
        for (ordinal, body) in records {
            let Some(kind) = Kind::of_body(set, body) else { break };
            before.enter(Earlier { ordinal, kind, set, body });
        }
        before
    }

    /// Goes through the records of a draft.
    pub fn of_draft(set: CharacterSet, records: impl Iterator<Item = (&'static Kind, &'f [u8])>) -> Before<'f> {
        let mut before = Before { of_draft: true, ..Before::default() };
        for (ordinal, (kind, body)) in (1..).zip(records) {
            before.enter(Earlier { ordinal, kind, set, body });
        }
        before
    }

    /// One record more.
    pub fn go_on(&mut self, ordinal: u64, kind: &'static Kind, set: CharacterSet, body: &'f [u8]) {
        self.enter(Earlier { ordinal, kind, set, body });
    }

    fn enter(&mut self, record: Earlier<'f>) {
        self.last = Some(record);
        match record.kind.number {
            10 => {
                self.letter = Some(record);
                self.in_letter = Sums::default();
                self.letters += 1;
            }
            20 => {
                self.bundle = Some(record);
                self.in_bundle = Sums::default();
                self.add(|sums| sums.bundles += 1);
            }
            25 | 31 | 61 => self.enter_item(record),
            26..=28 | 32..=35 => self.of_item.enter_addendum(record.kind.number),
            50 => {
                self.detail = Some(record);
                self.of_item.views += 1;
                self.add(|sums| sums.views += 1);
            }
            70 => (self.bundle, self.check_or_return, self.item) = (None, None, None),
            90 => (self.letter, self.item) = (None, None),
            1 | 52 | 54 | 99 => {}
            _ => self.strange = true,
        }
        // A bundle or cash letter begins without an item.
        if matches!(record.kind.number, 10 | 20) {
            (self.check_or_return, self.item) = (None, None);
        }
    }

    fn enter_item(&mut self, record: Earlier<'f>) {
        self.item = Some(record);
        self.of_item = OfItem::default();
        let cents = record.cents();
        match record.kind.number {
            25 => self.add(|sums| sums.add_check(cents, record.number(10) == Some(1))),
            31 => self.add(|sums| sums.add_return(cents)),
            _ => self.add(|sums| sums.add_credit(cents, record.number(2) == Some(9))),
        }
        if !record.is_credit() {
            self.check_or_return = Some(record);
        }
    }

    /// Adds to the sums of every level. Those of a bundle begin anew at its header, so that what stands outside adds nothing to them.
    fn add(&mut self, change: impl Fn(&mut Sums)) {
        for sums in [&mut self.file, &mut self.in_letter, &mut self.in_bundle] {
            change(sums);
        }
    }

    /// What they come to, at each level.
    pub fn so_far(&self) -> SoFar {
        let records = self.last.map_or(0, |last| last.ordinal);
        let micr_valid = self.in_bundle.of(Stated::MicrValidCents).map_or(0, |cents| cents as u64);
        SoFar {
            file: Totals { records, letters: self.letters, ..self.file.totals() },
            letter: self.in_letter.totals(),
            bundle: self.in_bundle.totals(),
            micr_valid,
            item: self.of_item,
            stated_addenda: self.item.map(|item| item.stated_addenda().unwrap_or(0)),
        }
    }

    /// The item that is open, by its record.
    pub fn item_record(&self) -> Option<u64> {
        self.item.map(|item| item.ordinal)
    }

    /// The header over a view, by its record: that of its bundle, or directly in a cash letter the cash letter's.
    pub fn header_record(&self) -> Option<u64> {
        self.bundle.or(self.letter).map(|header| header.ordinal)
    }

    /// Which record stands last before the fault.
    pub fn stands_last(&self) -> Option<String> {
        self.last.map(|last| last.stands_before())
    }

    /// What stands before a record that may not stand there.
    pub fn place(&self, kind: Option<&'static Kind>, record: u64) -> Vec<String> {
        match (self.check_or_return, kind, self.last) {
            (Some(item), Some(kind), _) if matches!(kind.number, 25 | 31) && item.kind != kind => {
                vec![format!(
                    "a bundle holds checks or returns, not both, and record {} is a {}",
                    item.ordinal, item.kind
                )]
            }
            (_, _, Some(last)) => {
                let around_credit = self.place_around_credit(kind, last);
                [last.stands_before()].into_iter().chain(around_credit).collect()
            }
            _ if record == 1 => vec!["a file begins with a File Header Record (type 01)".to_string()],
            _ => vec!["the record before it could not be found".to_string()],
        }
    }

    /// Clause 26: a 61 does not stand between the records of an item or of a view. What may follow it and its views hangs on whether it
    /// stands in a bundle or directly in a cash letter.
    fn place_around_credit(&self, kind: Option<&'static Kind>, last: Earlier<'f>) -> Option<String> {
        let is_credit = kind.is_some_and(|kind| kind.number == 61);
        let is_after_credit = self.item.is_some_and(|item| item.is_credit());
        match last.kind.number {
            _ if !is_credit && !is_after_credit => None,
            31 | 32 => Some("the Return Addendum B Record (type 33) of the return has to come first".to_string()),
            50 => Some("the Image View Data Record (type 52) of the view has to come first".to_string()),
            _ => Some(self.open_levels().to_string()),
        }
    }

    fn open_levels(&self) -> &'static str {
        match (self.letter, self.bundle) {
            (_, Some(_)) => "a bundle is open here",
            (Some(_), None) => "a cash letter is open here, and no bundle",
            (None, None) => "no cash letter is open here",
        }
    }

    /// What a control field should state, in numbers alone.
    pub fn comes_to(&self, record_type: u64, field: u64, record: u64) -> Option<u64> {
        self.counted(record_type, field, record).and_then(|counted| u64::try_from(counted).ok())
    }

    /// What a control field should state. The control record itself is of this ordinal.
    pub fn total(&self, kind: Option<&'static Kind>, field: u64, record: u64) -> Option<String> {
        let record_type = kind?.number;
        let stated = Stated::by(record_type, field)?;
        let counted = self.counted(record_type, field, record)?;
        let part = match record_type {
            70 => "bundle",
            90 => "cash letter",
            _ => "file",
        };
        Some(format!("{} in the {part}: {counted}{}", stated.name(), self.sums(record_type).other_side(stated)))
    }

    /// The sum that a field of a control record states.
    fn counted(&self, record_type: u64, field: u64, record: u64) -> Option<u128> {
        match Stated::by(record_type, field)? {
            _ if self.strange => None,
            Stated::Letters => Some(u128::from(self.letters)),
            Stated::Records => Some(u128::from(record)),
            stated => self.sums(record_type).of(stated),
        }
    }

    /// The sums of the part that a control record of this type closes.
    fn sums(&self, record_type: u64) -> &Sums {
        match record_type {
            70 => &self.in_bundle,
            90 => &self.in_letter,
            _ => &self.file,
        }
    }

    /// What the earlier record says that this one disagrees with.
    pub fn link(&self, kind: Option<&'static Kind>, field: u64) -> Option<String> {
        match (kind?.number, field) {
            (_, 1) => self.link_of_record(kind?),
            (26 | 32, 2) => Some(next_number(self.of_item.first_addenda + 1, 9)),
            (28 | 35, 2) => Some(next_number(self.of_item.last_addenda + 1, 99)),
            // Outside a bundle the cash letter's header has them, at the same numbers: 10.4 and 10.5 for 20.4 and 20.5.
            (52, 2) => self.bundle.or(self.letter)?.says(4),
            (52, 3) => self.bundle.or(self.letter)?.says(5),
            (52, 4) => self.bundle?.says(9),
            (52, 5) => self.item?.says(if self.item?.is_credit() { 8 } else { 7 }),
            (52, 7 | 8) => Some(format!("it may not be blank, since {}", self.detail?.says(10)?)),
            _ => None,
        }
    }

    /// A record that may not come as long as the item or the cash letter says what it says.
    fn link_of_record(&self, kind: &'static Kind) -> Option<String> {
        // A 61 has no addenda, and no view is demanded of it.
        let item = self.item.filter(|item| !item.is_credit());
        // In a draft as many addenda are stated as come.
        let stating = item.filter(|_| !self.of_draft);
        if let Some(of_addenda) = stating.and_then(|item| self.link_of_addenda(kind, item)) {
            return Some(of_addenda);
        }
        let indicator = self.letter?.says(8)?;
        match kind.number {
            20 => Some(format!("{indicator}: no bundle may come")),
            50 => Some(format!("{indicator}: no view may come")),
            90 => Some(format!("{indicator}: a bundle at least has to come before this record")),
            25 | 31 | 61 | 70 if self.of_item.views == 0 => {
                Some(format!("{indicator}, and the item of record {} has no view", item?.ordinal))
            }
            _ => None,
        }
    }

    /// An addendum too many, or a record before the last addendum.
    fn link_of_addenda(&self, kind: &'static Kind, item: Earlier<'f>) -> Option<String> {
        let (count, came) = (item.addendum_count()?, self.of_item.addenda);
        let stated = item.number(count)?;
        match kind.number {
            26..=28 | 32..=35 => Some(format!("{}, and this would be addendum {}", item.says(count)?, came + 1)),
            _ if came < stated => Some(format!("{}, and {came} came", item.says(count)?)),
            _ => None,
        }
    }
}

impl OfItem {
    fn enter_addendum(&mut self, record_type: u64) {
        self.addenda += 1;
        match record_type {
            26 | 32 => self.first_addenda += 1,
            28 | 35 => self.last_addenda += 1,
            _ => {}
        }
    }
}

fn next_number(next: u64, most: u64) -> String {
    let beyond = if next > most { ", which the field cannot hold" } else { "" };
    format!("the next number in this item is {next}{beyond}")
}

#[cfg(test)]
mod tests {
    use super::*;

    /// In accepted files the sums that the words would give are those that the control records state.
    #[test]
    fn the_sums_are_those_of_accepted_files() {
        let root = std::path::Path::new(env!("CARGO_MANIFEST_DIR")).join("../..");
        let mut compared = [0; 2];
        for folder in ["peer/samples", "peer/samples/ebcdic", "fuzz/seeds", "fuzz/seeds-ebcdic"] {
            let paths = std::fs::read_dir(root.join(folder)).unwrap().map(|entry| entry.unwrap().path());
            for path in paths.filter(|path| path.is_file()) {
                let (file, name) = (std::fs::read(&path).unwrap(), path.display().to_string());
                compared[CharacterSet::of(&file).number() as usize] += compare(&file, &name);
            }
        }
        for index in 0..1_000 {
            let ascii = peer_reader::stream::file(61, index).bytes;
            let ebcdic = peer_reader::copy::to_ebcdic(&ascii);
            compared[0] += compare(&ascii, &format!("file {index}"));
            compared[1] += compare(&ebcdic, &format!("file {index} in EBCDIC"));
        }
        assert!(compared.iter().all(|compared| *compared > 1_000), "{compared:?} sums compared");
    }

    /// Compares the sums at every record of a file that is accepted, and tells how many there were.
    fn compare(file: &[u8], name: &str) -> u64 {
        let Ok(reading) = crate::read(file) else { return 0 };
        let mut compared = 0;
        for (record, row) in (1..).zip(reading.rows()).filter(|(_, row)| matches!(row.record_type, 70 | 90 | 99)) {
            let before = Before::walk(file, row.offset);
            assert_eq!(before.last.map_or(0, |last| last.ordinal), record - 1, "{name}");
            for field in row.kind().unwrap().fields {
                let counted = before.counted(row.record_type, field.number, record);
                let stated = number_in(CharacterSet::of(file), row.field(file, field.number).unwrap());
                if let (Some(counted), Some(stated)) = (counted, stated) {
                    assert_eq!(counted, u128::from(stated), "{name} record {record} field {}", field.number);
                    compared += 1;
                }
            }
        }
        compared
    }
}
