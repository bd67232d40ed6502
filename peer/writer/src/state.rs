//! What the records before one decide about it: the order, the headers, the item, and the sums so far.

use peer_reader::judge::number_in;

use crate::draft::{Draft, Row};
use crate::order::Order;
use crate::source::Source;
use crate::sums::Sums;

/// What the records of a draft up to some place amount to. Every one of them has been judged.
#[derive(Clone, Default)]
pub struct State<'a> {
    pub order: Order,
    /// How many records there are so far.
    pub records: usize,
    /// The letter of 10.8 as a capital (clause 5.1.1).
    pub content: u8,
    /// Fields 4 and 5 of the cash letter header and of the bundle header, and the latter's field 9: what a 52 repeats.
    pub letter_key: [&'a [u8]; 2],
    pub bundle_key: [&'a [u8]; 3],
    /// The sequence number of the last 25, 31 or 61.
    pub sequence: &'a [u8],
    /// The views of the last 25 or 31 of this bundle, unless a 61 stands behind it.
    pub item_views: Option<u64>,
    /// Whether the last 50's field 10 is 1.
    pub signed: bool,
    /// How many addenda of the last addendum's type the item has.
    addenda: (u8, u128),
    bundle: Sums,
    letter: Sums,
    file: Sums,
}

impl<'a> State<'a> {
    /// The number that is worked out for a field of the record that stands next; none is a blank.
    pub fn worked_out(&self, draft: &Draft, row: &Row, number: u8, source: Source) -> Option<u128> {
        let code = row.layout.code;
        Some(match source {
            Source::Given => unreachable!("{code}.{number} is given"),
            Source::RecordType => u128::from(code),
            Source::PartLength(place) => u128::from(row.size(place)),
            Source::AddendumCount => u128::from(draft.addenda_behind(self.records)),
            Source::RecordNumber => self.record_number(code),
            Source::Sum(_) if (code, number) == (70, 4) && row.asks_for_blank_micr() => return None,
            Source::Sum(measure) => self.level(code).of(measure, self.records as u128 + 1),
        })
    }

    /// Record numbers run from 1 in each item, each type on its own.
    fn record_number(&self, code: u8) -> u128 {
        match self.addenda {
            (last, count) if last == code => count + 1,
            _ => 1,
        }
    }

    /// The level that a control record closes.
    fn level(&self, code: u8) -> &Sums {
        match code {
            70 => &self.bundle,
            90 => &self.letter,
            _ => &self.file,
        }
    }

    pub fn bundles_in_letter(&self) -> u128 {
        self.letter.bundles
    }

    pub fn whole(&self) -> &Sums {
        &self.file
    }

    /// Goes on to the next record, which has been judged.
    pub fn go_on(&mut self, row: &Row<'a>) {
        let code = row.layout.code;
        match code {
            10 => self.begin_letter(row),
            20 => self.begin_bundle(row),
            25 | 31 => self.item(row),
            26 | 28 | 32 | 35 => self.addenda = (code, self.record_number(code)),
            27 | 33 | 34 => self.addenda = (code, 1),
            50 => self.view(row),
            61 => self.credit(row),
            70 => self.letter.take_in(&self.bundle),
            90 => self.file.take_in(&self.letter),
            _ => {}
        }
        self.order.go_on(u64::from(code));
        if code == 70 {
            self.item_views = None;
        }
        self.records += 1;
    }

    fn begin_letter(&mut self, header: &Row<'a>) {
        self.content = header.characters(8).at(0).to_ascii_uppercase();
        self.letter_key = [header.value(4), header.value(5)];
        self.letter = Sums { letters: 1, ..Sums::default() };
    }

    fn begin_bundle(&mut self, header: &Row<'a>) {
        self.bundle_key = [header.value(4), header.value(5), header.value(9)];
        self.bundle = Sums { bundles: 1, ..Sums::default() };
        self.item_views = None;
    }

    /// A 25 or 31; of the 25s those whose MICR Valid Indicator is 1 count in 70.4.
    fn item(&mut self, row: &Row<'a>) {
        let cents = number_in(row.characters(6));
        self.bundle.take_in(&Sums::debit(cents));
        if row.layout.code == 25 && row.characters(10).is(b"1") {
            self.bundle.micr_valid_cents += u128::from(cents);
        }
        self.sequence = row.value(7);
        self.item_views = Some(0);
        self.addenda = (row.layout.code, 0);
    }

    /// A 61 owes no view, and belongs to the bundle or directly to the cash letter.
    fn credit(&mut self, row: &Row<'a>) {
        let cents = number_in(row.characters(7));
        let sums = if row.characters(2).is(b"9") { Sums::debit(cents) } else { Sums::credit(cents) };
        self.innermost().take_in(&sums);
        self.sequence = row.value(8);
        self.item_views = None;
    }

    fn view(&mut self, detail: &Row<'a>) {
        self.innermost().views += 1;
        self.item_views = self.item_views.map(|views| views + 1);
        self.signed = detail.characters(10).is(b"1");
    }

    /// The level that an item, a 61 or a view counts in.
    fn innermost(&mut self) -> &mut Sums {
        match self.order.in_bundle() {
            true => &mut self.bundle,
            false => &mut self.letter,
        }
    }
}
