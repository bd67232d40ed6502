//! Whether a run is sound under its header, and its first fault (reading 62): what the reader would say that has read a sound 01 and that 10 and
//! nothing else. Written as a state that goes from record to record, without the reader: `opinion` asks the reader.

use peer_reader::charset::{Set, Text};
use peer_reader::descent::Number;
use peer_reader::judge::{all_blank, number_in, record_in, Flaw};
use peer_reader::layout::{carried_in, layout, Layout};
use peer_writer::order::Order;
use peer_writer::sums::Sums;

use crate::runs::Sort;
use crate::walk::Walked;

/// What is wrong with a record of this type judged alone: LENGTH or FIELD.
pub fn fault_alone(set: Set, code: u8, body: &[u8]) -> Option<Number> {
    match record_in(set, layout(code), body) {
        Ok(()) => None,
        Err(Flaw::Length) => Some(Number::Length),
        Err(Flaw::Field(_)) => Some(Number::Field),
    }
}

/// The letter of 10.8 as a capital (clause 5.1.1), of a header that is sound alone.
pub fn content_of(set: Set, header: &[u8]) -> u8 {
    set.character(layout(10).field(8).of(header)[0]).to_ascii_uppercase()
}

/// The first fault of a run under a header that is sound alone, and the type of the record it is at; none if the run is sound.
pub fn first_fault(set: Set, header: &[u8], sort: Sort, run: &[Walked]) -> Option<(Number, Option<u8>)> {
    let mut judge = Judge::behind(set, header);
    for record in run {
        if let Some(number) = judge.take(record.body) {
            return Some((number, record.kind));
        }
    }
    let last = run.last().expect("a run has a record");
    (sort == Sort::Credit && last.is(50)).then_some((Number::Place, None))
}

/// An item whose addenda and views are still to come.
#[derive(Clone, Copy)]
struct Item {
    stated_addenda: u64,
    addenda: u64,
    views: u64,
    /// How many addenda of the last one's type there are.
    numbered: (u8, u64),
}

/// What the records so far decide about the next.
struct Judge<'a> {
    set: Set,
    order: Order,
    content: u8,
    /// What a 52 repeats: routing number, date, and in a bundle the cycle number.
    key: [&'a [u8]; 2],
    cycle: Option<&'a [u8]>,
    sequence: &'a [u8],
    signed: bool,
    /// The last 25 or 31 of the bundle, unless a 61 stands behind it.
    item: Option<Item>,
    bundle: Sums,
}

/// A record that is sound alone.
struct Record<'a> {
    layout: &'static Layout,
    set: Set,
    body: &'a [u8],
}

impl<'a> Record<'a> {
    fn bytes(&self, field: u8) -> &'a [u8] {
        self.layout.field(field).of(self.body)
    }

    fn text(&self, field: u8) -> Text<'a> {
        Text::new(self.set, self.bytes(field))
    }

    fn number(&self, field: u8) -> u64 {
        number_in(self.text(field))
    }

    fn is_blank(&self, field: u8) -> bool {
        all_blank(self.text(field))
    }
}

impl<'a> Judge<'a> {
    /// Behind a sound 01 and this 10.
    fn behind(set: Set, header: &'a [u8]) -> Judge<'a> {
        let mut order = Order::default();
        order.go_on(1);
        order.go_on(10);
        let field = |number: u8| layout(10).field(number).of(header);
        Judge {
            set,
            order,
            content: content_of(set, header),
            key: [field(4), field(5)],
            cycle: None,
            sequence: &[],
            signed: false,
            item: None,
            bundle: Sums::default(),
        }
    }

    /// The next record: its fault, in document 01's order, or on to the one behind it.
    fn take(&mut self, body: &'a [u8]) -> Option<Number> {
        let Some(code) = carried_in(self.set, &body[..2]) else {
            return Some(Number::Type);
        };
        if !self.order.admits(u64::from(code)) {
            return Some(Number::Place);
        }
        if let Some(number) = fault_alone(self.set, code, body) {
            return Some(number);
        }
        let record = Record { layout: layout(code), set: self.set, body };
        if self.breaks_a_link(&record) {
            return Some(Number::Link);
        }
        if code == 70 && self.misses_a_total(&record) {
            return Some(Number::Total);
        }
        self.go_on(&record);
        None
    }

    fn breaks_a_link(&self, record: &Record) -> bool {
        let owed = self.item.is_some_and(|item| item.addenda < item.stated_addenda);
        match record.layout.code {
            20 => self.content == b'N',
            25 | 31 | 61 | 70 => owed || self.misses_a_view(),
            50 => owed || self.content == b'E',
            52 => self.breaks_the_key(record),
            26 | 28 | 32 | 35 => self.is_beyond() || record.number(2) != self.record_number(record.layout.code),
            27 | 33 | 34 => self.is_beyond(),
            _ => false,
        }
    }

    /// Under I and F an item has a view.
    fn misses_a_view(&self) -> bool {
        matches!(self.content, b'I' | b'F') && self.item.is_some_and(|item| item.views == 0)
    }

    /// An addendum beyond the count that its item states.
    fn is_beyond(&self) -> bool {
        self.item.is_some_and(|item| item.addenda == item.stated_addenda)
    }

    fn record_number(&self, code: u8) -> u64 {
        match self.item.map(|item| item.numbered) {
            Some((last, count)) if last == code => count + 1,
            _ => 1,
        }
    }

    fn breaks_the_key(&self, data: &Record) -> bool {
        data.bytes(2) != self.key[0]
            || data.bytes(3) != self.key[1]
            || self.cycle.is_some_and(|cycle| data.bytes(4) != cycle)
            || data.bytes(5) != self.sequence
            || self.signed && (data.is_blank(7) || data.is_blank(8))
    }

    fn misses_a_total(&self, control: &Record) -> bool {
        let sums = &self.bundle;
        let stated = |field: u8| u128::from(control.number(field));
        stated(2) != sums.debit_items
            || stated(3) != sums.debit_cents
            || !control.is_blank(4) && stated(4) != sums.micr_valid_cents
            || stated(5) != sums.views
            || stated(6) != sums.credit_items
            || stated(7) != sums.credit_cents
    }

    fn go_on(&mut self, record: &Record<'a>) {
        let code = record.layout.code;
        match code {
            20 => {
                self.key = [record.bytes(4), record.bytes(5)];
                self.cycle = Some(record.bytes(9));
            }
            25 | 31 => self.begin_item(record),
            26 | 27 | 28 | 32 | 33 | 34 | 35 => {
                let numbered = (code, self.record_number(code));
                self.item = self.item.map(|item| Item { addenda: item.addenda + 1, numbered, ..item });
            }
            50 => {
                self.bundle.views += 1;
                self.signed = record.text(10).is(b"1");
                self.item = self.item.map(|item| Item { views: item.views + 1, ..item });
            }
            61 => {
                let cents = record.number(7);
                let debit = record.text(2).is(b"9");
                self.bundle.take_in(&if debit { Sums::debit(cents) } else { Sums::credit(cents) });
                self.sequence = record.bytes(8);
                self.item = None;
            }
            _ => {}
        }
        self.order.go_on(u64::from(code));
    }

    fn begin_item(&mut self, record: &Record<'a>) {
        let check = record.layout.code == 25;
        let cents = record.number(6);
        self.bundle.take_in(&Sums::debit(cents));
        if check && record.text(10).is(b"1") {
            self.bundle.micr_valid_cents += u128::from(cents);
        }
        self.sequence = record.bytes(7);
        let stated_addenda = record.number(if check { 12 } else { 8 });
        self.item = Some(Item { stated_addenda, addenda: 0, views: 0, numbered: (record.layout.code, 0) });
    }
}
