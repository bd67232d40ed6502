//! The independent reader: recursive descent over the records of a file.
//! A file calls for cash letters, a cash letter for bundles and credits, a bundle for items and credits, an item for addenda and
//! views, a credit for views.

use crate::charset::{Set, Text};
use crate::judge::{self, Flaw};
use crate::layout::{carried_in, layout, Layout};

/// The largest file in bytes.
pub const LARGEST: u64 = 268_435_456;

/// Document 01, "What comes back".
#[derive(Clone, Copy, Debug, PartialEq, Eq, PartialOrd, Ord)]
pub enum Number {
    Accepted = 0,
    Size = 1,
    Room = 2,
    Cut = 3,
    Length = 4,
    Type = 5,
    Place = 6,
    Field = 7,
    Link = 8,
    Total = 9,
    Open = 10,
    After = 11,
}

/// The eight totals of an answer.
#[derive(Clone, Copy, Debug, Default, PartialEq, Eq)]
pub struct Totals {
    pub records: u64,
    pub letters: u64,
    pub bundles: u64,
    /// Every 25, 31 and 61 (clause 35.4).
    pub items: u64,
    pub views: u64,
    pub debit_cents: u64,
    pub credit_items: u64,
    pub credit_cents: u64,
}

/// The numbers of an answer in the C call.
pub const LISTED: usize = 12;

/// What comes back from one reading.
#[derive(Clone, Copy, Debug, PartialEq, Eq)]
pub struct Answer {
    pub number: Number,
    pub record: u64,
    pub field: u64,
    pub offset: u64,
    pub totals: Totals,
}

impl Answer {
    /// In the order of the C call.
    pub fn listed(&self) -> [u64; LISTED] {
        let t = self.totals;
        let place = [self.number as u64, self.record, self.field, self.offset];
        let totals = [t.records, t.letters, t.bundles, t.items, t.views, t.debit_cents, t.credit_items, t.credit_cents];
        let mut listed = [0; LISTED];
        listed[..4].copy_from_slice(&place);
        listed[4..].copy_from_slice(&totals);
        listed
    }

    pub fn refused(number: Number, record: u64, field: u64, offset: u64) -> Answer {
        Answer { number, record, field, offset, totals: Totals::default() }
    }
}

/// A row: type, offset, length, cash letter, bundle, item, amount.
pub type Row = [u64; 7];

/// A reading with room for every row, and the reason of a refusal for the coverage tally.
#[derive(Clone, Debug)]
pub struct Reading {
    pub answer: Answer,
    pub rows: Vec<Row>,
    pub why: &'static str,
    /// The type of the last record that was read whole and sound, 0 at the start.
    pub last: u8,
    /// What the last of these belongs to.
    pub inside: Inside,
}

/// What a record belongs to: a 50, 52, 54 or 61 has other followers, and a 52 another key, inside each.
#[derive(Clone, Copy, Debug, PartialEq, Eq, PartialOrd, Ord)]
pub enum Inside {
    File,
    Letter,
    /// A 61 directly in a cash letter, with its views.
    CreditInLetter,
    Bundle,
    Item,
    CreditInBundle,
}

impl Inside {
    /// What a 61 belongs to, and each of its views.
    pub fn credit(in_bundle: bool) -> Inside {
        if in_bundle {
            Inside::CreditInBundle
        } else {
            Inside::CreditInLetter
        }
    }
}

impl Reading {
    /// The answer when this many rows are lent.
    pub fn with_rows(&self, available: usize) -> Answer {
        let needed = self.rows.len();
        if self.answer.number == Number::Accepted && available < needed {
            return Answer::refused(Number::Room, needed as u64, 0, 0);
        }
        self.answer
    }

    /// The answer for a lent table, and the table as it is to be left.
    pub fn fill(&self, table: &mut [u64]) -> Answer {
        let answer = self.with_rows(table.len() / 7);
        if answer.number == Number::Accepted {
            for (place, row) in table.chunks_exact_mut(7).zip(&self.rows) {
                place.copy_from_slice(row);
            }
        }
        answer
    }
}

/// Reads a whole file by its own set.
pub fn read(file: &[u8]) -> Reading {
    read_in(Set::of(file), file)
}

/// Reads a whole file as one of this set.
pub fn read_in(set: Set, file: &[u8]) -> Reading {
    let size = file.len() as u64;
    if size == 0 || size > LARGEST {
        let answer = Answer::refused(Number::Size, 0, 0, 0);
        return Reading { answer, rows: Vec::new(), why: "size", last: 0, inside: Inside::File };
    }
    let mut descent = Descent { file, set, at: 0, read: 0, last: 0, inside: Inside::File, rows: Vec::new() };
    match descent.file() {
        Ok(sums) => {
            let records = descent.read;
            let totals = sums.totals(records);
            let answer = Answer { number: Number::Accepted, record: records, field: 0, offset: size, totals };
            Reading { answer, rows: descent.rows, why: "accepted", last: 99, inside: Inside::File }
        }
        Err(fault) => {
            let answer = Answer::refused(fault.number, fault.record, u64::from(fault.field), fault.offset as u64);
            Reading { answer, rows: Vec::new(), why: fault.why, last: descent.last, inside: descent.inside }
        }
    }
}

/// Reads a file into a lent table.
pub fn read_into(file: &[u8], table: &mut [u64]) -> Answer {
    read(file).fill(table)
}

/// The first fault, which ends the reading.
struct Fault {
    number: Number,
    record: u64,
    field: u8,
    offset: usize,
    why: &'static str,
}

/// What a part of the file adds up to. Three million amounts of fourteen digits pass 64 bits, and stay far below 128 (reading 32).
#[derive(Clone, Copy, Default)]
struct Sums {
    letters: u128,
    bundles: u128,
    debit_items: u128,
    credit_items: u128,
    views: u128,
    debit_cents: u128,
    credit_cents: u128,
    micr_valid_cents: u128,
}

impl Sums {
    fn add(&mut self, part: Sums) {
        self.letters += part.letters;
        self.bundles += part.bundles;
        self.debit_items += part.debit_items;
        self.credit_items += part.credit_items;
        self.views += part.views;
        self.debit_cents += part.debit_cents;
        self.credit_cents += part.credit_cents;
        self.micr_valid_cents += part.micr_valid_cents;
    }

    /// Clause 35.4: every 25, 31 and 61.
    fn items(&self) -> u128 {
        self.debit_items + self.credit_items
    }

    /// A 25, a 31, or a 61 whose usage indicator is 9.
    fn debit(&mut self, cents: u64) {
        self.debit_items += 1;
        self.debit_cents += u128::from(cents);
    }

    /// A 61 with any other usage indicator, or none (reading 27).
    fn credit(&mut self, cents: u64) {
        self.credit_items += 1;
        self.credit_cents += u128::from(cents);
    }

    /// The totals of a file whose control records have stated these sums.
    fn totals(&self, records: u64) -> Totals {
        Totals {
            records,
            letters: stated(self.letters),
            bundles: stated(self.bundles),
            items: stated(self.items()),
            views: stated(self.views),
            debit_cents: stated(self.debit_cents),
            credit_items: stated(self.credit_items),
            credit_cents: stated(self.credit_cents),
        }
    }
}

/// A sum that a control field of at most sixteen digits has stated.
fn stated(sum: u128) -> u64 {
    u64::try_from(sum).expect("a control field states it")
}

/// A record that has passed every check of its own.
struct Record<'a> {
    layout: &'static Layout,
    set: Set,
    number: u64,
    offset: usize,
    body: &'a [u8],
}

impl<'a> Record<'a> {
    /// A field's bytes, for the links, which are byte by byte in either set (reading 38).
    fn field(&self, number: u8) -> &'a [u8] {
        self.layout.field(number).of(self.body)
    }

    /// A field's characters.
    fn text(&self, number: u8) -> Text<'a> {
        Text::new(self.set, self.field(number))
    }

    fn number_in(&self, field: u8) -> u64 {
        judge::number_in(self.text(field))
    }

    fn fault(&self, number: Number, field: u8, why: &'static str) -> Fault {
        Fault { number, record: self.number, field, offset: self.offset, why }
    }

    fn link(&self, field: u8, holds: bool, why: &'static str) -> Result<(), Fault> {
        if holds {
            Ok(())
        } else {
            Err(self.fault(Number::Link, field, why))
        }
    }

    /// A control field must state the sum; a conditional one left blank is not compared.
    fn total(&self, field: u8, sum: u128) -> Result<(), Fault> {
        if judge::all_blank(self.text(field)) || u128::from(self.number_in(field)) == sum {
            Ok(())
        } else {
            Err(self.fault(Number::Total, field, "total"))
        }
    }
}

/// What a cash letter's field 8 asks (Annex B).
#[derive(Clone, Copy, PartialEq, Eq)]
enum Content {
    Nothing,        // N
    NoViews,        // E
    ViewsEach,      // I
    ViewsEachAgain, // F
}

impl Content {
    fn of(header: &Record) -> Content {
        match header.text(8).at(0).to_ascii_uppercase() {
            b'N' => Content::Nothing,
            b'E' => Content::NoViews,
            b'I' => Content::ViewsEach,
            _ => Content::ViewsEachAgain,
        }
    }

    fn wants_views(self) -> bool {
        matches!(self, Content::ViewsEach | Content::ViewsEachAgain)
    }
}

/// An item once its own records are read: what it still lacks is faulted at the next item, 61 or 70 of its bundle.
struct Item {
    place: Ordinals,
    stated_addenda: u64,
    addenda: u64,
    views: u64,
}

impl Item {
    fn owes_addenda(&self) -> bool {
        self.addenda < self.stated_addenda
    }

    /// Checked at the record that comes after the item within the bundle.
    fn closed_by(&self, next: &Record, content: Content) -> Result<(), Fault> {
        next.link(1, !self.owes_addenda(), "addenda owed")?;
        let why = if content == Content::ViewsEach { "no view under I" } else { "no view under F" };
        next.link(1, !content.wants_views() || self.views > 0, why)
    }
}

/// The header's fields that every 52 under it repeats (clause 22): the bundle's 4, 5 and 9, or, outside a bundle, the cash letter's 4
/// and 5. A cash letter has no cycle number, so that none is compared there (request 2).
#[derive(Clone, Copy)]
struct HeaderKey<'a> {
    routing: &'a [u8],
    date: &'a [u8],
    cycle: Option<&'a [u8]>,
}

impl<'a> HeaderKey<'a> {
    fn of_bundle(header: &Record<'a>) -> HeaderKey<'a> {
        HeaderKey { routing: header.field(4), date: header.field(5), cycle: Some(header.field(9)) }
    }

    fn of_letter(header: &Record<'a>) -> HeaderKey<'a> {
        HeaderKey { routing: header.field(4), date: header.field(5), cycle: None }
    }
}

/// What the records of a bundle or a cash letter share: its ordinals, the cash letter's field 8, the header's part of the key.
#[derive(Clone, Copy)]
struct Level<'a> {
    ordinals: Ordinals,
    content: Content,
    key: HeaderKey<'a>,
}

struct Descent<'a> {
    file: &'a [u8],
    set: Set,
    at: usize,
    read: u64,
    last: u8,
    inside: Inside,
    rows: Vec<Row>,
}

/// The ordinals of a record's cash letter, bundle and item; 0 where it lies outside that level.
type Ordinals = [u64; 3];

impl<'a> Descent<'a> {
    /// A fault at the record that begins here.
    fn here(&self, number: Number, why: &'static str) -> Fault {
        Fault { number, record: self.read + 1, field: 0, offset: self.at, why }
    }

    fn out_of_place(&self) -> Fault {
        self.here(Number::Place, "place")
    }

    /// The four-byte length, high byte first (Annex D), and the record's bytes.
    fn next_body(&self) -> Result<&'a [u8], Fault> {
        let left = &self.file[self.at..];
        match split_record(left) {
            _ if left.is_empty() => Err(self.here(Number::Open, "open")),
            None => Err(self.here(Number::Cut, if left.len() < 4 { "cut in the length" } else { "cut in the record" })),
            Some(body) if body.len() < 2 => Err(self.here(Number::Length, "below two")),
            Some(body) => Ok(body),
        }
    }

    /// The type of the record that begins here: OPEN, CUT, LENGTH below 2, TYPE.
    fn peek(&self) -> Result<u8, Fault> {
        let body = self.next_body()?;
        carried_in(self.set, &body[..2]).ok_or_else(|| self.here(Number::Type, "type"))
    }

    /// Reads the record that begins here, which must be of this type: PLACE, LENGTH, FIELD, LENGTH, FIELD.
    fn take(&mut self, wanted: u8) -> Result<Record<'a>, Fault> {
        if self.peek()? != wanted {
            return Err(self.out_of_place());
        }
        let body = self.next_body()?;
        let layout = layout(wanted);
        judge::record_in(self.set, layout, body).map_err(|flaw| match flaw {
            Flaw::Length if body.len() < layout.fixed => self.here(Number::Length, "shorter than the fixed part"),
            Flaw::Length if layout.parts.is_empty() => self.here(Number::Length, "fixed record too long"),
            Flaw::Length => self.here(Number::Length, "stated parts"),
            Flaw::Field(field) => Fault { field, ..self.here(Number::Field, "field") },
        })?;
        let record = Record { layout, set: self.set, number: self.read + 1, offset: self.at, body };
        self.read += 1;
        self.at += 4 + body.len();
        Ok(record)
    }

    /// Sets down a record's row once its links and totals hold.
    fn row(&mut self, record: &Record, [letter, bundle, item]: Ordinals, amount: u64) {
        let code = record.layout.code;
        let length = record.body.len() as u64;
        self.rows.push([u64::from(code), record.offset as u64, length, letter, bundle, item, amount]);
        self.last = code;
    }

    /// 01, cash letters, 99, and nothing more (clauses 7 and 35).
    fn file(&mut self) -> Result<Sums, Fault> {
        let header = self.take(1)?;
        self.row(&header, [0, 0, 0], 0);
        let mut sums = Sums::default();
        let mut letter = 0;
        loop {
            letter += 1;
            sums.add(self.cash_letter(letter)?);
            match self.peek()? {
                10 => {}
                99 => break,
                _ => return Err(self.out_of_place()),
            }
        }
        self.file_control(&sums)?;
        if self.at < self.file.len() {
            return Err(self.here(Number::After, "after"));
        }
        Ok(sums)
    }

    /// Clause 35.
    fn file_control(&mut self, sums: &Sums) -> Result<(), Fault> {
        let control = self.take(99)?;
        control.total(2, sums.letters)?;
        control.total(3, u128::from(self.read))?; // 01 and 99 included
        control.total(4, sums.items())?;
        control.total(5, sums.debit_cents)?;
        control.total(8, sums.credit_cents)?;
        self.row(&control, [0, 0, 0], stated(sums.debit_cents));
        Ok(())
    }

    /// 10, bundles and credits, 90 (clauses 8, 26 and 34).
    fn cash_letter(&mut self, letter: u64) -> Result<Sums, Fault> {
        let header = self.take(10)?;
        let content = Content::of(&header);
        self.row(&header, [letter, 0, 0], 0);
        let direct = Level { ordinals: [letter, 0, 0], content, key: HeaderKey::of_letter(&header) };
        let mut sums = Sums { letters: 1, ..Sums::default() };
        let mut bundle = 0;
        self.inside = Inside::Letter;
        loop {
            match self.peek()? {
                20 => {
                    bundle += 1;
                    sums.add(self.bundle([letter, bundle, 0], content)?);
                }
                61 => self.credit(None, &direct, &mut sums)?,
                90 => break,
                _ => return Err(self.out_of_place()),
            }
        }
        self.letter_control(letter, content, &sums)?;
        Ok(sums)
    }

    /// Clause 34 and Annex B.
    fn letter_control(&mut self, letter: u64, content: Content, sums: &Sums) -> Result<(), Fault> {
        let control = self.take(90)?;
        let why = match content {
            Content::NoViews => "no bundle under E",
            Content::ViewsEach => "no bundle under I",
            _ => "no bundle under F",
        };
        control.link(1, content == Content::Nothing || sums.bundles > 0, why)?;
        control.total(2, sums.bundles)?;
        control.total(3, sums.debit_items)?;
        control.total(4, sums.debit_cents)?;
        control.total(5, sums.views)?;
        control.total(8, sums.credit_items)?;
        control.total(9, sums.credit_cents)?;
        self.row(&control, [letter, 0, 0], stated(sums.debit_cents));
        self.inside = Inside::Letter;
        Ok(())
    }

    /// 20, items and credits, 70 (clauses 9, 26 and 31).
    fn bundle(&mut self, ordinals: Ordinals, content: Content) -> Result<Sums, Fault> {
        let header = self.take(20)?;
        header.link(1, content != Content::Nothing, "bundle under N")?;
        self.row(&header, ordinals, 0);
        self.inside = Inside::Bundle;
        let mut level = Level { ordinals, content, key: HeaderKey::of_bundle(&header) };
        let mut sums = Sums { bundles: 1, ..Sums::default() };
        let mut kind = None; // that of the first 25 or 31: a 61 sets none
        let mut previous = None;
        loop {
            let next = self.peek()?;
            level.ordinals[2] += 1;
            match next {
                25 | 31 if kind.is_none_or(|kind| kind == next) => {
                    kind = Some(next);
                    previous = Some(self.item(next, previous, &level, &mut sums)?);
                }
                61 => {
                    self.credit(previous.take(), &level, &mut sums)?;
                }
                70 if sums.items() > 0 => break,
                _ => return Err(self.out_of_place()),
            }
        }
        self.bundle_control(ordinals, content, previous, &sums)?;
        Ok(sums)
    }

    /// Clause 31.
    fn bundle_control(
        &mut self,
        ordinals: Ordinals,
        content: Content,
        previous: Option<Item>,
        sums: &Sums,
    ) -> Result<(), Fault> {
        let control = self.take(70)?;
        if let Some(item) = previous {
            item.closed_by(&control, content)?;
        }
        control.total(2, sums.debit_items)?;
        control.total(3, sums.debit_cents)?;
        control.total(4, sums.micr_valid_cents)?;
        control.total(5, sums.views)?;
        control.total(6, sums.credit_items)?;
        control.total(7, sums.credit_cents)?;
        self.row(&control, ordinals, stated(sums.debit_cents));
        self.inside = Inside::Bundle;
        Ok(())
    }

    /// 25 or 31, its addenda and its views (clauses 10 to 18).
    fn item(&mut self, kind: u8, previous: Option<Item>, level: &Level, sums: &mut Sums) -> Result<Item, Fault> {
        let head = self.take(kind)?;
        if let Some(item) = previous {
            item.closed_by(&head, level.content)?;
        }
        let cents = head.number_in(6);
        self.row(&head, level.ordinals, cents);
        self.inside = Inside::Item;
        sums.debit(cents);
        if kind == 25 && head.text(10).is(b"1") {
            sums.micr_valid_cents += u128::from(cents);
        }
        let stated_addenda = head.number_in(if kind == 25 { 12 } else { 8 });
        let mut item = Item { place: level.ordinals, stated_addenda, addenda: 0, views: 0 };
        if kind == 25 {
            self.check_addenda(&mut item)?;
        } else {
            self.return_addenda(&mut item)?;
        }
        item.views = self.views(item.owes_addenda(), level, head.field(7))?;
        sums.views += u128::from(item.views);
        Ok(item)
    }

    /// 61 and its views (clause 26). It has no addenda, and owes no view: nothing is missing after it.
    fn credit(&mut self, previous: Option<Item>, level: &Level, sums: &mut Sums) -> Result<(), Fault> {
        let head = self.take(61)?;
        if let Some(item) = previous {
            item.closed_by(&head, level.content)?;
        }
        let cents = head.number_in(7);
        self.row(&head, level.ordinals, cents);
        self.inside = Inside::credit(level.key.cycle.is_some());
        if head.text(2).is(b"9") {
            sums.debit(cents);
        } else {
            sums.credit(cents);
        }
        sums.views += u128::from(self.views(false, level, head.field(8))?);
        Ok(())
    }

    /// 26s, at most one 27, 28s (clauses 11 to 13).
    fn check_addenda(&mut self, item: &mut Item) -> Result<(), Fault> {
        self.numbered_addenda(26, item)?;
        if self.peek()? == 27 {
            self.addendum(27, item, None)?;
        }
        self.numbered_addenda(28, item)
    }

    /// 32s, one 33, at most one 34, 35s (clauses 15 to 18).
    fn return_addenda(&mut self, item: &mut Item) -> Result<(), Fault> {
        self.numbered_addenda(32, item)?;
        self.addendum(33, item, None)?;
        if self.peek()? == 34 {
            self.addendum(34, item, None)?;
        }
        self.numbered_addenda(35, item)
    }

    /// A run of addenda whose record numbers go up from 1 within the item.
    fn numbered_addenda(&mut self, code: u8, item: &mut Item) -> Result<(), Fault> {
        let mut due = 0;
        while self.peek()? == code {
            due += 1;
            self.addendum(code, item, Some(due))?;
        }
        Ok(())
    }

    fn addendum(&mut self, code: u8, item: &mut Item, due: Option<u64>) -> Result<(), Fault> {
        let record = self.take(code)?;
        item.addenda += 1;
        record.link(1, item.addenda <= item.stated_addenda, "addendum beyond the count")?;
        if let Some(due) = due {
            let why = if due == 10 { "tenth of one digit" } else { "record number" };
            record.link(2, record.number_in(2) == due, why)?;
        }
        self.row(&record, item.place, 0);
        Ok(())
    }

    /// The views of an item or a credit.
    fn views(&mut self, addenda_owed: bool, level: &Level, sequence: &[u8]) -> Result<u64, Fault> {
        let mut views = 0;
        while self.peek()? == 50 {
            self.view(addenda_owed, level, sequence)?;
            views += 1;
        }
        Ok(views)
    }

    /// 50, 52 and at most one 54 (clauses 21 to 23).
    fn view(&mut self, addenda_owed: bool, level: &Level, sequence: &[u8]) -> Result<(), Fault> {
        let detail = self.take(50)?;
        detail.link(1, !addenda_owed, "addenda owed")?;
        detail.link(1, level.content != Content::NoViews, "view under E")?;
        self.row(&detail, level.ordinals, 0);
        self.view_data(level, sequence, detail.text(10).is(b"1"))?;
        if self.peek()? == 54 {
            let analysis = self.take(54)?;
            self.row(&analysis, level.ordinals, 0);
        }
        Ok(())
    }

    /// Clause 22: the item reference key repeats the header and the item, or the credit, byte by byte.
    fn view_data(&mut self, level: &Level, sequence: &[u8], signed: bool) -> Result<(), Fault> {
        let data = self.take(52)?;
        data.link(2, data.field(2) == level.key.routing, "routing number")?;
        data.link(3, data.field(3) == level.key.date, "business date")?;
        data.link(4, level.key.cycle.is_none_or(|cycle| data.field(4) == cycle), "cycle number")?;
        data.link(5, data.field(5) == sequence, "sequence number")?;
        data.link(7, !signed || !judge::all_blank(data.text(7)), "authenticator name")?;
        data.link(8, !signed || !judge::all_blank(data.text(8)), "key name")?;
        self.row(&data, level.ordinals, 0);
        Ok(())
    }
}

/// The bytes of the record whose length field stands first, if that many are there.
pub fn split_record(left: &[u8]) -> Option<&[u8]> {
    let length = left.get(..4)?;
    let length = u32::from_be_bytes([length[0], length[1], length[2], length[3]]) as usize;
    left[4..].get(..length)
}
