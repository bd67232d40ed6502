//! The tree of a file as rows for programs: one for the file, each cash letter, bundle, item, addendum and view, each before those in it.

use std::ffi::OsStr;
use std::io::{Result, Write};

use x9180::{Content, Item, Reading, Row, Totals};

use crate::facts::{self, field_numbers, kind_told, side};
use crate::forms::{Cell, Form, Rows};
use crate::stop::Stop;
use crate::words;

/// How far down a tree goes.
#[derive(Clone, Copy, PartialEq, Eq, PartialOrd, Ord)]
pub enum Depth {
    Letter,
    Bundle,
    Item,
    All,
}

impl Depth {
    pub fn of(word: Option<&OsStr>) -> std::result::Result<Depth, Stop> {
        match word.map(OsStr::to_str) {
            None => Ok(Depth::All),
            Some(Some("letter")) => Ok(Depth::Letter),
            Some(Some("bundle")) => Ok(Depth::Bundle),
            Some(Some("item")) => Ok(Depth::Item),
            Some(_) => {
                let word = words::name(word.unwrap_or_default());
                Err(Stop::Usage(format!("{word} is no depth: letter, bundle or item is asked")))
            }
        }
    }
}

pub const COLUMNS: &[&str] = &[
    "file",
    "level",
    "letter",
    "bundle",
    "item",
    "credit_record",
    "addendum",
    "view",
    "kind",
    "record",
    "offset",
    "amount",
    "letters",
    "bundles",
    "items",
    "views",
    "debit_items",
    "debit",
    "credit_items",
    "credit",
    "sequence",
    "routing",
    "side",
    "bytes",
];

/// Where in the file a row stands: the ordinals of cash letter, bundle, item, credit directly in a cash letter, addendum and view; 0 outside any.
type Place = [u64; 6];

struct Lister<'f> {
    name: String,
    file: &'f [u8],
    reading: &'f Reading,
    depth: Depth,
    rows: Rows<'f>,
}

pub fn write<'f>(
    name: &OsStr,
    file: &'f [u8],
    reading: &'f Reading,
    depth: Depth,
    form: Form,
    out: &'f mut dyn Write,
) -> Result<()> {
    let name = name.to_string_lossy().into_owned();
    Lister { name, file, reading, depth, rows: Rows::new(form, COLUMNS, out) }.whole()
}

impl Lister<'_> {
    fn whole(&mut self) -> Result<()> {
        let reading = self.reading;
        self.level("file", [0; 6], reading.header(), &reading.totals())?;
        for letter in reading.letters() {
            let place = [letter.ordinal(), 0, 0, 0, 0, 0];
            self.level("letter", place, letter.rows().first(), &letter.totals())?;
            let contents = letter.contents();
            contents.filter(|_| self.depth >= Depth::Bundle).collect::<Vec<_>>().into_iter().try_for_each(
                |content| match content {
                    Content::Bundle(bundle) => {
                        let place = [letter.ordinal(), bundle.ordinal(), 0, 0, 0, 0];
                        self.level("bundle", place, bundle.rows().first(), &bundle.totals())?;
                        let at = |item: &Item<'_>| [letter.ordinal(), bundle.ordinal(), item.ordinal(), 0, 0, 0];
                        bundle.items().try_for_each(|item| self.item(at(&item), &item))
                    }
                    Content::Credit(credit) => self.item([letter.ordinal(), 0, 0, credit.ordinal(), 0, 0], &credit),
                },
            )?;
        }
        Ok(())
    }

    fn item(&mut self, place: Place, item: &Item<'_>) -> Result<()> {
        if self.depth < Depth::Item {
            return Ok(());
        }
        let fields = field_numbers(item.kind());
        let texts = [fields.sequence, fields.routing].map(|field| Cell::text(facts::text(item, self.file, field)));
        let [sequence, routing] = texts;
        let mut cells = self.begin("item", place, kind_told(item), item.rows().first());
        cells.push(Cell::number(item.amount()));
        cells.extend((0..8).map(|_| Cell::Blank));
        cells.extend([sequence, routing, Cell::Blank, Cell::Blank]);
        self.rows.put(&cells)?;
        if self.depth < Depth::All {
            return Ok(());
        }
        for (ordinal, addendum) in (1..).zip(item.addenda()) {
            let [letter, bundle, item, credit, ..] = place;
            let name = addendum.kind().map_or("", |kind| kind.name);
            let mut cells = self.begin("addendum", [letter, bundle, item, credit, ordinal, 0], name, Some(addendum));
            cells.extend((0..13).map(|_| Cell::Blank));
            self.rows.put(&cells)?;
        }
        for view in item.views() {
            let [letter, bundle, item, credit, ..] = place;
            let at = [letter, bundle, item, credit, 0, view.ordinal()];
            let mut cells = self.begin("view", at, "", view.data());
            cells.extend((0..11).map(|_| Cell::Blank));
            cells.push(side(&view, self.file).map_or(Cell::Blank, Cell::text));
            cells.push(Cell::number(x9180::picture(self.file, view.offset()).map_or(0, <[u8]>::len) as u64));
            self.rows.put(&cells)?;
        }
        Ok(())
    }

    /// A level with its sums.
    fn level(&mut self, level: &str, place: Place, header: Option<&Row>, totals: &Totals) -> Result<()> {
        let Totals { letters, bundles, items, views, debit, credit_items, credit, .. } = *totals;
        let mut cells = self.begin(level, place, "", header);
        cells.push(Cell::Blank);
        let sums = [letters, bundles, items, views, totals.debit_items(), debit, credit_items, credit];
        cells.extend(sums.map(Cell::number));
        cells.extend((0..4).map(|_| Cell::Blank));
        self.rows.put(&cells)
    }

    /// What every row begins with.
    fn begin(&self, level: &str, place: Place, kind: &str, row: Option<&Row>) -> Vec<Cell> {
        let mut cells = vec![Cell::text(self.name.as_str()), Cell::text(level)];
        cells.extend(place.map(Cell::number));
        cells.push(if kind.is_empty() { Cell::Blank } else { Cell::text(kind) });
        let offset = row.map_or(0, |row| row.offset);
        let record = self.reading.rows().partition_point(|row| row.offset < offset) as u64 + 1;
        cells.extend([Cell::number(record), Cell::number(offset)]);
        cells
    }
}
