//! What an accepted file holds: its rows and totals, and the levels that the rows' ordinals set out. Of the crate's modules it imports
//! `row` and `character_set` alone.

use crate::character_set::CharacterSet;
use crate::row::Row;

/// Counts and cents, of a whole file or of one of its parts.
#[derive(Clone, Copy, Debug, Default, PartialEq, Eq)]
pub struct Totals {
    /// Records, headers and controls among them.
    pub records: u64,
    /// Cash letters.
    pub letters: u64,
    /// Bundles.
    pub bundles: u64,
    /// Items: every check, return and Credit/Reconciliation Record (clause 35.4), be it a debit or a credit.
    pub items: u64,
    /// Views.
    pub views: u64,
    /// Debit cents.
    pub debit: u64,
    /// Those of the items that are credits.
    pub credit_items: u64,
    /// Credit cents.
    pub credit: u64,
}

impl Totals {
    /// Those of the items that are debits.
    ///
    /// ```
    /// # fn main() -> Result<(), Box<dyn std::error::Error>> {
    /// let totals = x9180::read(&std::fs::read("../../peer/samples/sound-11-credits.x9")?)?.totals();
    /// assert_eq!((totals.debit_items(), totals.debit), (2, 40_005));
    /// assert_eq!((totals.credit_items, totals.credit), (3, 112_352));
    /// # Ok(())
    /// # }
    /// ```
    pub fn debit_items(&self) -> u64 {
        self.items.saturating_sub(self.credit_items)
    }

    /// From the numbers of an answer.
    pub(crate) fn of_answer(numbers: [u64; 8]) -> Totals {
        let [records, letters, bundles, items, views, debit, credit_items, credit] = numbers;
        Totals { records, letters, bundles, items, views, debit, credit_items, credit }
    }

    /// The totals of a level, counted over its rows.
    fn of(part: Part<'_>) -> Totals {
        let mut totals = Totals { records: part.rows.len() as u64, ..Totals::default() };
        for row in part.rows {
            match row.record_type {
                10 => totals.letters += 1,
                20 => totals.bundles += 1,
                25 | 31 | 61 => totals.add_item(row.amount, part.is_debit(row)),
                50 => totals.views += 1,
                _ => {}
            }
        }
        totals
    }

    fn add_item(&mut self, amount: u64, is_debit: bool) {
        self.items += 1;
        if is_debit {
            self.debit += amount;
        } else {
            self.credit_items += 1;
            self.credit += amount;
        }
    }
}

/// An accepted file: its totals, a row for each record, and the set of its characters.
#[derive(Clone, Debug, PartialEq, Eq)]
pub struct Reading {
    character_set: CharacterSet,
    rows: Vec<Row>,
    totals: Totals,
    /// The offsets of the Credit/Reconciliation Records that make debits, rising. A row does not tell it, and the file need not be kept.
    debit_adjustments: Vec<u64>,
}

impl Reading {
    /// The reading of a file with the rows and totals that the library gave; `None` where the memory cannot be had.
    pub(crate) fn of(file: &[u8], rows: Vec<Row>, totals: Totals) -> Option<Reading> {
        let mut reserved = Vec::new();
        reserved.try_reserve_exact(rows.iter().filter(|row| row.is_debit_adjustment(file)).count()).ok()?;
        Some(Reading::within(file, rows, totals, reserved))
    }

    /// The same in memory that has been had before: room for one number a row is always enough.
    pub(crate) fn within(file: &[u8], rows: Vec<Row>, totals: Totals, mut reserved: Vec<u64>) -> Reading {
        reserved.clear();
        reserved.extend(rows.iter().filter(|row| row.is_debit_adjustment(file)).map(|row| row.offset));
        Reading { character_set: CharacterSet::of(file), rows, totals, debit_adjustments: reserved }
    }

    /// The set that the file's characters are in. It makes no difference to the rows and totals; [`Row::text`] goes by it.
    pub fn character_set(&self) -> CharacterSet {
        self.character_set
    }

    /// A row for each record, in the order of the file.
    pub fn rows(&self) -> &[Row] {
        &self.rows
    }

    /// The totals of the whole file, as added up from its records.
    pub fn totals(&self) -> Totals {
        self.totals
    }

    /// The line of the scope document for an accepted file.
    ///
    /// ```
    /// # fn main() -> Result<(), Box<dyn std::error::Error>> {
    /// let reading = x9180::read(&std::fs::read("../../peer/samples/sound-2-checks.x9")?)?;
    /// assert_eq!(reading.line(), "accepted records 12 letters 1 bundles 1 items 2 views 0 debit 350");
    /// # Ok(())
    /// # }
    /// ```
    pub fn line(&self) -> String {
        // Credits are not in it: request 2 leaves the line as it was.
        let Totals { records, letters, bundles, items, views, debit, .. } = self.totals;
        format!(
            "accepted records {records} letters {letters} bundles {bundles} items {items} views {views} debit {debit}"
        )
    }

    /// The row of the File Header Record.
    pub fn header(&self) -> Option<&Row> {
        self.rows.first()
    }

    /// The row of the File Control Record.
    pub fn control(&self) -> Option<&Row> {
        self.rows.last()
    }

    /// The cash letters in their order.
    ///
    /// ```
    /// # fn main() -> Result<(), Box<dyn std::error::Error>> {
    /// let file = std::fs::read("../../peer/samples/sound-6-two-letters.x9")?;
    /// let reading = x9180::read(&file)?;
    /// for letter in reading.letters() {
    ///     for bundle in letter.bundles() {
    ///         for item in bundle.items() {
    ///             println!("{}.{}.{}: {} cents", letter.ordinal(), bundle.ordinal(), item.ordinal(), item.amount());
    ///             for view in item.views() {
    ///                 println!("  {} picture bytes", x9180::picture(&file, view.offset())?.len());
    ///             }
    ///         }
    ///     }
    /// }
    /// assert_eq!(reading.letters().count(), 2);
    /// # Ok(())
    /// # }
    /// ```
    pub fn letters(&self) -> impl Iterator<Item = Letter<'_>> {
        self.whole().inside().chunks(|row, next| row.letter == next.letter).map(|part| Letter { part })
    }

    /// The cash letter with this ordinal, from 1.
    ///
    /// ```
    /// # fn main() -> Result<(), Box<dyn std::error::Error>> {
    /// let reading = x9180::read(&std::fs::read("../../peer/samples/sound-6-two-letters.x9")?)?;
    /// let item = reading.letter(2).and_then(|letter| letter.bundle(1)).and_then(|bundle| bundle.item(1));
    /// assert_eq!(item.map(|item| item.amount()), Some(9_999_999_999));
    /// assert!(reading.letter(3).is_none());
    /// # Ok(())
    /// # }
    /// ```
    pub fn letter(&self, ordinal: u64) -> Option<Letter<'_>> {
        self.whole().inside().numbered(|row| row.letter, ordinal).map(|part| Letter { part })
    }

    fn whole(&self) -> Part<'_> {
        Part { rows: &self.rows, debit_adjustments: &self.debit_adjustments }
    }
}

/// A cash letter, from its header to its control.
#[derive(Clone, Copy, Debug)]
pub struct Letter<'r> {
    part: Part<'r>,
}

/// What stands directly in a cash letter (Figure 1c of the standard).
#[derive(Clone, Copy, Debug)]
pub enum Content<'r> {
    /// A bundle.
    Bundle(Bundle<'r>),
    /// A Credit/Reconciliation Record (type 61) outside every bundle, with its views.
    Credit(Item<'r>),
}

impl<'r> Letter<'r> {
    /// The ordinal in the file, from 1.
    pub fn ordinal(&self) -> u64 {
        self.part.first(|row| row.letter)
    }

    /// All its rows, from the Cash Letter Header Record to the Cash Letter Control Record.
    pub fn rows(&self) -> &'r [Row] {
        self.part.rows
    }

    /// Its own sums: those of its bundles, and of the credits that stand directly in it.
    pub fn totals(&self) -> Totals {
        Totals::of(self.part)
    }

    /// Its bundles, and the credits that stand directly in it, in their order.
    ///
    /// ```
    /// use x9180::Content;
    ///
    /// # fn main() -> Result<(), Box<dyn std::error::Error>> {
    /// let reading = x9180::read(&std::fs::read("../../peer/samples/sound-11-credits.x9")?)?;
    /// let mut lines = Vec::new();
    /// for content in reading.letters().flat_map(|letter| letter.contents()) {
    ///     lines.push(match content {
    ///         Content::Bundle(bundle) => format!("bundle {} of {} items", bundle.ordinal(), bundle.items().count()),
    ///         Content::Credit(credit) => format!("credit {} of {} cents", credit.ordinal(), credit.amount()),
    ///     });
    /// }
    /// assert_eq!(lines, ["credit 1 of 100000 cents", "bundle 1 of 3 items", "credit 2 of 7 cents"]);
    /// # Ok(())
    /// # }
    /// ```
    pub fn contents(&self) -> impl Iterator<Item = Content<'r>> {
        let mut credits = 0;
        self.part.inside().chunks(belong_together).map(move |part| {
            if part.first(|row| row.bundle) != 0 {
                return Content::Bundle(Bundle { part });
            }
            credits += 1;
            Content::Credit(Item { ordinal: credits, part })
        })
    }

    /// Its bundles in their order.
    pub fn bundles(&self) -> impl Iterator<Item = Bundle<'r>> {
        self.contents().filter_map(|content| match content {
            Content::Bundle(bundle) => Some(bundle),
            Content::Credit(_) => None,
        })
    }

    /// The credits that stand directly in it, in their order: every Credit/Reconciliation Record (type 61) outside its bundles, those
    /// that make debits too ([`Item::is_debit`]).
    pub fn credits(&self) -> impl Iterator<Item = Item<'r>> {
        self.contents().filter_map(|content| match content {
            Content::Bundle(_) => None,
            Content::Credit(credit) => Some(credit),
        })
    }

    /// The bundle with this ordinal in the cash letter, from 1. The rows before it are walked over.
    pub fn bundle(&self, ordinal: u64) -> Option<Bundle<'r>> {
        self.bundles().find(|bundle| bundle.ordinal() == ordinal)
    }

    /// The credit with this ordinal among those that stand directly in the cash letter, from 1. The rows before it are walked over.
    pub fn credit(&self, ordinal: u64) -> Option<Item<'r>> {
        self.credits().find(|credit| credit.ordinal() == ordinal)
    }
}

/// A bundle, from its header to its control.
#[derive(Clone, Copy, Debug)]
pub struct Bundle<'r> {
    part: Part<'r>,
}

impl<'r> Bundle<'r> {
    /// The ordinal in its cash letter, from 1.
    pub fn ordinal(&self) -> u64 {
        self.part.first(|row| row.bundle)
    }

    /// All its rows, from the Bundle Header Record to the Bundle Control Record.
    pub fn rows(&self) -> &'r [Row] {
        self.part.rows
    }

    /// Its own sums.
    pub fn totals(&self) -> Totals {
        Totals::of(self.part)
    }

    /// Its items in their order: checks or returns, and credits among them.
    pub fn items(&self) -> impl Iterator<Item = Item<'r>> {
        self.part.inside().chunks(|row, next| row.item == next.item).map(Item::in_bundle)
    }

    /// The item with this ordinal in the bundle, from 1.
    pub fn item(&self, ordinal: u64) -> Option<Item<'r>> {
        self.part.inside().numbered(|row| row.item, ordinal).map(Item::in_bundle)
    }
}

/// An item: a Check Detail or Return Record with its addenda and views, or a Credit/Reconciliation Record with its views.
#[derive(Clone, Copy, Debug)]
pub struct Item<'r> {
    ordinal: u64,
    part: Part<'r>,
}

/// Which record an item begins with.
#[derive(Clone, Copy, Debug, PartialEq, Eq)]
pub enum ItemKind {
    /// A Check Detail Record (type 25).
    Check,
    /// A Return Record (type 31).
    Return,
    /// A Credit/Reconciliation Record (type 61). By its Record Usage Indicator it may make a debit: [`Item::is_debit`] tells.
    Credit,
}

impl<'r> Item<'r> {
    fn in_bundle(part: Part<'r>) -> Item<'r> {
        Item { ordinal: part.first(|row| row.item), part }
    }

    /// The ordinal in its bundle, from 1; of a credit directly in a cash letter, the ordinal among those.
    pub fn ordinal(&self) -> u64 {
        self.ordinal
    }

    /// Which record it begins with.
    pub fn kind(&self) -> ItemKind {
        match self.part.first(|row| row.record_type) {
            61 => ItemKind::Credit,
            31 => ItemKind::Return,
            _ => ItemKind::Check,
        }
    }

    /// Whether its amount is a debit: that of every check and return, and of a Credit/Reconciliation Record with Record Usage Indicator
    /// 9; with any other, or none, it is a credit.
    ///
    /// ```
    /// # fn main() -> Result<(), Box<dyn std::error::Error>> {
    /// let reading = x9180::read(&std::fs::read("../../peer/samples/sound-11-credits.x9")?)?;
    /// let bundle = reading.letter(1).and_then(|letter| letter.bundle(1)).ok_or("no bundle")?;
    /// let items: Vec<_> = bundle.items().map(|item| (item.kind(), item.is_debit(), item.amount())).collect();
    /// use x9180::ItemKind::{Check, Credit};
    /// assert_eq!(items, [(Credit, false, 12_345), (Check, true, 40_000), (Credit, true, 5)]);
    /// # Ok(())
    /// # }
    /// ```
    pub fn is_debit(&self) -> bool {
        self.part.rows.first().is_some_and(|row| self.part.is_debit(row))
    }

    /// The amount in cents.
    pub fn amount(&self) -> u64 {
        self.part.first(|row| row.amount)
    }

    /// All its rows, the Check Detail, Return or Credit/Reconciliation Record first.
    pub fn rows(&self) -> &'r [Row] {
        self.part.rows
    }

    /// The rows of its addenda in their order.
    pub fn addenda(&self) -> impl Iterator<Item = &'r Row> {
        self.part.rows.iter().filter(|row| row.is_addendum())
    }

    /// Its views in their order.
    pub fn views(&self) -> impl Iterator<Item = View<'r>> {
        let rows = self.part.rows;
        let start = rows.iter().position(|row| row.record_type == 50).unwrap_or(rows.len());
        let views = rows.get(start..).unwrap_or_default().chunk_by(|_, next| next.record_type != 50);
        (1..).zip(views).map(|(ordinal, rows)| View { ordinal, rows })
    }

    /// The view with this ordinal in the item, from 1.
    pub fn view(&self, ordinal: u64) -> Option<View<'r>> {
        self.views().find(|view| view.ordinal == ordinal)
    }
}

/// A view: an Image View Detail and an Image View Data Record, and an Image View Analysis Record where there is one.
#[derive(Clone, Copy, Debug)]
pub struct View<'r> {
    ordinal: u64,
    rows: &'r [Row],
}

impl<'r> View<'r> {
    /// The ordinal in its item, from 1.
    pub fn ordinal(&self) -> u64 {
        self.ordinal
    }

    /// Its two or three rows.
    pub fn rows(&self) -> &'r [Row] {
        self.rows
    }

    /// The row of the Image View Detail Record.
    pub fn detail(&self) -> Option<&'r Row> {
        self.of_type(50)
    }

    /// The row of the Image View Data Record.
    pub fn data(&self) -> Option<&'r Row> {
        self.of_type(52)
    }

    /// The row of the Image View Analysis Record, where there is one.
    pub fn analysis(&self) -> Option<&'r Row> {
        self.of_type(54)
    }

    /// Whether its picture is declared as a TIFF image in black and white, compressed by Group 4: the Image View Format Indicator (field 5 of the Image View
    /// Detail Record) is 00. That is the format of which X9.100-181 speaks, and whose tags [`tags`](crate::tags) judges; 23 and 24 are TIFF images
    /// in gray, of which it does not.
    pub fn is_tiff(&self, file: &[u8]) -> bool {
        self.detail().and_then(|row| row.text(file, 5)).as_deref() == Some("00")
    }

    /// The offset that [`picture`](crate::picture) takes: that of the Image View Data Record.
    pub fn offset(&self) -> u64 {
        self.data().map_or(0, |row| row.offset)
    }

    fn of_type(&self, record_type: u64) -> Option<&'r Row> {
        self.rows.iter().find(|row| row.record_type == record_type)
    }
}

/// Some rows of a reading, side by side, and which of its Credit/Reconciliation Records make debits.
#[derive(Clone, Copy, Debug)]
struct Part<'r> {
    rows: &'r [Row],
    debit_adjustments: &'r [u64],
}

impl<'r> Part<'r> {
    /// The rows between a header and its control.
    fn inside(self) -> Part<'r> {
        Part { rows: self.rows.get(1..self.rows.len().saturating_sub(1)).unwrap_or_default(), ..self }
    }

    /// The parts that neighbours which belong together make.
    fn chunks(self, together: fn(&Row, &Row) -> bool) -> impl Iterator<Item = Part<'r>> {
        self.rows.chunk_by(together).map(move |rows| Part { rows, ..self })
    }

    /// The part with this ordinal, among rows whose ordinals never fall.
    fn numbered(self, ordinal_of: fn(&Row) -> u64, ordinal: u64) -> Option<Part<'r>> {
        let rows = self.rows.get(self.rows.partition_point(|row| ordinal_of(row) < ordinal)..)?;
        let rows = rows.get(..rows.partition_point(|row| ordinal_of(row) == ordinal))?;
        (!rows.is_empty()).then_some(Part { rows, ..self })
    }

    /// A number of the first row.
    fn first(self, number_of: fn(&Row) -> u64) -> u64 {
        self.rows.first().map_or(0, number_of)
    }

    /// Whether an item's first row tells of a debit.
    fn is_debit(self, row: &Row) -> bool {
        row.record_type != 61 || self.debit_adjustments.binary_search(&row.offset).is_ok()
    }
}

/// Whether two neighbours among the rows of a cash letter are of one bundle, or of one credit that stands directly in it.
fn belong_together(row: &Row, next: &Row) -> bool {
    let next_credit_begins = next.bundle == 0 && next.record_type == 61;
    row.bundle == next.bundle && !next_credit_begins
}
