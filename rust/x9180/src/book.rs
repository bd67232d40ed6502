//! The day book (request 6): every cash letter of an accepted file becomes an entry, which keeps the letter's own figures until it is withdrawn. Two bureaus
//! may share a book (request 8): every entry has an [`Owner`], and each owner has entry numbers, file numbers and running totals of its own. The net position
//! of each, credit cents minus debit cents, is kept beside its totals (request 9). A withdrawn entry gives its row back, but neither its entry number nor its
//! file number, which stands in a list of its own (request 10).
//!
//! ```
//! use x9180::book::Owner;
//! use x9180::Book;
//!
//! # fn main() -> Result<(), Box<dyn std::error::Error>> {
//! let mut book = Book::with_rows(1_000)?;
//! let file = std::fs::read("../../samples/two-letters-with-pictures.x9")?;
//! let entered = book.enter(&file, 20_240_116, Owner::ONE)?; // the file number is the caller's own
//! assert_eq!(entered.numbers(), 1..=2); // it holds two cash letters
//!
//! let entry = book.find(Owner::ONE, 2)?;
//! assert_eq!((entry.file_number, entry.figures.debit_items, entry.figures.debit), (20_240_116, 1, 31_000));
//! let totals = book.totals(Owner::ONE)?;
//! assert_eq!((totals.figures.debit, totals.net), (47_557, -47_557));
//!
//! // A file number is taken once by each owner.
//! let refused = book.enter(&file, 20_240_116, Owner::ONE).unwrap_err();
//! assert_eq!(refused.number(), x9180::Number::DUPLICATE);
//! assert_eq!(book.enter(&file, 20_240_116, Owner::TWO)?.numbers(), 1..=2);
//!
//! // An entry is withdrawn. Its number is not given again, and its file number stays taken.
//! assert_eq!(book.withdraw(Owner::ONE, 2)?.figures.debit, 31_000);
//! assert!(book.find(Owner::ONE, 2).is_err() && book.enter(&file, 20_240_116, Owner::ONE).is_err());
//! assert_eq!(book.enter(&file, 20_240_117, Owner::ONE)?.numbers(), 3..=4);
//! # Ok(())
//! # }
//! ```
//!
//! What is entered, found and refused is decided by the proved library alone. A refusal leaves the book as it was.

use std::collections::TryReserveError;
use std::ops::RangeInclusive;

use crate::book_table::{given_to, numbers_for, with_nets, BookRow, Table};
use crate::explain;
use crate::explain_book;
use crate::ffi;
use crate::reading::{self, Reading};
use crate::refusal::Number;
use crate::room::room;
use crate::row::Row;
use crate::taken::{self, list_of, List};

pub use crate::book_refusal::{Refused, Want, Wrong};
pub use crate::figures::{Figure, Figures};
pub use crate::owner::Owner;

/// A day book, in memory of its own or lent: a table, and the list of the file numbers taken.
///
/// Both are 64-bit numbers, laid out as `include/x9180.h` says: owned (`Vec<u64>`), lent (`&mut [u64]`), or lent to be looked at only (`&[u64]`). Zeros are
/// an empty book and an empty list. A row of the table is free again when its entry is withdrawn; a place of the list stays taken.
///
/// ```
/// use x9180::book::Owner;
/// use x9180::Book;
///
/// # fn main() -> Result<(), Box<dyn std::error::Error>> {
/// let (mut table, mut taken) = ([0; Book::numbers_for(3)], [0; Book::numbers_for_places(5)]); // perhaps from a file
/// let mut book = Book::over(&mut table[..], &mut taken[..]);
/// book.enter(&std::fs::read("../../peer/samples/sound-2-checks.x9")?, 1, Owner::TWO)?;
/// assert_eq!((book.capacity(), book.free_rows()?), (3, 2));
/// assert_eq!((book.places(), book.free_places()?), (5, 4));
///
/// let later = Book::over(&table[..], &taken[..]);
/// assert_eq!(later.find(Owner::TWO, 1)?.figures.debit, 350);
/// # Ok(())
/// # }
/// ```
#[derive(Clone, Debug)]
pub struct Book<Memory = Vec<u64>, Taken = Memory> {
    memory: Memory,
    taken: Taken,
}

/// A cash letter as it was entered.
#[derive(Clone, Copy, Debug, PartialEq, Eq)]
#[non_exhaustive]
pub struct Entry {
    /// Whose it is.
    pub owner: Owner,
    /// The entry number, counted from 1 for each owner and not given again.
    pub number: u64,
    /// The number that the caller gave its file.
    pub file_number: u64,
    /// The cash letter's own figures.
    pub figures: Figures,
}

/// The running totals of an owner.
#[derive(Clone, Copy, Debug, PartialEq, Eq)]
#[non_exhaustive]
pub struct Totals {
    /// How many entries it has now.
    pub entries: u64,
    /// What they come to.
    pub figures: Figures,
    /// The net position: their credit cents minus their debit cents.
    pub net: i64,
}

/// A file that has been entered: its reading, and the entry numbers given to its cash letters.
#[derive(Clone, Debug, PartialEq, Eq)]
pub struct Entered {
    reading: Reading,
    first: u64,
}

impl Book {
    /// An empty book with room for so many cash letters, and as many file numbers; an error where the memory cannot be had. So many places suffice until
    /// rows are used again.
    pub fn with_rows(rows: usize) -> Result<Book, TryReserveError> {
        Book::with_rows_and_places(rows, rows)
    }

    /// An empty book with room for so many cash letters at a time, and for so many file numbers in all its time.
    pub fn with_rows_and_places(rows: usize, places: usize) -> Result<Book, TryReserveError> {
        let mut book = Book { memory: Vec::new(), taken: Vec::new() };
        book.grow_to(rows, places)?;
        Ok(book)
    }

    /// Makes room for so many cash letters and so many file numbers in all, where there are fewer rows or places. All else stays as it was, also where the
    /// memory cannot be had.
    ///
    /// ```
    /// use x9180::book::Owner;
    /// use x9180::Book;
    ///
    /// # fn main() -> Result<(), Box<dyn std::error::Error>> {
    /// let file = std::fs::read("../../samples/two-letters-with-pictures.x9")?;
    /// let mut book = Book::with_rows(1)?;
    /// assert!(book.enter(&file, 1, Owner::ONE).is_err());
    /// book.grow_to(2, 0)?;
    /// assert_eq!(book.enter(&file, 1, Owner::ONE)?.numbers(), 1..=2);
    /// # Ok(())
    /// # }
    /// ```
    pub fn grow_to(&mut self, rows: usize, places: usize) -> Result<(), TryReserveError> {
        let more = numbers_for(rows).saturating_sub(self.memory.len());
        let more_taken = taken::numbers_for(places).saturating_sub(self.taken.len());
        self.memory.try_reserve_exact(more)?;
        self.taken.try_reserve_exact(more_taken)?;
        self.memory.resize(self.memory.len() + more, 0);
        self.taken.resize(self.taken.len() + more_taken, 0);
        Ok(())
    }

    /// A book in the form that it had before there were owners (request 6), with all its entries given to one of them: [`Owner::ONE`] or [`Owner::TWO`].
    /// The list is made as [`with_list`](Book::with_list) makes it.
    ///
    /// ```
    /// use x9180::book::Owner;
    /// use x9180::Book;
    ///
    /// # fn main() -> Result<(), Box<dyn std::error::Error>> {
    /// // One row is claimed; the last entry number is 1; a bundle with a debit of 350 cents; the row.
    /// let head = [1, 1, 1, 1, 0, 0, 350, 0, 0, 0, 0, 0, 0, 0, 0, 0, 0];
    /// let row = [1, 1, 20_240_116, 1, 1, 0, 0, 350, 0];
    /// let book = Book::given_to(Owner::TWO, [head.as_slice(), &row].concat());
    /// assert_eq!(book.totals(Owner::TWO)?.figures.debit, 350);
    /// assert_eq!(book.totals(Owner::ONE)?.entries, 0);
    /// # Ok(())
    /// # }
    /// ```
    pub fn given_to(owner: Owner, numbers: Vec<u64>) -> Book {
        Book::with_list(given_to(owner, numbers))
    }

    /// A book in the form that it had before net positions were kept (request 8). They are worked out from its rows, and the list is made as
    /// [`with_list`](Book::with_list) makes it.
    pub fn with_nets(numbers: Vec<u64>) -> Book {
        Book::with_list(with_nets(numbers))
    }

    /// A book in the form that it had before there was a list of the file numbers taken (request 9). They are taken from its rows, each owner's once and in
    /// the order of the rows, and there are as many places as rows.
    pub fn with_list(numbers: Vec<u64>) -> Book {
        let table = Table(&numbers);
        let taken = list_of(table.rows().map(|row| (row.owner, row.file_number)), table.capacity() as usize);
        Book { memory: numbers, taken }
    }

    /// How many numbers of memory the table of a book of so many rows takes.
    pub const fn numbers_for(rows: usize) -> usize {
        numbers_for(rows)
    }

    /// How many numbers of memory a list of so many places takes.
    pub const fn numbers_for_places(places: usize) -> usize {
        taken::numbers_for(places)
    }
}

impl<Memory, Taken> Book<Memory, Taken> {
    /// The book that stands in this memory, and the list of the file numbers taken in that one.
    pub fn over(memory: Memory, taken: Taken) -> Book<Memory, Taken> {
        Book { memory, taken }
    }

    /// The memory of both.
    pub fn into_memory(self) -> (Memory, Taken) {
        (self.memory, self.taken)
    }
}

impl<Memory: AsRef<[u64]>, Taken: AsRef<[u64]>> Book<Memory, Taken> {
    /// The numbers of the table, as they stand.
    pub fn numbers(&self) -> &[u64] {
        self.memory.as_ref()
    }

    /// The numbers of the list of file numbers taken, as they stand.
    pub fn taken(&self) -> &[u64] {
        self.taken.as_ref()
    }

    /// For how many cash letters there are rows, free or not.
    pub fn capacity(&self) -> u64 {
        self.table().capacity()
    }

    /// For how many file numbers there are places, free or not.
    pub fn places(&self) -> u64 {
        self.list().capacity()
    }

    /// How many rows are free, for both owners: those that no entry has, gaps among them.
    pub fn free_rows(&self) -> Result<u64, Refused> {
        // The library judges the whole table, whoever asks.
        self.totals(Owner::ONE)?;
        Ok(self.table().free())
    }

    /// How many places for file numbers are free, for both owners. A withdrawal frees none.
    pub fn free_places(&self) -> Result<u64, Refused> {
        // The library judges the list in the calls that change a book. Of an empty one, without rows, none of them changes anything.
        match Number(ffi::book_tidy(&mut [], self.taken())) {
            Number::ACCEPTED => Ok(self.list().capacity().saturating_sub(self.list().claimed())),
            _ => Err(explain_book::no_list(self.list())),
        }
    }

    /// Whether the library takes the table for a book and the list for one of file numbers, or what is wrong with them. [`find`](Book::find),
    /// [`totals`](Book::totals) and [`entries`](Book::entries) look at the table alone.
    pub fn check(&self) -> Result<(), Refused> {
        self.free_rows()?;
        self.free_places().map(drop)
    }

    /// The first entry of an owner with this number, as it was entered. One that was withdrawn is none.
    pub fn find(&self, owner: Owner, entry_number: u64) -> Result<Entry, Refused> {
        let [answer, number, file_number, figures @ ..] = ffi::book_find(self.numbers(), owner.0, entry_number);
        match Number(answer) {
            Number::ACCEPTED => Ok(Entry { owner, number, file_number, figures: Figures::of(figures) }),
            Number::NOENTRY => Err(explain_book::no_entry(self.table(), owner, entry_number)),
            // The library's contract has no other number here.
            _ => Err(explain_book::no_book(self.table())),
        }
    }

    /// How many entries an owner has, its running totals, and its net position.
    pub fn totals(&self, owner: Owner) -> Result<Totals, Refused> {
        let [answer, entries, figures @ .., net] = ffi::book_totals(self.numbers(), owner.0);
        match Number(answer) {
            Number::ACCEPTED => Ok(Totals { entries, figures: Figures::of(figures), net: net as i64 }),
            Number::NOENTRY => Err(Refused::NoOwner(owner)),
            // The library's contract has no other number here.
            _ => Err(explain_book::no_book(self.table())),
        }
    }

    /// All entries of an owner in the order of their rows, where the library takes the table for a book. Until a row is used again that is the order of
    /// their numbers.
    ///
    /// ```
    /// use x9180::book::Owner;
    /// use x9180::Book;
    ///
    /// # fn main() -> Result<(), Box<dyn std::error::Error>> {
    /// let mut book = Book::with_rows(10)?;
    /// book.enter(&std::fs::read("../../samples/two-letters-with-pictures.x9")?, 7, Owner::ONE)?;
    /// book.enter(&std::fs::read("../../peer/samples/sound-2-checks.x9")?, 7, Owner::TWO)?;
    /// book.enter(&std::fs::read("../../samples/credits-with-pictures.x9")?, 8, Owner::ONE)?;
    /// let entries = book.entries(Owner::ONE)?.map(|entry| (entry.number, entry.file_number, entry.figures.credit));
    /// assert_eq!(entries.collect::<Vec<_>>(), [(1, 7, 0), (2, 7, 0), (3, 8, 33_364), (4, 8, 131_000)]);
    /// # Ok(())
    /// # }
    /// ```
    pub fn entries(&self, owner: Owner) -> Result<impl Iterator<Item = Entry> + '_, Refused> {
        self.totals(owner)?;
        Ok(self.table().rows_of(owner).map(Entry::of))
    }

    fn table(&self) -> Table<'_> {
        Table(self.numbers())
    }

    fn list(&self) -> List<'_> {
        List(self.taken())
    }
}

impl<Memory: AsRef<[u64]> + AsMut<[u64]>, Taken: AsRef<[u64]>> Book<Memory, Taken> {
    /// Withdraws the first entry of an owner with this number, and gives it as it was. Its row is free for the next file. Its number is not given again, and
    /// its file number stays taken.
    ///
    /// ```
    /// use x9180::book::{Owner, Refused};
    /// use x9180::{Book, Number};
    ///
    /// # fn main() -> Result<(), Box<dyn std::error::Error>> {
    /// let file = std::fs::read("../../samples/two-letters-with-pictures.x9")?;
    /// let mut book = Book::with_rows_and_places(2, 5)?;
    /// book.enter(&file, 7, Owner::ONE)?;
    /// let withdrawn = book.withdraw(Owner::ONE, 1)?;
    /// assert_eq!((withdrawn.file_number, withdrawn.figures.debit), (7, 16_557));
    /// assert_eq!(book.find(Owner::ONE, 1).unwrap_err().number(), Number::NOENTRY);
    /// assert_eq!((book.totals(Owner::ONE)?.net, book.free_rows()?, book.free_places()?), (-31_000, 1, 4));
    /// assert_eq!(book.enter(&file, 7, Owner::ONE).unwrap_err().number(), Number::DUPLICATE);
    /// # Ok(())
    /// # }
    /// ```
    pub fn withdraw(&mut self, owner: Owner, entry_number: u64) -> Result<Entry, Refused> {
        // Both take the first row of the owner with the number.
        let found = self.find(owner, entry_number);
        match Number(ffi::book_withdraw(self.memory.as_mut(), self.taken.as_ref(), owner.0, entry_number)) {
            Number::ACCEPTED => found,
            Number::NOENTRY => Err(explain_book::no_entry(self.table(), owner, entry_number)),
            Number::RANGE => {
                let less = found.map_or(0, |entry| entry.figures.net());
                Err(explain_book::range(self.table(), owner, -less))
            }
            // The library's contract has no other number here.
            _ => Err(explain_book::no_book_or_list(self.table(), self.list())),
        }
    }

    /// Closes the gaps that withdrawals have left among the rows, and gives how many there were. All entries keep their numbers, their figures and their
    /// order. No room is won, since a gap is free before too.
    ///
    /// ```
    /// use x9180::book::Owner;
    /// use x9180::Book;
    ///
    /// # fn main() -> Result<(), Box<dyn std::error::Error>> {
    /// let mut book = Book::with_rows(5)?;
    /// book.enter(&std::fs::read("../../samples/two-letters-with-pictures.x9")?, 7, Owner::ONE)?;
    /// book.withdraw(Owner::ONE, 1)?;
    /// assert_eq!((book.tidy()?, book.free_rows()?), (1, 4));
    /// assert_eq!(book.find(Owner::ONE, 2)?.figures.debit, 31_000);
    /// # Ok(())
    /// # }
    /// ```
    pub fn tidy(&mut self) -> Result<u64, Refused> {
        let before = self.table().claimed();
        match Number(ffi::book_tidy(self.memory.as_mut(), self.taken.as_ref())) {
            Number::ACCEPTED => Ok(before.saturating_sub(self.table().claimed())),
            // The library's contract has no other number here.
            _ => Err(explain_book::no_book_or_list(self.table(), self.list())),
        }
    }
}

impl<Memory: AsRef<[u64]> + AsMut<[u64]>, Taken: AsRef<[u64]> + AsMut<[u64]>> Book<Memory, Taken> {
    /// Reads a file and, where it is accepted, enters its cash letters for an owner in their order, numbered on from the last number given to it. The file
    /// number is the caller's own, and may be entered once by each owner. The lowest gaps are used first, then rows behind all others.
    pub fn enter(&mut self, file: &[u8], file_number: u64, owner: Owner) -> Result<Entered, Refused> {
        let (mut rows, mut reserved) = (Vec::new(), Vec::new());
        loop {
            let (book, taken) = (self.memory.as_mut(), self.taken.as_mut());
            let answer = ffi::book_enter(file, file_number, owner.0, &mut rows, book, taken);
            let [number, record, field, offset, totals @ .., first] = answer;
            match Number(number) {
                Number::ACCEPTED => {
                    let reading = Reading::within(file, rows, reading::Totals::of_answer(totals), reserved);
                    return Ok(Entered { reading, first });
                }
                // The first call, with no rows, tells how many are needed; the second has them. All memory is had before anything is entered.
                Number::ROOM
                    if rows.is_empty() && room(&mut rows, record) && reserved.try_reserve_exact(rows.len()).is_ok() => {
                }
                Number::BOOK => return Err(explain_book::no_book_or_list(self.table(), self.list())),
                Number::NOENTRY => return Err(Refused::NoOwner(owner)),
                Number::DUPLICATE => return Err(explain_book::duplicate(self.table(), owner, file_number)),
                Number::RANGE => {
                    return Err(explain_book::range(self.table(), owner, sums(file, &mut rows).1.net()));
                }
                Number::FULL => {
                    let (letters, figures) = sums(file, &mut rows);
                    return Err(explain_book::full(self.table(), self.list(), owner, letters, figures));
                }
                refused => return Err(explain::reading(file, refused, record, field, offset).into()),
            }
        }
    }
}

/// How many cash letters an accepted file has, for which there are rows, and what they come to.
fn sums(file: &[u8], rows: &mut [Row]) -> (u64, Figures) {
    let [_, _, _, _, totals @ ..] = ffi::read(file, rows);
    let totals = reading::Totals::of_answer(totals);
    let figures = Figures {
        bundles: totals.bundles,
        debit_items: totals.debit_items(),
        credit_items: totals.credit_items,
        views: totals.views,
        debit: totals.debit,
        credit: totals.credit,
    };
    (totals.letters, figures)
}

impl Entry {
    fn of(row: BookRow) -> Entry {
        let BookRow { owner, entry_number: number, file_number, figures } = row;
        Entry { owner, number, file_number, figures }
    }
}

impl Entered {
    /// What the file holds, as [`read`](crate::read) gives it.
    pub fn reading(&self) -> &Reading {
        &self.reading
    }

    /// The entry numbers given to its cash letters, in their order.
    pub fn numbers(&self) -> RangeInclusive<u64> {
        // An accepted file has a cash letter at least.
        let behind_first = self.reading.totals().letters.saturating_sub(1);
        self.first..=self.first.saturating_add(behind_first)
    }
}
