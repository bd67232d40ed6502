//! Why a call on a day book was refused, in numbers and in plain words.
//!
//! The form of such a refusal only: `explain_book` looks for the cause. Of the crate's modules it imports `refusal`, `figures` and
//! `owner` alone.

use std::fmt::{Display, Formatter};

use crate::figures::Figure;
use crate::owner::Owner;
use crate::refusal::{Number, Refusal};

/// Why a call on a book was refused. The number is the library's; the cause beside it is what this crate finds in the table by a look of its own,
/// and `None` should it find nothing.
///
/// `{}` puts the words on one line, `{:#}` on a line each.
///
/// ```
/// use x9180::book::{Owner, Refused};
/// use x9180::Book;
///
/// # fn main() -> Result<(), Box<dyn std::error::Error>> {
/// let mut book = Book::with_rows(1)?;
/// let file = std::fs::read("../../samples/two-letters-with-pictures.x9")?;
/// let refused = book.enter(&file, 7, Owner::TWO).unwrap_err();
/// assert_eq!((refused.number().0, refused.number().name()), (13, "FULL"));
/// assert_eq!(refused.to_string(), "FULL: the day book has no room for the file; cash letters: 2; free rows: 1");
/// assert_eq!(book.find(Owner::TWO, 1), Err(Refused::NoEntry { owner: Owner::TWO, entry_number: 1, last: 0 }));
///
/// book.enter(&std::fs::read("../../peer/samples/sound-2-checks.x9")?, 7, Owner::TWO)?;
/// book.withdraw(Owner::TWO, 1)?;
/// let refused = book.enter(&file, 7, Owner::TWO).unwrap_err();
/// let words = "DUPLICATE: the file number has been entered already; file number 7 of owner 2; no entry has it any more, and it stays taken";
/// assert_eq!(refused.to_string(), words);
/// # Ok(())
/// # }
/// ```
#[derive(Clone, Debug, PartialEq, Eq)]
#[non_exhaustive]
pub enum Refused {
    /// `BOOK`: the table is no book, or the list of file numbers taken is none.
    Book(Option<Wrong>),
    /// `DUPLICATE`: the owner has entered the file number before.
    Duplicate {
        /// The owner.
        owner: Owner,
        /// The file number.
        file_number: u64,
        /// How many of its entries have it now; none where they have been withdrawn.
        entries: u64,
        /// The number of the first of them.
        first: Option<u64>,
    },
    /// `FULL`: there is no room for the file.
    Full(Option<Want>),
    /// `RANGE`: the net position of the owner would lie beyond 10^18 cents either side.
    Range {
        /// The owner.
        owner: Owner,
        /// Its net position in cents.
        net: i64,
        /// What it would be.
        then: i128,
    },
    /// `NOENTRY`: no entry of the owner has the number.
    NoEntry {
        /// The owner.
        owner: Owner,
        /// The number that was looked for.
        entry_number: u64,
        /// The last entry number given to it.
        last: u64,
    },
    /// `NOENTRY`: there is no such owner.
    NoOwner(Owner),
    /// The file itself was refused, as [`read`](crate::read) refuses it.
    File(Refusal),
}

/// What is wrong with a table that is no book, or with a list that is none.
#[derive(Clone, Copy, Debug, PartialEq, Eq)]
#[non_exhaustive]
pub enum Wrong {
    /// It claims more rows than it has.
    Rows {
        /// The rows that it claims.
        claimed: u64,
        /// The rows that it has.
        capacity: u64,
    },
    /// A running total of an owner is not the sum of its rows.
    Total {
        /// Whose.
        owner: Owner,
        /// Which figure.
        figure: Figure,
        /// The running total.
        total: u64,
        /// What its rows come to.
        rows: u128,
    },
    /// The net position of an owner is not what its rows come to.
    Net {
        /// Whose.
        owner: Owner,
        /// The net position in cents.
        net: i64,
        /// The credit cents of its rows minus their debit cents.
        rows: i128,
    },
    /// The list of file numbers taken claims more places than it has.
    Places {
        /// The places that it claims.
        claimed: u64,
        /// The places that it has.
        capacity: u64,
    },
}

/// What a book lacks for a file.
#[derive(Clone, Copy, Debug, PartialEq, Eq)]
#[non_exhaustive]
pub enum Want {
    /// Rows: a larger book would have them.
    Rows {
        /// The cash letters of the file.
        letters: u64,
        /// The free rows.
        free: u64,
    },
    /// A place in the list of file numbers taken, which has none free: a longer list would have them.
    Places {
        /// The places of the list.
        capacity: u64,
    },
    /// Entry numbers: the last one would pass 64 bits.
    EntryNumbers {
        /// Whose.
        owner: Owner,
        /// The cash letters of the file.
        letters: u64,
        /// The last entry number given to it.
        last: u64,
    },
    /// A running total that holds the file's figure besides: it would pass 64 bits.
    Total {
        /// Whose.
        owner: Owner,
        /// Which figure.
        figure: Figure,
        /// The running total.
        total: u64,
        /// What the file would add to it.
        more: u64,
    },
}

impl Refused {
    /// The number of the answer.
    pub fn number(&self) -> Number {
        match self {
            Refused::Book(_) => Number::BOOK,
            Refused::Duplicate { .. } => Number::DUPLICATE,
            Refused::Full(_) => Number::FULL,
            Refused::Range { .. } => Number::RANGE,
            Refused::NoEntry { .. } | Refused::NoOwner(_) => Number::NOENTRY,
            Refused::File(refusal) => refusal.number(),
        }
    }

    /// The line of the scope document: the number, and the record, field and offset, which are 0 unless the file itself was refused.
    pub fn line(&self) -> String {
        match self {
            Refused::File(refusal) => refusal.line(),
            _ => format!("refused {} record 0 field 0 offset 0", self.number().0),
        }
    }

    /// What was found in the table, a line each.
    fn lines(&self) -> Vec<String> {
        match self {
            Refused::Book(wrong) => wrong.iter().flat_map(Wrong::lines).collect(),
            Refused::Duplicate { owner, file_number, entries, first } => {
                let entries = match first {
                    Some(first) => format!("entries with it: {entries}, the first of them entry {first}"),
                    None => "no entry has it any more, and it stays taken".to_string(),
                };
                vec![format!("file number {file_number} of {owner}"), entries]
            }
            Refused::Full(want) => want.iter().flat_map(Want::lines).collect(),
            Refused::Range { owner, net, then } => {
                vec![position(*owner, *net), format!("it would be: {then}")]
            }
            Refused::NoEntry { owner, entry_number, last } => {
                let gone = (1..=*last).contains(entry_number).then(|| "this one was withdrawn".to_string());
                let words =
                    [format!("entry number {entry_number} of {owner}"), format!("last entry number given: {last}")];
                words.into_iter().chain(gone).collect()
            }
            Refused::NoOwner(owner) => vec![owner.to_string(), "a day book has owners 1 and 2".to_string()],
            Refused::File(_) => Vec::new(),
        }
    }
}

impl Wrong {
    fn lines(&self) -> Vec<String> {
        match self {
            Wrong::Rows { claimed, capacity } => {
                vec![format!("rows claimed: {claimed}"), format!("rows there: {capacity}")]
            }
            Wrong::Total { owner, figure, total, rows } => {
                vec![running(*owner, *figure, *total), format!("its rows come to: {rows}")]
            }
            Wrong::Net { owner, net, rows } => {
                let past = if i64::try_from(*rows).is_ok() { "" } else { ", which no net position holds" };
                vec![position(*owner, *net), format!("its rows come to: {rows}{past}")]
            }
            Wrong::Places { claimed, capacity } => {
                vec![format!("places claimed for file numbers: {claimed}"), format!("places there: {capacity}")]
            }
        }
    }
}

impl Want {
    fn lines(&self) -> Vec<String> {
        let past = |more: u64| format!("with {more} more it would pass 64 bits");
        match self {
            Want::Rows { letters, free } => vec![format!("cash letters: {letters}"), format!("free rows: {free}")],
            Want::Places { capacity } => {
                vec![format!("places for file numbers: {capacity}, none of them free")]
            }
            Want::EntryNumbers { owner, letters, last } => {
                vec![format!("last entry number given to {owner}: {last}"), past(*letters)]
            }
            Want::Total { owner, figure, total, more } => vec![running(*owner, *figure, *total), past(*more)],
        }
    }
}

fn running(owner: Owner, figure: Figure, total: u64) -> String {
    format!("running total of {} of {owner}: {total}", figure.name())
}

fn position(owner: Owner, net: i64) -> String {
    format!("net position of {owner} in cents: {net}")
}

impl From<Refusal> for Refused {
    fn from(refusal: Refusal) -> Refused {
        Refused::File(refusal)
    }
}

impl Display for Refused {
    fn fmt(&self, f: &mut Formatter<'_>) -> std::fmt::Result {
        if let Refused::File(refusal) = self {
            return refusal.fmt(f);
        }
        write!(f, "{}: {}", self.number().name(), self.number().meaning())?;
        let between = if f.alternate() { "\n" } else { "; " };
        self.lines().iter().try_for_each(|line| write!(f, "{between}{line}"))
    }
}

impl std::error::Error for Refused {}

#[cfg(test)]
mod tests {
    use super::*;

    #[test]
    fn words_of_each() {
        let total = Wrong::Total { owner: Owner::TWO, figure: Figure::DebitCents, total: 350, rows: 1 << 64 };
        let most = Want::EntryNumbers { owner: Owner::ONE, letters: 2, last: u64::MAX - 1 };
        let cents = Want::Total { owner: Owner::TWO, figure: Figure::CreditCents, total: u64::MAX, more: 7 };
        for (refused, words) in [
            (Refused::Book(None), "BOOK: the day book is not sound"),
            (
                Refused::Book(Some(Wrong::Rows { claimed: 12, capacity: 10 })),
                "BOOK: the day book is not sound; rows claimed: 12; rows there: 10",
            ),
            (
                Refused::Book(Some(total)),
                "BOOK: the day book is not sound; running total of debit cents of owner 2: 350; its rows come to: 18446744073709551616",
            ),
            (
                Refused::Duplicate { owner: Owner::ONE, file_number: 7, entries: 2, first: Some(3) },
                "DUPLICATE: the file number has been entered already; file number 7 of owner 1; entries with it: 2, the first of them entry 3",
            ),
            (
                Refused::Duplicate { owner: Owner::TWO, file_number: 7, entries: 0, first: None },
                "DUPLICATE: the file number has been entered already; file number 7 of owner 2; no entry has it any more, and it stays taken",
            ),
            (Refused::Full(None), "FULL: the day book has no room for the file"),
            (
                Refused::Full(Some(Want::Places { capacity: 3 })),
                "FULL: the day book has no room for the file; places for file numbers: 3, none of them free",
            ),
            (
                Refused::Book(Some(Wrong::Places { claimed: 4, capacity: 3 })),
                "BOOK: the day book is not sound; places claimed for file numbers: 4; places there: 3",
            ),
            (
                Refused::Full(Some(most)),
                "FULL: the day book has no room for the file; last entry number given to owner 1: 18446744073709551614; with 2 more it would pass 64 bits",
            ),
            (
                Refused::Full(Some(cents)),
                "FULL: the day book has no room for the file; running total of credit cents of owner 2: 18446744073709551615; with 7 more it would pass 64 bits",
            ),
            (
                Refused::Book(Some(Wrong::Net { owner: Owner::ONE, net: -5, rows: 350 })),
                "BOOK: the day book is not sound; net position of owner 1 in cents: -5; its rows come to: 350",
            ),
            (
                Refused::Book(Some(Wrong::Net { owner: Owner::TWO, net: -1, rows: 1 << 63 })),
                "BOOK: the day book is not sound; net position of owner 2 in cents: -1; its rows come to: 9223372036854775808, \
                 which no net position holds",
            ),
            (
                Refused::Range { owner: Owner::TWO, net: -999_999_999_999_999_999, then: -1_000_000_000_000_000_001 },
                "RANGE: the net position would lie beyond 1000000000000000000 cents either side; \
                 net position of owner 2 in cents: -999999999999999999; it would be: -1000000000000000001",
            ),
            (
                Refused::NoEntry { owner: Owner::TWO, entry_number: 9, last: 4 },
                "NOENTRY: the day book has no such entry; entry number 9 of owner 2; last entry number given: 4",
            ),
            (
                Refused::NoEntry { owner: Owner::ONE, entry_number: 4, last: 4 },
                "NOENTRY: the day book has no such entry; entry number 4 of owner 1; last entry number given: 4; this one was withdrawn",
            ),
            (
                Refused::NoEntry { owner: Owner::ONE, entry_number: 0, last: 4 },
                "NOENTRY: the day book has no such entry; entry number 0 of owner 1; last entry number given: 4",
            ),
            (
                Refused::NoOwner(Owner(3)),
                "NOENTRY: the day book has no such entry; owner 3; a day book has owners 1 and 2",
            ),
        ] {
            assert_eq!(refused.to_string(), words);
            assert_eq!(format!("{refused:#}"), words.replace("; ", "\n"));
            assert_eq!(refused.line(), format!("refused {} record 0 field 0 offset 0", refused.number().0));
        }
    }
}
