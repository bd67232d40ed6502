//! The cause of a refusal by a day book. The proved library says that the table is no book, or that the file has no room in it; this module looks at the
//! table, and at the list of file numbers taken, to say why. It decides nothing.

use crate::book_refusal::{Refused, Want, Wrong};
use crate::book_table::Table;
use crate::figures::{Figure, Figures};
use crate::owner::Owner;
use crate::taken::List;

/// Of a table that is no book, or a list that is none.
pub(crate) fn no_book_or_list(table: Table<'_>, list: List<'_>) -> Refused {
    match no_book(table) {
        Refused::Book(None) => no_list(list),
        refused => refused,
    }
}

/// Of a list that is none.
pub(crate) fn no_list(list: List<'_>) -> Refused {
    let (claimed, capacity) = (list.claimed(), list.capacity());
    Refused::Book((claimed > capacity).then_some(Wrong::Places { claimed, capacity }))
}

/// Of a table that is no book.
pub(crate) fn no_book(table: Table<'_>) -> Refused {
    let (claimed, capacity) = (table.claimed(), table.capacity());
    if claimed > capacity {
        return Refused::Book(Some(Wrong::Rows { claimed, capacity }));
    }
    let total = Owner::BOTH.into_iter().find_map(|owner| wrong_total(table, owner));
    Refused::Book(total.or_else(|| Owner::BOTH.into_iter().find_map(|owner| wrong_net(table, owner))))
}

/// The first running total of an owner that is not the sum of its rows.
fn wrong_total(table: Table<'_>, owner: Owner) -> Option<Wrong> {
    let wrong = |figure: Figure| {
        let rows: u128 = table.rows_of(owner).map(|row| u128::from(row.figures.get(figure))).sum();
        let total = table.totals(owner).get(figure);
        (rows != u128::from(total)).then_some(Wrong::Total { owner, figure, total, rows })
    };
    Figure::ALL.into_iter().find_map(wrong)
}

/// The net position of an owner where it is not what its rows come to.
fn wrong_net(table: Table<'_>, owner: Owner) -> Option<Wrong> {
    let (net, rows) = (table.net(owner), table.rows_of(owner).map(|row| row.figures.net()).sum());
    (rows != i128::from(net)).then_some(Wrong::Net { owner, net, rows })
}

/// Of a call that would bring so many cents more, or fewer, to the net position.
pub(crate) fn range(table: Table<'_>, owner: Owner, more: i128) -> Refused {
    let net = table.net(owner);
    Refused::Range { owner, net, then: i128::from(net) + more }
}

/// Of a call that found nothing: there are no such owners, or the owner has no such entry.
pub(crate) fn no_entry(table: Table<'_>, owner: Owner, entry_number: u64) -> Refused {
    match Owner::BOTH.contains(&owner) {
        true => Refused::NoEntry { owner, entry_number, last: table.last(owner) },
        false => Refused::NoOwner(owner),
    }
}

/// Of a file number that the owner has entered, and the entries that have it now.
pub(crate) fn duplicate(table: Table<'_>, owner: Owner, file_number: u64) -> Refused {
    let mut same = table.rows_of(owner).filter(|row| row.file_number == file_number).map(|row| row.entry_number);
    let first = same.next();
    Refused::Duplicate { owner, file_number, entries: u64::from(first.is_some()) + same.count() as u64, first }
}

/// Of a file with so many cash letters that come to these figures.
pub(crate) fn full(table: Table<'_>, list: List<'_>, owner: Owner, letters: u64, figures: Figures) -> Refused {
    let free = table.free();
    if letters > free {
        return Refused::Full(Some(Want::Rows { letters, free }));
    }
    if list.claimed() >= list.capacity() {
        return Refused::Full(Some(Want::Places { capacity: list.capacity() }));
    }
    let last = table.last(owner);
    if last.checked_add(letters).is_none() {
        return Refused::Full(Some(Want::EntryNumbers { owner, letters, last }));
    }
    let wanted = |figure: Figure| {
        let (total, more) = (table.totals(owner).get(figure), figures.get(figure));
        total.checked_add(more).is_none().then_some(Want::Total { owner, figure, total, more })
    };
    Refused::Full(Figure::ALL.into_iter().find_map(wanted))
}
