//! Entries that are withdrawn from a day book, gaps that are closed, and the list of the file numbers taken (request 10), worked out by hand.

mod day_book;

use day_book::*;
use x9180::book::{Owner, Refused, Want, Wrong};
use x9180::{Book, Number};

const CHECKS: &str = "peer/samples/sound-2-checks.x9";

/// What the letter of two checks keeps: 350 cents, no view.
const CHECKS_LETTER: [u64; 6] = [1, 2, 0, 0, 350, 0];

/// A row of the table.
fn row(owner: u64, number: u64, file_number: u64, [a, b, c, d, e, f]: [u64; 6]) -> [u64; 9] {
    [owner, number, file_number, a, b, c, d, e, f]
}

/// Five rows and six places: two letters of owner 1, two of owner 2, one of owner 1.
fn five() -> Book {
    let mut book = Book::with_rows_and_places(5, 6).unwrap();
    book.enter(&sample(PICTURED), 7, Owner::ONE).unwrap();
    book.enter(&sample(CREDITED), 7, Owner::TWO).unwrap();
    book.enter(&sample(CHECKS), 8, Owner::ONE).unwrap();
    book
}

/// What stands in the table and in the list after each step, number by number.
#[test]
fn withdrawn_closed_up_and_used_again() {
    let mut book = five();
    let taken = [3, 1, 7, 2, 7, 1, 8, 0, 0, 0, 0, 0, 0];
    assert_eq!(book.taken(), taken);
    // Entry 1 of owner 1 goes, 16557 of 47907 debit cents, and its row is zeros. The last number stays 3, the rows claimed 5.
    let withdrawn = book.withdraw(Owner::ONE, 1).unwrap();
    assert_eq!((withdrawn.owner, withdrawn.number, withdrawn.file_number), (Owner::ONE, 1, 7));
    assert_eq!(numbers(withdrawn.figures), PICTURED_LETTERS[0]);
    let head_of_one = [3, 2, 3, 0, 2, 31_350, 0, below_zero(31_350)];
    let head_of_two = [2, 3, 5, 6, 14, 47_807, 164_364, 116_557];
    let rows = [
        [0; 9],
        row(1, 2, 7, PICTURED_LETTERS[1]),
        row(2, 1, 7, CREDITED_LETTERS[0]),
        row(2, 2, 7, CREDITED_LETTERS[1]),
        row(1, 3, 8, CHECKS_LETTER),
    ];
    assert_eq!(book.numbers(), [[5].as_slice(), &head_of_one, &head_of_two, &rows.concat()].concat());
    // Entry 1 of owner 2 goes, 16807 debit and 33364 credit cents.
    assert_eq!(numbers(book.withdraw(Owner::TWO, 1).unwrap().figures), CREDITED_LETTERS[0]);
    let head_of_two = [2, 1, 1, 2, 4, 31_000, 131_000, 100_000];
    let rows = [[0; 9], rows[1], [0; 9], rows[3], rows[4]];
    assert_eq!(book.numbers(), [[5].as_slice(), &head_of_one, &head_of_two, &rows.concat()].concat());
    assert_eq!((book.free_rows(), book.free_places()), (Ok(2), Ok(3)));

    // Closed up: three rows in their order, and two of zeros.
    let mut tidy = book.clone();
    assert_eq!((tidy.tidy(), tidy.free_rows(), tidy.free_places()), (Ok(2), Ok(2), Ok(3)));
    let closed = [rows[1], rows[3], rows[4], [0; 9], [0; 9]];
    assert_eq!(tidy.numbers(), [[3].as_slice(), &head_of_one, &head_of_two, &closed.concat()].concat());
    assert_eq!(tidy.tidy(), Ok(0));
    for owner in Owner::BOTH {
        assert_eq!(entries(&tidy, owner), entries(&book, owner));
        assert_eq!(tidy.totals(owner), book.totals(owner));
    }
    assert_eq!((book.taken(), tidy.taken()), (&taken[..], &taken[..]));

    // Two letters more: into the gaps, or behind, numbered on. Neither book is full.
    for (book, places) in [(&mut book, [0, 2]), (&mut tidy, [3, 4])] {
        assert_eq!(book.enter(&sample(PICTURED), 9, Owner::TWO).unwrap().numbers(), 3..=4);
        let [first, second] = places.map(|place| book.numbers()[17 + 9 * place..][..9].to_vec());
        assert_eq!(first, row(2, 3, 9, PICTURED_LETTERS[0]));
        assert_eq!(second, row(2, 4, 9, PICTURED_LETTERS[1]));
        assert_eq!((book.numbers()[0], book.free_rows(), book.free_places()), (5, Ok(0), Ok(2)));
        assert_eq!(book.taken(), [4, 1, 7, 2, 7, 1, 8, 2, 9, 0, 0, 0, 0]);
    }
}

/// A withdrawn entry is NOENTRY, its number is not given again, and its file number stays taken, also when none of its entries is left.
#[test]
fn what_does_not_come_back() {
    for tidy in [false, true] {
        let mut book = five();
        let first = Refused::Duplicate { owner: Owner::ONE, file_number: 7, entries: 1, first: Some(2) };
        let gone = Refused::Duplicate { owner: Owner::ONE, file_number: 7, entries: 0, first: None };
        for (number, duplicate) in [(1, first), (2, gone)] {
            book.withdraw(Owner::ONE, number).unwrap();
            if tidy {
                assert_eq!(book.tidy(), Ok(1));
            }
            let none = Refused::NoEntry { owner: Owner::ONE, entry_number: number, last: 3 };
            assert_eq!(book.find(Owner::ONE, number), Err(none.clone()));
            let before = book.clone().into_memory();
            assert_eq!(book.withdraw(Owner::ONE, number), Err(none));
            assert_eq!(book.enter(&sample(PICTURED), 7, Owner::ONE), Err(duplicate));
            assert_eq!(book.into_memory(), before);
            book = Book::over(before.0, before.1);
        }
        // The last entry of all goes too, and numbers go on from it.
        book.withdraw(Owner::ONE, 3).unwrap();
        if tidy {
            assert_eq!(book.tidy(), Ok(1));
        }
        let totals = book.totals(Owner::ONE).unwrap();
        assert_eq!((totals.entries, numbers(totals.figures), totals.net), (0, [0; 6], 0));
        assert_eq!(book.enter(&sample(CHECKS), 9, Owner::ONE).unwrap().numbers(), 4..=4);
        assert_eq!(entries(&book, Owner::ONE), [line(4, 9, CHECKS_LETTER)]);
        assert_eq!(entries(&book, Owner::TWO), entries(&five(), Owner::TWO));
    }
}

/// The lowest gaps come before the rows behind those claimed, and the letters of one file may go into both.
#[test]
fn gaps_before_other_rows() {
    let mut book = Book::with_rows(6).unwrap();
    for number in 1..=4 {
        book.enter(&sample(CHECKS), number, Owner::ONE).unwrap();
    }
    let mut enter = |gaps: &[u64], number: u64| {
        gaps.iter().for_each(|entry| drop(book.withdraw(Owner::ONE, *entry).unwrap()));
        book.enter(&sample(PICTURED), number, Owner::TWO).unwrap();
        let rows = book.numbers()[17..].chunks(9).map(|row| (row[0], row[1]));
        (book.numbers()[0], rows.collect::<Vec<_>>())
    };
    assert_eq!(enter(&[2], 5), (5, vec![(1, 1), (2, 1), (1, 3), (1, 4), (2, 2), (0, 0)]));
    assert_eq!(enter(&[4, 1, 3], 6), (5, vec![(2, 3), (2, 1), (2, 4), (0, 0), (2, 2), (0, 0)]));
}

/// Only an owner's own entry, and one that is there.
#[test]
fn withdrawals_of_no_entry() {
    let mut book = five();
    let before = book.clone().into_memory();
    for (owner, entry_number, last) in
        [(Owner::ONE, 0, 3), (Owner::ONE, 4, 3), (Owner::TWO, 3, 2), (Owner::TWO, u64::MAX, 2)]
    {
        assert_eq!(book.withdraw(owner, entry_number), Err(Refused::NoEntry { owner, entry_number, last }));
    }
    assert_eq!(book.withdraw(Owner(0), 1), Err(Refused::NoOwner(Owner(0))));
    assert_eq!(book.into_memory(), before);
}

/// Of two rows with one number, which no history comes to, the first goes.
#[test]
fn the_first_row_with_a_number_is_withdrawn() {
    let (mut table, taken) = five().into_memory();
    table[17 + 9 * 4 + 1] = 2;
    let mut book = Book::over(table, taken);
    assert_eq!(numbers(book.withdraw(Owner::ONE, 2).unwrap().figures), PICTURED_LETTERS[1]);
    assert_eq!(numbers(book.withdraw(Owner::ONE, 2).unwrap().figures), CHECKS_LETTER);
    assert_eq!(entries(&book, Owner::ONE), [line(1, 7, PICTURED_LETTERS[0])]);
}

/// RANGE where the net without the entry would lie beyond the bound, and the bound itself, which is allowed. It comes after NOENTRY.
#[test]
fn net_positions_out_of_bounds() {
    // The credit of one row and the debit of another, in the head and in the rows.
    let with = |owner: Owner, debit: u64, credit: u64| {
        let mut table = vec![0; Book::numbers_for(2)];
        let block = if owner == Owner::ONE { 1 } else { 9 };
        (table[0], table[block]) = (2, 2);
        (table[block + 5], table[block + 6], table[block + 7]) = (debit, credit, credit.wrapping_sub(debit));
        table[17..26].copy_from_slice(&row(owner.0, 1, 5, [0, 0, 0, 0, debit, 0]));
        table[26..35].copy_from_slice(&row(owner.0, 2, 6, [0, 0, 0, 0, 0, credit]));
        Book::over(table, vec![2, owner.0, 5, owner.0, 6])
    };
    for owner in Owner::BOTH {
        // Without the debit the credit is left, and the other way round.
        for (entry, debit, credit, then) in [
            (1, 7, BOUND + 1, i128::from(BOUND) + 1),
            (1, BOUND, 2 * BOUND, 2 * i128::from(BOUND)),
            (2, BOUND + 1, 7, -i128::from(BOUND) - 1),
            // Out of bounds before, and still.
            (1, 1, i64::MAX as u64, i128::from(i64::MAX)),
        ] {
            let mut book = with(owner, debit, credit);
            let before = book.clone().into_memory();
            let net = credit.wrapping_sub(debit) as i64;
            assert_eq!(book.withdraw(owner, entry), Err(Refused::Range { owner, net, then }));
            let none = Refused::NoEntry { owner, entry_number: 3, last: 2 };
            assert_eq!(book.withdraw(owner, 3), Err(none));
            assert_eq!(book.into_memory(), before);
        }
        for (entry, debit, credit, net) in [
            (1, 7, BOUND, BOUND as i64),
            (2, BOUND, 7, -(BOUND as i64)),
            // Out of bounds before, and no longer.
            (2, 7, BOUND + 8, -7),
            (1, BOUND + 8, 7, 7),
        ] {
            let mut book = with(owner, debit, credit);
            assert!(book.withdraw(owner, entry).is_ok());
            assert_eq!(book.totals(owner).unwrap().net, net);
        }
    }
}

/// FULL for want of a place, after the rows, and a freed row is used before it is given for want of rows.
#[test]
fn full_for_want_of_places_or_rows() {
    let (checks, pictured) = (sample(CHECKS), sample(PICTURED));
    let mut book = Book::with_rows_and_places(2, 3).unwrap();
    for (number, owner) in [(1, Owner::ONE), (2, Owner::TWO)] {
        book.enter(&checks, number, owner).unwrap();
    }
    let rows = |letters| Err(Refused::Full(Some(Want::Rows { letters, free: 0 })));
    assert_eq!(book.enter(&checks, 3, Owner::ONE), rows(1));
    book.withdraw(Owner::TWO, 1).unwrap();
    let one_free = Err(Refused::Full(Some(Want::Rows { letters: 2, free: 1 })));
    assert_eq!(book.enter(&pictured, 3, Owner::ONE), one_free);
    assert_eq!(book.enter(&checks, 3, Owner::ONE).unwrap().numbers(), 2..=2);
    // Three file numbers have been entered, and one row is free again.
    book.withdraw(Owner::ONE, 1).unwrap();
    let before = book.clone().into_memory();
    assert_eq!(book.enter(&checks, 4, Owner::ONE), Err(Refused::Full(Some(Want::Places { capacity: 3 }))));
    assert_eq!(book.enter(&pictured, 4, Owner::ONE), one_free);
    assert_eq!(book.enter(&checks, 1, Owner::ONE).unwrap_err().number(), Number::DUPLICATE);
    assert_eq!(book.clone().into_memory(), before);
    book.grow_to(0, 4).unwrap();
    assert_eq!(book.enter(&checks, 4, Owner::ONE).unwrap().numbers(), 3..=3);
    // No list at all.
    let mut without = Book::over(vec![0; Book::numbers_for(2)], vec![]);
    assert_eq!(without.enter(&checks, 4, Owner::ONE), Err(Refused::Full(Some(Want::Places { capacity: 0 }))));
}

/// A list that claims more places than it has is BOOK in the calls that are lent it, before all else; behind what is wrong with the table in the words.
#[test]
fn lists_that_are_none() {
    let (table, taken) = five().into_memory();
    for (length, claimed, capacity) in [(13, 7, 6), (13, u64::MAX, 6), (7, 4, 3), (6, 3, 2), (2, 1, 0), (1, 1, 0)] {
        let mut list = taken[..length].to_vec();
        list[0] = claimed;
        let mut book = Book::over(table.clone(), list.clone());
        let wrong = || Refused::Book(Some(Wrong::Places { claimed, capacity }));
        for owner in [Owner::ONE, Owner::TWO, Owner(3)] {
            assert_eq!(book.enter(b"", 7, owner), Err(wrong()));
            assert_eq!(book.withdraw(owner, 9), Err(wrong()));
        }
        assert_eq!((book.tidy(), book.free_places(), book.check()), (Err(wrong()), Err(wrong()), Err(wrong())));
        // These are not lent the list.
        assert_eq!((book.free_rows(), book.find(Owner::ONE, 1).is_ok()), (Ok(0), true));
        assert_eq!(entries(&book, Owner::ONE), entries(&five(), Owner::ONE));
        assert_eq!(book.into_memory(), (table.clone(), list.clone()));
        let mut both = table.clone();
        both[0] = 6;
        let rows = Refused::Book(Some(Wrong::Rows { claimed: 6, capacity: 5 }));
        assert_eq!(Book::over(both, list).tidy(), Err(rows));
    }
    // As many as there are is no fault.
    let list = [[6].as_slice(), &taken[1..]].concat();
    assert_eq!(Book::over(table, list).free_places(), Ok(0));
}

/// The list alone says what is taken: places of neither owner take nothing, and the rows are not asked.
#[test]
fn what_the_list_alone_says() {
    let checks = sample(CHECKS);
    let mut book = Book::over(vec![0; Book::numbers_for(3)], vec![4, 0, 1, 3, 1, u64::MAX, 1, 2, 1, 0, 0]);
    assert_eq!(book.free_places(), Ok(1));
    let taken = Refused::Duplicate { owner: Owner::TWO, file_number: 1, entries: 0, first: None };
    assert_eq!(book.enter(&checks, 1, Owner::TWO), Err(taken));
    assert_eq!(book.enter(&checks, 1, Owner::ONE).unwrap().numbers(), 1..=1);
    assert_eq!(book.taken(), [5, 0, 1, 3, 1, u64::MAX, 1, 2, 1, 1, 1]);
    // A book whose list was lost takes its file numbers again.
    let (table, _) = five().into_memory();
    let mut lost = Book::over(table, vec![0; 5]);
    lost.withdraw(Owner::ONE, 3).unwrap();
    assert_eq!(lost.enter(&checks, 7, Owner::ONE).unwrap().numbers(), 4..=4);
}
