//! The day book (requests 6, 8 and 9), worked out by hand. `book_withdrawal.rs` has what is withdrawn, `book_history.rs` whole histories.

mod day_book;

use day_book::*;
use peer_reader::plain::*;
use peer_reader::random::Random;
use x9180::book::{Figure, Owner, Refused, Want, Wrong};
use x9180::{read, Book, Number};

#[test]
fn two_files_of_one_owner() {
    for owner in Owner::BOTH {
        let mut book = Book::with_rows(5).unwrap();
        assert_eq!((book.capacity(), book.free_rows(), entries(&book, owner)), (5, Ok(5), vec![]));
        let (pictured, credited) = (sample(PICTURED), sample(CREDITED));
        let entered = book.enter(&pictured, 70, owner).unwrap();
        assert_eq!((entered.numbers(), entered.reading()), (1..=2, &read(&pictured).unwrap()));
        let entered = book.enter(&credited, 0, owner).unwrap();
        assert_eq!((entered.numbers(), entered.reading()), (3..=4, &read(&credited).unwrap()));
        let expected = [
            line(1, 70, PICTURED_LETTERS[0]),
            line(2, 70, PICTURED_LETTERS[1]),
            line(3, 0, CREDITED_LETTERS[0]),
            line(4, 0, CREDITED_LETTERS[1]),
        ];
        assert_eq!(entries(&book, owner), expected);
        for (number, expected) in (1..).zip(expected) {
            let entry = book.find(owner, number).unwrap();
            assert_eq!(entry.owner, owner);
            assert_eq!(line(entry.number, entry.file_number, numbers(entry.figures)), expected);
        }
        // 47557 and 47807 debit cents, 0 and 164364 credit cents, by the lines of the samples.
        let totals = book.totals(owner).unwrap();
        assert_eq!((totals.entries, numbers(totals.figures)), (4, [6, 9, 6, 22, 95_364, 164_364]));
        assert_eq!(totals.net, 69_000);
        assert_eq!((book.capacity(), book.free_rows()), (5, Ok(1)));
        assert_eq!((book.places(), book.free_places()), (5, Ok(3)));
        // A letter of its own in the fifth row.
        assert_eq!(book.enter(&sample("peer/samples/sound-2-checks.x9"), 1, owner).unwrap().numbers(), 5..=5);
        assert_eq!((book.free_rows(), book.free_places()), (Ok(0), Ok(2)));
    }
}

/// Entry numbers, file numbers and totals are each owner's own; the rows are for both.
#[test]
fn two_owners() {
    let (pictured, credited) = (sample(PICTURED), sample(CREDITED));
    let (one, two) = (Owner::ONE, Owner::TWO);
    let mut book = Book::with_rows(5).unwrap();
    assert_eq!(book.enter(&pictured, 7, one).unwrap().numbers(), 1..=2);
    // The other owner has entered no file of this number, and has no entry.
    let none = |owner, entry_number, last| Err(Refused::NoEntry { owner, entry_number, last });
    assert_eq!(book.find(two, 1), none(two, 1, 0));
    assert_eq!(book.enter(&credited, 7, two).unwrap().numbers(), 1..=2);
    assert_eq!(book.enter(&sample("peer/samples/sound-2-checks.x9"), 8, one).unwrap().numbers(), 3..=3);
    assert_eq!(book.find(two, 3), none(two, 3, 2));
    assert_eq!(book.find(one, 4), none(one, 4, 3));
    // Of the letter of two checks: 350 cents, no view.
    let checks = [1, 2, 0, 0, 350, 0];
    let of_one = [line(1, 7, PICTURED_LETTERS[0]), line(2, 7, PICTURED_LETTERS[1]), line(3, 8, checks)];
    assert_eq!(entries(&book, one), of_one);
    assert_eq!(entries(&book, two), [line(1, 7, CREDITED_LETTERS[0]), line(2, 7, CREDITED_LETTERS[1])]);
    let totals = |owner| book.totals(owner).map(|totals| (totals.entries, numbers(totals.figures), totals.net));
    assert_eq!(totals(one), Ok((3, [4, 6, 0, 8, 47_907, 0], -47_907)));
    assert_eq!(totals(two), Ok((2, [3, 5, 6, 14, 47_807, 164_364], 116_557)));
    assert_eq!(book.free_rows(), Ok(0));
    for (owner, entries) in [(one, 2), (two, 2)] {
        let duplicate = Refused::Duplicate { owner, file_number: 7, entries, first: Some(1) };
        assert_eq!(book.enter(&pictured, 7, owner), Err(duplicate));
        assert_eq!(book.enter(&pictured, 9, owner), Err(Refused::Full(Some(Want::Rows { letters: 2, free: 0 }))));
    }
    // The table, as include/x9180.h lays it out.
    let head = [5, 3, 4, 6, 0, 8, 47_907, 0, below_zero(47_907), 2, 3, 5, 6, 14, 47_807, 164_364, 116_557];
    let [first, second] = PICTURED_LETTERS.map(|letter| letter.to_vec());
    let [third, fourth] = CREDITED_LETTERS.map(|letter| letter.to_vec());
    let rows = [
        [vec![1, 1, 7], first].concat(),
        [vec![1, 2, 7], second].concat(),
        [vec![2, 1, 7], third].concat(),
        [vec![2, 2, 7], fourth].concat(),
        [vec![1, 3, 8], checks.to_vec()].concat(),
    ];
    assert_eq!(book.numbers(), [head.to_vec(), rows.concat()].concat());
    assert_eq!(book.taken(), [3, 1, 7, 2, 7, 1, 8, 0, 0, 0, 0]);
}

/// An owner other than the two is NOENTRY in every call, straight after BOOK.
#[test]
fn other_owners() {
    let mut book = Book::with_rows(3).unwrap();
    book.enter(&sample(PICTURED), 7, Owner::ONE).unwrap();
    let before = book.numbers().to_vec();
    for owner in [0, 3, u64::MAX].map(Owner) {
        let refused = Refused::NoOwner(owner);
        assert_eq!(
            (refused.number(), refused.line().as_str()),
            (Number::NOENTRY, "refused 15 record 0 field 0 offset 0")
        );
        // Before all that is wrong with the file.
        for file in [sample(PICTURED), sample("peer/samples/damaged-02-check-digit.x9"), vec![]] {
            assert_eq!(book.enter(&file, 7, owner), Err(refused.clone()));
        }
        assert_eq!(book.withdraw(owner, 1), Err(refused.clone()));
        assert_eq!(book.find(owner, 1), Err(refused.clone()));
        assert_eq!(book.totals(owner), Err(refused.clone()));
        assert_eq!(book.entries(owner).err(), Some(refused));
    }
    assert_eq!(book.numbers(), before);
    let (mut table, taken) = book.into_memory();
    table[0] = 4;
    let mut wrong = Book::over(table, taken);
    let rows = Refused::Book(Some(Wrong::Rows { claimed: 4, capacity: 3 }));
    assert_eq!(wrong.enter(&[], 7, Owner(3)), Err(rows.clone()));
    assert_eq!(wrong.withdraw(Owner(3), 1), Err(rows.clone()));
    assert_eq!(wrong.find(Owner(3), 1), Err(rows.clone()));
    assert_eq!(wrong.totals(Owner(3)), Err(rows));
}

/// A book from before there were owners is given to one of them whole, and goes on as that owner's.
#[test]
fn books_without_owners() {
    // As request 6 filled it, with the two letters of a sample under the number 9, and room for a third.
    let head = [2, 2, 3, 4, 0, 8, 47_557, 0, 0, 0, 0, 0, 0, 0, 0, 0, 0];
    let rows = [[1, 1, 9, 2, 3, 0, 6, 16_557, 0], [1, 2, 9, 1, 1, 0, 2, 31_000, 0], [0; 9]];
    let old = [head.as_slice(), &rows.concat()].concat();
    for (owner, other) in [(Owner::ONE, Owner::TWO), (Owner::TWO, Owner::ONE)] {
        let mut grown = Book::with_rows(3).unwrap();
        grown.enter(&sample(PICTURED), 9, owner).unwrap();
        let mut given = Book::given_to(owner, old.clone());
        assert_eq!(given.clone().into_memory(), grown.clone().into_memory());
        // A book of request 9 is that without a list, and one of request 8 that with anything in the places of the nets.
        let mut table = grown.numbers().to_vec();
        assert_eq!(Book::with_list(table.clone()).into_memory(), grown.clone().into_memory());
        (table[8], table[16]) = (5, u64::MAX);
        assert_eq!(Book::with_nets(table).into_memory(), grown.into_memory());
        assert_eq!(entries(&given, other), [[0; 8]; 0]);
        let checks = sample("peer/samples/sound-2-checks.x9");
        assert_eq!(given.enter(&checks, 9, owner).unwrap_err().number(), Number::DUPLICATE);
        assert_eq!(given.enter(&checks, 8, owner).unwrap().numbers(), 3..=3);
    }
}

#[test]
fn lent_and_owned_memory() {
    let file = sample(PICTURED);
    let mut owned = Book::with_rows(2).unwrap();
    owned.enter(&file, 9, Owner::ONE).unwrap();
    // Of the head, 17 numbers: rows claimed, the first owner's last entry number, running totals and net. Of each row: owner, entry number, file number,
    // figures.
    let head = [2, 2, 3, 4, 0, 8, 47_557, 0, below_zero(47_557), 0, 0, 0, 0, 0, 0, 0, 0];
    let rows = [[1, 1, 9, 2, 3, 0, 6, 16_557, 0], [1, 2, 9, 1, 1, 0, 2, 31_000, 0]];
    assert_eq!(owned.numbers(), [head.as_slice(), &rows.concat()].concat());

    assert_eq!(owned.taken(), [1, 1, 9, 0, 0]);

    // Of any lengths, and not of the same: numbers behind the last whole row or place are left alone.
    let (mut memory, mut taken) = ([0; Book::numbers_for(2) + 4], [0; Book::numbers_for_places(3) + 1]);
    let mut lent = Book::over(&mut memory[..], &mut taken[..]);
    lent.enter(&file, 9, Owner::ONE).unwrap();
    assert_eq!(lent.numbers()[..35], *owned.numbers());
    assert_eq!(lent.taken(), [1, 1, 9, 0, 0, 0, 0, 0]);
    assert_eq!((lent.capacity(), lent.places(), lent.free_places()), (2, 3, Ok(2)));
    assert_eq!(entries(&lent, Owner::ONE), entries(&owned, Owner::ONE));
    assert_eq!(memory[35..], [0; 4]);

    let looked_at = Book::over(&memory[..], &taken[..]);
    assert_eq!((looked_at.capacity(), looked_at.find(Owner::ONE, 2)), (2, owned.find(Owner::ONE, 2)));
    let mut in_arrays = Book::over(memory, taken);
    assert_eq!(in_arrays.enter(&file, 9, Owner::ONE).unwrap_err().number(), Number::DUPLICATE);
    assert_eq!(in_arrays.into_memory(), (memory, taken));
    // To withdraw and to tidy up, the list is looked at only.
    let mut half = Book::over(&mut memory[..], &taken[..]);
    assert_eq!((half.withdraw(Owner::ONE, 1).is_ok(), half.tidy()), (true, Ok(1)));
    assert!(Book::with_rows(usize::MAX).is_err());
    assert!(Book::with_rows_and_places(1, usize::MAX).is_err());
}

/// A larger book is the same book.
#[test]
fn growing() {
    let (pictured, credited) = (sample(PICTURED), sample(CREDITED));
    let mut book = Book::with_rows(3).unwrap();
    book.enter(&pictured, 1, Owner::TWO).unwrap();
    let before = book.clone();
    let refused = book.enter(&credited, 2, Owner::TWO).unwrap_err();
    assert_eq!(refused, Refused::Full(Some(Want::Rows { letters: 2, free: 1 })));
    for fewer in [0, 1, 3] {
        book.grow_to(fewer, fewer).unwrap();
        assert_eq!(book.clone().into_memory(), before.clone().into_memory());
    }
    for (rows, places) in [(usize::MAX, 4), (4, usize::MAX)] {
        assert!(book.grow_to(rows, places).is_err());
        assert_eq!(book.clone().into_memory(), before.clone().into_memory());
    }
    book.grow_to(4, 0).unwrap();
    assert_eq!((book.numbers(), book.taken()), (&[before.numbers(), &[0; 9]].concat()[..], before.taken()));
    book.grow_to(0, 5).unwrap();
    assert_eq!(book.numbers(), [before.numbers(), &[0; 9]].concat());
    assert_eq!(book.taken(), [before.taken(), &[0; 4]].concat());
    assert_eq!(book.enter(&credited, 2, Owner::TWO).unwrap().numbers(), 3..=4);
    assert_eq!(entries(&book, Owner::TWO)[..2], entries(&before, Owner::TWO));
}

/// A refusal of each sort, in the order of the request, and that it leaves the book as it was.
#[test]
fn refusals_in_their_order() {
    let (pictured, damaged) = (sample(PICTURED), sample("peer/samples/damaged-02-check-digit.x9"));
    let owner = Owner::TWO;
    let mut book = Book::with_rows(2).unwrap();
    book.enter(&pictured, 7, owner).unwrap();
    let mut refused = |file: &[u8], file_number| {
        let before = book.clone().into_memory();
        let refused = book.enter(file, file_number, owner).unwrap_err();
        assert_eq!(book.clone().into_memory(), before);
        refused
    };
    // The reader's own before DUPLICATE, DUPLICATE before FULL.
    assert_eq!(refused(&damaged, 7), Refused::File(read(&damaged).unwrap_err()));
    assert_eq!(refused(b"", 7).line(), "refused 1 record 0 field 0 offset 0");
    assert_eq!(refused(&pictured, 7), Refused::Duplicate { owner, file_number: 7, entries: 2, first: Some(1) });
    assert_eq!(refused(&pictured, 8), Refused::Full(Some(Want::Rows { letters: 2, free: 0 })));
    for entry_number in [0, 3, u64::MAX] {
        assert_eq!(book.find(owner, entry_number), Err(Refused::NoEntry { owner, entry_number, last: 2 }));
    }
    // BOOK before all of them, whoever asks.
    let (mut table, taken) = book.into_memory();
    table[14] += 1;
    let mut wrong = Book::over(table, taken);
    let total = Wrong::Total { owner, figure: Figure::DebitCents, total: 47_558, rows: 47_557 };
    for asking in Owner::BOTH {
        assert_eq!(wrong.enter(&damaged, 7, asking), Err(Refused::Book(Some(total))));
        assert_eq!(wrong.withdraw(asking, 9), Err(Refused::Book(Some(total))));
        assert_eq!(wrong.tidy(), Err(Refused::Book(Some(total))));
        assert_eq!(wrong.find(asking, 9), Err(Refused::Book(Some(total))));
        assert_eq!(wrong.totals(asking), Err(Refused::Book(Some(total))));
        assert_eq!(wrong.free_rows(), Err(Refused::Book(Some(total))));
        assert_eq!(wrong.entries(asking).err(), Some(Refused::Book(Some(total))));
    }
}

/// Every damaged sample is refused as the reader refuses it, with the same words.
#[test]
fn files_are_refused_as_they_are_read() {
    let mut book = Book::with_rows(4).unwrap();
    let mut count = 0;
    for name in ["peer/samples", "peer/samples/ebcdic"] {
        for path in std::fs::read_dir(folder(name)).unwrap().map(|entry| entry.unwrap().path()) {
            let is_damaged = path.file_name().unwrap().to_str().unwrap().starts_with("damaged");
            if is_damaged {
                let file = std::fs::read(&path).unwrap();
                let (refused, refusal) = (book.enter(&file, 1, Owner::ONE).unwrap_err(), read(&file).unwrap_err());
                assert_eq!((refused.number(), refused.line()), (refusal.number(), refusal.line()));
                assert_eq!(
                    [refused.to_string(), format!("{refused:#}")],
                    [refusal.to_string(), format!("{refusal:#}")]
                );
                assert_eq!(refused, Refused::File(refusal));
                count += 1;
            }
        }
    }
    assert!(count > 30, "{count}");
    assert_eq!(entries(&book, Owner::ONE), [[0; 8]; 0]);
}

/// What makes a table no book: more rows claimed than there are, and each running total of each owner by itself.
#[test]
fn tables_that_are_no_books() {
    let sums: Vec<u64> = (0..6).map(|figure| CREDITED_LETTERS[0][figure] + CREDITED_LETTERS[1][figure]).collect();
    // An owner, where its running totals stand, and where the other's do.
    for (owner, own, other, others) in [(Owner::ONE, 2, Owner::TWO, 10), (Owner::TWO, 10, Owner::ONE, 2)] {
        let mut sound = Book::with_rows(3).unwrap();
        sound.enter(&sample(CREDITED), 5, owner).unwrap();
        let changed = |changes: &[(usize, u64)]| {
            let mut table = sound.numbers().to_vec();
            changes.iter().for_each(|(place, number)| table[*place] = *number);
            Book::over(table, vec![]).totals(owner)
        };
        let total = |owner, figure, total, rows| Err(Refused::Book(Some(Wrong::Total { owner, figure, total, rows })));
        for claimed in [4, u64::MAX] {
            assert_eq!(changed(&[(0, claimed)]), Err(Refused::Book(Some(Wrong::Rows { claimed, capacity: 3 }))));
        }
        for (place, figure) in Figure::ALL.into_iter().enumerate() {
            // In the head, for either owner, and in the second row: 17 + 9 + 3.
            let (sum, first) = (sums[place], u128::from(CREDITED_LETTERS[0][place]));
            assert_eq!(changed(&[(own + place, sum + 1)]), total(owner, figure, sum + 1, u128::from(sum)));
            assert_eq!(changed(&[(others + place, 1)]), total(other, figure, 1, 0));
            assert_eq!(changed(&[(29 + place, u64::MAX)]), total(owner, figure, sum, first + u128::from(u64::MAX)));
        }
        // A row less is claimed than add up, or is the other's, or no one's.
        assert_eq!(changed(&[(0, 1)]), total(owner, Figure::Bundles, 3, 2));
        assert_eq!(changed(&[(26, 0)]), total(owner, Figure::Bundles, 3, 2));
        let first =
            if owner == Owner::ONE { total(owner, Figure::Bundles, 3, 2) } else { total(other, Figure::Bundles, 0, 1) };
        assert_eq!(changed(&[(26, other.0)]), first);
        // The net: 164364 - 47807. The totals come before it.
        let net = |owner, net, rows| Err(Refused::Book(Some(Wrong::Net { owner, net, rows })));
        for (number, read_as) in [(116_556, 116_556), (0, 0), (below_zero(116_557), -116_557), (1 << 63, i64::MIN)] {
            assert_eq!(changed(&[(own + 6, number)]), net(owner, read_as, 116_557));
        }
        assert_eq!(changed(&[(others + 6, u64::MAX)]), net(other, -1, 0));
        assert_eq!(changed(&[(own + 6, 0), (own, 4)]), total(owner, Figure::Bundles, 4, 3));
        // Not looked at: the rows behind those claimed.
        for place in 35..44 {
            assert_eq!(changed(&[(place, u64::MAX)]), sound.totals(owner));
        }
    }
}

/// A claimed row of neither owner is a gap, whatever stands in it: it counts for none, and is free.
#[test]
fn rows_of_no_one() {
    let mut book = Book::with_rows(3).unwrap();
    book.enter(&sample("peer/samples/sound-2-checks.x9"), 5, Owner::TWO).unwrap();
    let (mut table, taken) = book.clone().into_memory();
    table[0] = 2;
    table[26..35].copy_from_slice(&[3, 1, 5, 9, 9, 9, 9, u64::MAX, u64::MAX]);
    let mut other = Book::over(table, taken);
    for owner in Owner::BOTH {
        assert_eq!(other.totals(owner), book.totals(owner));
        assert_eq!(entries(&other, owner), entries(&book, owner));
    }
    assert_eq!(other.find(Owner::ONE, 1), Err(Refused::NoEntry { owner: Owner::ONE, entry_number: 1, last: 0 }));
    assert_eq!(other.find(Owner(3), 1), Err(Refused::NoOwner(Owner(3))));
    // Two letters go into it and the row behind it, as if it had not been there.
    assert_eq!((other.free_rows(), book.free_rows()), (Ok(2), Ok(2)));
    for book in [&mut other, &mut book] {
        assert_eq!(book.enter(&sample(PICTURED), 5, Owner::ONE).unwrap().numbers(), 1..=2);
    }
    assert_eq!(other.into_memory(), book.into_memory());
}

/// Books of few numbers, which an empty file of the system may come to.
#[test]
fn short_tables() {
    for length in 0..17 {
        for owner in Owner::BOTH {
            let mut book = Book::over(vec![0; length], vec![0; length]);
            assert_eq!((book.capacity(), book.free_rows(), entries(&book, owner)), (0, Ok(0), vec![]));
            // Behind the first number of the list, a place for each whole pair.
            let places = length.saturating_sub(1) as u64 / 2;
            assert_eq!(
                (book.places(), book.free_places(), book.check(), book.tidy()),
                (places, Ok(places), Ok(()), Ok(0))
            );
            assert_eq!(book.withdraw(owner, 1), Err(Refused::NoEntry { owner, entry_number: 1, last: 0 }));
            let refused = book.enter(&sample("peer/samples/sound-2-checks.x9"), 1, owner).unwrap_err();
            assert_eq!(refused, Refused::Full(Some(Want::Rows { letters: 1, free: 0 })));
            assert_eq!(book.into_memory(), (vec![0; length], vec![0; length]));
        }
    }
}

/// FULL where 64 bits do not hold a number, and the last one that they hold. Nothing of it touches the other owner.
#[test]
fn full_for_want_of_numbers() {
    // One letter: bundles 1, debits 2, credits 3, views 3, debit cents 40005, credit cents 112352.
    let file = sample("peer/samples/sound-11-credits.x9");
    let letter = [1, 2, 3, 3, 40_005, 112_352];
    for (owner, other) in [(Owner::ONE, Owner::TWO), (Owner::TWO, Owner::ONE)] {
        let mut last = filled(owner, u64::MAX, [0; 6]);
        let want = Want::EntryNumbers { owner, letters: 1, last: u64::MAX };
        assert_eq!(last.enter(&file, 2, owner), Err(Refused::Full(Some(want))));
        assert_eq!(last.enter(&file, 2, other).unwrap().numbers(), 1..=1);
        assert_eq!(filled(owner, u64::MAX - 1, [0; 6]).enter(&file, 2, owner).unwrap().numbers(), u64::MAX..=u64::MAX);
        for (place, figure) in Figure::ALL.into_iter().enumerate() {
            // Debit and credit cents go up together, or the net would be out of bounds.
            let mut figures = if place < 4 { [0; 6] } else { letter.map(|figure| u64::MAX - figure) };
            figures[place] = u64::MAX - letter[place];
            let mut book = filled(owner, 1, figures);
            assert_eq!(book.enter(&file, 2, owner).unwrap().numbers(), 2..=2);
            assert_eq!(book.totals(owner).unwrap().figures.get(figure), u64::MAX);
            figures[place] += 1;
            let want = Want::Total { owner, figure, total: figures[place], more: letter[place] };
            let mut book = filled(owner, 1, figures);
            let before = book.numbers().to_vec();
            assert_eq!(book.enter(&file, 2, owner), Err(Refused::Full(Some(want))));
            assert_eq!(book.numbers(), before);
            assert_eq!(book.enter(&file, 2, other).unwrap().numbers(), 1..=1);
        }
    }
}

/// RANGE where a file would carry the net beyond the bound, and the bound itself, which is allowed. It comes after DUPLICATE and before FULL.
#[test]
fn net_positions_out_of_bounds() {
    // Of the first, 112352 - 40005 = 72347 cents; of the second, -350.
    let (credits, checks) = (sample("peer/samples/sound-11-credits.x9"), sample("peer/samples/sound-2-checks.x9"));
    let cents = |debit: u64, credit: u64| [0, 0, 0, 0, debit, credit];
    let bound = BOUND as i64;
    for (owner, other) in [(Owner::ONE, Owner::TWO), (Owner::TWO, Owner::ONE)] {
        for (file, figures, net) in
            [(&credits, cents(0, BOUND - 72_347), bound), (&checks, cents(BOUND - 350, 0), -bound)]
        {
            let mut book = filled(owner, 1, figures);
            assert_eq!(book.enter(file, 2, owner).unwrap().numbers(), 2..=2);
            assert_eq!(book.totals(owner).unwrap().net, net);
            // The way back is open, and so is the other owner's.
            assert!(filled(owner, 1, figures).enter(file, 2, other).is_ok());
        }
        for (file, figures, more) in [
            (&credits, cents(0, BOUND - 72_346), 72_347),
            (&checks, cents(BOUND - 349, 0), -350),
            // Nets that are out of bounds already, by whatever way: it counts where they would be.
            (&credits, cents(0, i64::MAX as u64), 72_347),
            (&checks, cents(1 << 63, 0), -350),
            (&checks, cents(0, BOUND + 351), -350),
        ] {
            let mut book = filled(owner, 1, figures);
            let before = book.numbers().to_vec();
            let net = figures[5].wrapping_sub(figures[4]) as i64;
            let range = Refused::Range { owner, net, then: i128::from(net) + more };
            assert_eq!(book.enter(file, 2, owner), Err(range.clone()));
            assert_eq!(book.numbers(), before);
            assert_eq!(book.enter(file, 1, owner).unwrap_err().number(), Number::DUPLICATE);
            // Without a free row, and without a place.
            assert_eq!(Book::over(before[..26].to_vec(), vec![0]).enter(file, 2, owner), Err(range));
        }
        let mut back = filled(owner, 1, cents(0, BOUND + 350));
        assert!(back.enter(&checks, 2, owner).is_ok());
        assert_eq!(back.totals(owner).unwrap().net, bound);
        // What an i64 does not hold is no net.
        let past = filled(owner, 1, cents(0, 1 << 63));
        let wrong = Wrong::Net { owner, net: i64::MIN, rows: 1 << 63 };
        assert_eq!(past.totals(other), Err(Refused::Book(Some(wrong))));
    }
}

/// A look-up gives the first row of the owner with the number, whatever stands in the rows behind it, or in the other's.
#[test]
fn the_first_row_with_a_number() {
    let mut book = Book::with_rows(3).unwrap();
    book.enter(&sample("peer/samples/sound-2-checks.x9"), 7, Owner::ONE).unwrap();
    book.enter(&sample(PICTURED), 7, Owner::TWO).unwrap();
    let (mut table, taken) = book.into_memory();
    table[36] = 1; // the third row's entry number: 17 + 18 + 1
    let book = Book::over(table, taken);
    assert_eq!(numbers(book.find(Owner::TWO, 1).unwrap().figures), PICTURED_LETTERS[0]);
    let none = Refused::NoEntry { owner: Owner::TWO, entry_number: 2, last: 2 };
    assert_eq!(book.find(Owner::TWO, 2), Err(none));
    assert_eq!(entries(&book, Owner::TWO).len(), 2);
}

/// A letter of N cash letters without detail.
#[test]
fn a_file_of_many_letters() {
    let mut records = vec![file_header()];
    for _ in 0..40 {
        records.extend([letter_header('N'), letter_control(0, 0, 0, 0)]);
    }
    records.push(file_control(40, 82, 0, 0));
    let file = file(&records);
    let mut book = Book::with_rows(40).unwrap();
    assert_eq!(book.enter(&file, u64::MAX, Owner::TWO).unwrap().numbers(), 1..=40);
    let expected: Vec<Line> = (1..=40).map(|number| line(number, u64::MAX, [0; 6])).collect();
    assert_eq!(entries(&book, Owner::TWO), expected);
}

/// A call that changes a book: with a file, an owner, and an entry number or file number.
type Call = fn(&mut Book, &[u8], Owner, u64) -> Result<(), Refused>;

/// No table and no list makes a call panic, and no refused call changes one.
#[test]
fn any_numbers() {
    let mut random = Random::new(7);
    let file = sample("peer/samples/sound-2-checks.x9");
    let mut seen = std::collections::BTreeMap::new();
    for turn in 0..6_000 {
        let mut some = |length: usize| -> Vec<u64> {
            (0..length).map(|_| if random.below(4) == 0 { random.draw() } else { random.below(4) as u64 }).collect()
        };
        // Every other one is a book with anything in the rows behind, and its list.
        let (mut table, mut taken) = (some(turn % 60), some(turn % 7));
        if turn % 2 == 0 {
            table.iter_mut().take(17).for_each(|number| *number = 0);
            taken.iter_mut().take(1).for_each(|number| *number %= 3);
        }
        let (owner, entry) = (Owner(random.below(4) as u64), random.below(4) as u64);
        let book = Book::over(table, taken);
        let (found, totals) = (book.find(owner, entry), book.totals(owner));
        assert_eq!(book.entries(owner).is_ok(), totals.is_ok());
        let calls: [Call; 3] = [
            |book, _, owner, entry| book.withdraw(owner, entry).map(drop),
            |book, _, _, _| book.tidy().map(drop),
            |book, file, owner, number| book.enter(file, number, owner).map(drop),
        ];
        let mut words = vec![found.err(), totals.err(), book.free_places().err()];
        for call in calls {
            let mut changed = book.clone();
            let refused = call(&mut changed, &file, owner, entry).err();
            if refused.is_some() {
                assert_eq!(changed.into_memory(), book.clone().into_memory());
            }
            *seen.entry(refused.as_ref().map_or(0, |refused| refused.number().0)).or_insert(0) += 1;
            words.push(refused);
        }
        assert!(words.iter().flatten().all(|refused| refused.to_string().contains("; ")), "{words:?}");
    }
    for number in [0, 12, 13, 15, 20] {
        assert!(seen.get(&number).is_some_and(|count| *count > 5), "{number}: {seen:?}");
    }
}
