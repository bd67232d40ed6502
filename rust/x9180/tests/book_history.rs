//! Histories of calls on a day book (requests 6, 8, 9 and 10), files entered, entries withdrawn and gaps closed, beside plain rows, whose figures come from
//! the independent reader; and that an owner does not see what the other does.

mod day_book;

use std::collections::{BTreeMap, BTreeSet};

use day_book::*;
use peer_reader::copy::to_ebcdic;
use peer_reader::descent;
use peer_reader::random::Random;
use x9180::book::{Owner, Refused};
use x9180::{Book, Number};

/// The figures of each cash letter, added up from the rows of the independent reader. Whether a 61 is a debit stands in its third character (clause 26.2).
fn letters(file: &[u8]) -> Option<Vec<[u64; 6]>> {
    let reading = descent::read(file);
    let nine = if file.get(4) == Some(&0xF0) { 0xF9 } else { b'9' };
    let mut letters: Vec<[u64; 6]> = Vec::new();
    for [record_type, offset, _, letter, _, _, amount] in &reading.rows {
        if *record_type == 10 {
            letters.push([0; 6]);
        }
        let Some(own) = letters.last_mut().filter(|_| *letter > 0) else { continue };
        let is_credit = *record_type == 61 && file[*offset as usize + 6] != nine;
        match record_type {
            20 => own[0] += 1,
            50 => own[3] += 1,
            25 | 31 | 61 => {
                let side = usize::from(is_credit);
                own[1 + side] += 1;
                own[4 + side] += amount;
            }
            _ => {}
        }
    }
    (reading.answer.number == descent::Number::Accepted).then_some(letters)
}

/// A book as a plain list of rows, of which those withdrawn are gaps, and a list of what was taken.
#[derive(Default)]
struct Plain {
    rows: Vec<Option<(Owner, Line)>>,
    taken: Vec<(Owner, u64)>,
    last: [u64; 2],
    capacity: usize,
    places: usize,
}

impl Plain {
    /// The entries of an owner in the order of their rows.
    fn of(&self, owner: Owner) -> Vec<Line> {
        self.rows.iter().flatten().filter(|row| row.0 == owner).map(|row| row.1).collect()
    }

    fn free(&self) -> usize {
        self.capacity - self.rows.iter().flatten().count()
    }

    fn last(&mut self, owner: Owner) -> &mut u64 {
        &mut self.last[usize::from(owner == Owner::TWO)]
    }

    /// What entering a file comes to: the number of the answer.
    fn enter(&mut self, owner: Owner, letters: &[[u64; 6]], file_number: u64) -> Number {
        if self.taken.contains(&(owner, file_number)) {
            return Number::DUPLICATE;
        }
        if letters.len() > self.free() || self.taken.len() == self.places {
            return Number::FULL;
        }
        self.taken.push((owner, file_number));
        for letter in letters {
            *self.last(owner) += 1;
            let row = Some((owner, line(*self.last(owner), file_number, *letter)));
            match self.rows.iter().position(Option::is_none) {
                Some(gap) => self.rows[gap] = row,
                None => self.rows.push(row),
            }
        }
        Number::ACCEPTED
    }

    fn withdraw(&mut self, owner: Owner, number: u64) -> Number {
        let row = self.rows.iter_mut().find(|row| row.is_some_and(|(whose, line)| (whose, line[0]) == (owner, number)));
        row.map_or(Number::NOENTRY, |row| {
            *row = None;
            Number::ACCEPTED
        })
    }

    fn net(&self, owner: Owner) -> i64 {
        self.of(owner).iter().map(|entry| entry[7] as i64 - entry[6] as i64).sum()
    }

    fn sums(&self, owner: Owner) -> [u64; 6] {
        std::array::from_fn(|figure| self.of(owner).iter().map(|entry| entry[2 + figure]).sum())
    }
}

/// One call on both, drawn at random: what they answer, and which call it was.
fn call(random: &mut Random, book: &mut Book, plain: &mut Plain) -> (Number, Number, &'static str) {
    let owner = Owner(1 + random.below(2) as u64);
    match random.below(8) {
        0 => {
            let gaps = plain.rows.iter().filter(|row| row.is_none()).count() as u64;
            assert_eq!(book.tidy(), Ok(gaps));
            plain.rows.retain(Option::is_some);
            (Number::ACCEPTED, Number::ACCEPTED, if gaps > 0 { "gaps closed" } else { "no gap" })
        }
        1 | 2 => {
            let number = random.below(*plain.last(owner) as usize + 2) as u64;
            let answer = book.withdraw(owner, number).map_or_else(|refused| refused.number(), |_| Number::ACCEPTED);
            (answer, plain.withdraw(owner, number), "withdrawn")
        }
        _ => {
            let made = peer_reader::stream::file(6, random.below(2_000) as u64).bytes;
            let file = if random.below(2) == 0 { made } else { to_ebcdic(&made) };
            let file_number = random.below(16) as u64;
            let answer = book.enter(&file, file_number, owner);
            let answer = answer.map_or_else(|refused| refused.number(), |_| Number::ACCEPTED);
            let expected = match letters(&file) {
                Some(letters) => plain.enter(owner, &letters, file_number),
                None => Number(descent::read(&file).answer.number as u64),
            };
            (answer, expected, "entered")
        }
    }
}

/// All that can be seen of the book is as in the plain rows.
fn same(random: &mut Random, book: &Book, plain: &mut Plain) {
    assert_eq!(book.free_rows(), Ok(plain.free() as u64));
    assert_eq!(book.free_places(), Ok((plain.places - plain.taken.len()) as u64));
    assert_eq!(book.numbers()[0], plain.rows.len() as u64);
    let taken: Vec<u64> = plain.taken.iter().flat_map(|(owner, number)| [owner.0, *number]).collect();
    assert_eq!(book.taken()[..1 + taken.len()], [[plain.taken.len() as u64].as_slice(), &taken].concat());
    for owner in Owner::BOTH {
        let own = plain.of(owner);
        assert_eq!(entries(book, owner), own);
        let totals = book.totals(owner).unwrap();
        assert_eq!((totals.entries, numbers(totals.figures)), (own.len() as u64, plain.sums(owner)));
        assert_eq!(totals.net, plain.net(owner));
        let wanted = random.below(30) as u64;
        let found = book.find(owner, wanted);
        let found = found.map(|entry| line(entry.number, entry.file_number, numbers(entry.figures)));
        let entry = own.iter().find(|entry| entry[0] == wanted).copied();
        let none = Refused::NoEntry { owner, entry_number: wanted, last: *plain.last(owner) };
        assert_eq!(found, entry.ok_or(none));
    }
}

/// Files of the independent generator, in both sets, sound and damaged, of both owners.
#[test]
fn histories_beside_plain_rows() {
    let mut random = Random::new(6);
    let (mut seen, mut reused) = (BTreeMap::new(), 0);
    for history in 0..60 {
        let (capacity, places) = (random.below(16), random.below(24));
        let mut plain = Plain { capacity, places, ..Plain::default() };
        let mut book = Book::with_rows_and_places(capacity, places).unwrap();
        let mut given = BTreeSet::new();
        for _ in 0..40 {
            let (before, claimed) = (plain.last, plain.rows.len());
            let (answer, expected, what) = call(&mut random, &mut book, &mut plain);
            assert_eq!(answer, expected, "history {history}, {what}");
            *seen.entry((what, answer.name())).or_insert(0) += 1;
            same(&mut random, &book, &mut plain);
            // No entry number is given a second time.
            let new =
                (0..2).flat_map(|owner| (before[owner]..plain.last[owner]).map(move |number| (owner, number + 1)));
            let mut count = 0;
            for number in new {
                assert!(given.insert(number), "{number:?}");
                count += 1;
            }
            reused += usize::from(plain.rows.len() < claimed + count);
        }
    }
    for answer in [
        ("entered", "ACCEPTED"),
        ("entered", "DUPLICATE"),
        ("entered", "FULL"),
        ("entered", "FIELD"),
        ("entered", "TOTAL"),
        ("withdrawn", "ACCEPTED"),
        ("withdrawn", "NOENTRY"),
        ("gaps closed", "ACCEPTED"),
    ] {
        assert!(seen.get(&answer).is_some_and(|count| *count > 20), "{answer:?}: {seen:?}");
    }
    assert!(reused > 20, "{reused}");
}

/// What a bureau does with the book on a day.
type Day<'d> = &'d dyn Fn(&mut Book, u64);

/// What one owner is answered depends on its own calls and on the rows and places that are free, and on nothing else that the other did (requests 8 and 10).
#[test]
fn an_owner_does_not_see_the_other() {
    let (one, two) = (Owner::ONE, Owner::TWO);
    let files = ["peer/samples/sound-2-checks.x9", "peer/samples/sound-11-credits.x9", PICTURED].map(sample);
    // Each day the second bureau comes to two rows and two places more: with two files of one letter, or with two of two letters each, of which it
    // withdraws two. One tidies up besides.
    let few = |book: &mut Book, day: u64| {
        for (file, number) in [(0, 20 + day), (1, 30 + day)] {
            book.enter(&files[file], number, two).unwrap();
        }
    };
    let many = |book: &mut Book, day: u64| {
        for number in [day, 10 + day] {
            let first = *book.enter(&files[2], number, two).unwrap().numbers().start();
            book.withdraw(two, first + number % 2).unwrap();
        }
        book.tidy().unwrap();
    };
    let busy: [Day<'_>; 2] = [&few, &many];
    let answers = busy.map(|of_two| {
        let mut book = Book::with_rows_and_places(9, 9).unwrap();
        let mut answers = Vec::new();
        for day in [0, 1] {
            of_two(&mut book, day);
            for number in [1, 1 + day] {
                answers.push(book.enter(&files[day as usize], number, one).map(|entered| entered.numbers()));
            }
            answers.push(book.enter(&files[2], 9, one).map(|entered| entered.numbers()));
            answers.push(book.withdraw(one, 2).map(|entry| entry.number..=entry.file_number));
        }
        (answers, entries(&book, one), book.totals(one), book.free_rows(), book.free_places())
    });
    assert_eq!(answers[0], answers[1]);
    let told: Vec<Option<Number>> =
        answers[0].0.iter().map(|answer| answer.as_ref().err().map(Refused::number)).collect();
    let (taken, gone) = (Some(Number::DUPLICATE), Some(Number::NOENTRY));
    assert_eq!(told, [None, taken, None, None, taken, None, taken, gone]);
}
