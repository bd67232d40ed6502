//! Several at one day book at once, and some that are killed: no entry is lost, none is there twice, none that was withdrawn comes back, and the book is
//! always whole.

mod common;

use std::collections::BTreeMap;
use std::fs;
use std::process::Stdio;
use std::sync::atomic::{AtomicBool, Ordering};
use std::time::{Duration, Instant};

use common::{icl, outcome, run, Folder};
use peer_reader::random::Random;

/// Files of one and of two cash letters, with the figures of each as `book list --csv` prints them behind the file number.
const ONE: (&str, &[&str]) = ("peer/samples/sound-2-checks.x9", &["1,2,0,0,350,0"]);
const TWO: (&str, &[&str]) = ("samples/two-letters-with-pictures.x9", &["2,3,0,6,16557,0", "1,1,0,2,31000,0"]);

/// The file that is entered under a number.
fn file(number: u64) -> (&'static str, &'static [&'static str]) {
    if number.is_multiple_of(2) {
        TWO
    } else {
        ONE
    }
}

fn enter(book: &str, number: u64, owner: u64) -> (i32, String, String) {
    let words = format!("book enter {book} {} --number {number} --owner {owner}", file(number).0);
    outcome(&mut icl(words.split(' ')))
}

/// The entries of an owner by file number, after looking at all that has to be so in every book: entry numbers from 1 without a gap, the letters of a
/// file side by side, with their own figures, and running totals that are their sums.
fn entries(book: &str, owner: u64) -> BTreeMap<u64, u64> {
    let (status, output, complaint) = run(&format!("book list --csv {book} --owner {owner}"));
    assert_eq!((status, complaint.as_str()), (0, ""));
    let lines: Vec<&str> = output.lines().skip(1).collect();
    let mut found = BTreeMap::new();
    let mut expected = Vec::new();
    for line in &lines {
        let mut numbers = line.split(',').skip(1).map(|number| number.parse::<u64>().unwrap());
        let (entry, file_number) = (numbers.next().unwrap(), numbers.next().unwrap());
        if found.insert(file_number, entry).is_none() {
            let letters = (expected.len() + 1..).zip(file(file_number).1);
            expected.extend(letters.map(|(entry, figures)| format!("{owner},{entry},{file_number},{figures}")));
        }
    }
    assert_eq!(lines, expected);
    found
}

/// Four at once, two of each owner, each with files of its own, while a fifth looks.
#[test]
fn four_at_once() {
    let folder = Folder::new("together");
    let book = folder.path("day.book");
    assert_eq!(run(&format!("book new {book} --rows 60")).0, 0);
    let done = AtomicBool::new(false);
    let each = 8;
    std::thread::scope(|scope| {
        let workers: Vec<_> = (0..4u64)
            .map(|worker| {
                let book = &book;
                scope.spawn(move || {
                    for turn in 0..each {
                        let number = worker * 100 + turn;
                        let (status, output, complaint) = enter(book, number, 1 + worker % 2);
                        assert_eq!((status, complaint.as_str()), (0, ""), "{number}");
                        assert!(output.contains(&format!(", file number {number}: ")), "{output}");
                    }
                })
            })
            .collect();
        let looker = scope.spawn(|| {
            let (mut looks, mut most) = (0, 0);
            while !done.load(Ordering::Relaxed) {
                let count = entries(&book, 1).len();
                assert!(count >= most, "{count} after {most}");
                (looks, most) = (looks + 1, count);
            }
            looks
        });
        workers.into_iter().for_each(|worker| worker.join().unwrap());
        done.store(true, Ordering::Relaxed);
        assert!(looker.join().unwrap() > 2);
    });
    for owner in [1, 2] {
        let numbers: Vec<u64> = entries(&book, owner).into_keys().collect();
        let workers = [owner - 1, owner + 1];
        let expected: Vec<u64> =
            workers.iter().flat_map(|worker| (0..each).map(move |turn| worker * 100 + turn)).collect();
        assert_eq!(numbers, expected);
        // Eight files of one letter and eight of two.
        let sums = "32 bundles, 64 views, 48 debits of 3,832.56, 0 credits of 0.00";
        let free = "free rows: 12 of 60\nfree places: 28 of 60\n";
        let totals = format!("24 entries of owner {owner}: {sums}\nnet position: -3,832.56\n{free}");
        assert_eq!(run(&format!("book totals {book} --owner {owner}")), (0, totals, String::new()));
    }
    assert_eq!(folder.names(""), ["day.book"]);
}

/// Two with the same file number: one of them has it.
#[test]
fn one_number_for_two() {
    let folder = Folder::new("one-number");
    let book = folder.path("day.book");
    assert_eq!(run(&format!("book new {book}")).0, 0);
    for number in 0..6 {
        let both = std::thread::scope(|scope| {
            let both = [0, 1].map(|_| scope.spawn(|| enter(&book, number, 2).0));
            both.map(|one| one.join().unwrap())
        });
        assert!(both == [0, 1] || both == [1, 0], "{both:?}");
    }
    assert_eq!(entries(&book, 2).len(), 6);
}

/// Two that make the same book: one of them does, and the other leaves it.
#[test]
fn one_new_book() {
    let folder = Folder::new("one-book");
    for turn in 0..6 {
        let book = folder.path(&format!("{turn}.book"));
        let both = std::thread::scope(|scope| {
            let both = [3, 4].map(|rows| {
                let words = format!("book new {book} --rows {rows}");
                scope.spawn(move || run(&words).0)
            });
            both.map(|one| one.join().unwrap())
        });
        assert!(both == [0, 2] || both == [2, 0], "{both:?}");
        let rows = if both[0] == 0 { 3 } else { 4 };
        let free = format!("free places: {rows} of {rows}");
        assert_eq!(run(&format!("book totals {book} --owner 1")).1.lines().last(), Some(free.as_str()));
    }
    assert_eq!(folder.names("").len(), 6);
}

/// Three withdraw what a fourth enters, and a fifth closes gaps: what was told is so, and no number is given twice.
#[test]
fn entered_withdrawn_and_tidied_at_once() {
    let folder = Folder::new("withdrawn-together");
    let book = folder.path("day.book");
    assert_eq!(run(&format!("book new {book} --rows 12 --places 40")).0, 0);
    for number in 0..6 {
        assert_eq!(enter(&book, 2 * number + 1, 1).0, 0);
    }
    // Entries 1 to 6 of one letter each go, one of them for each of three, while six files of one letter come.
    std::thread::scope(|scope| {
        for worker in 0..3 {
            let book = &book;
            scope.spawn(move || {
                for turn in 0..2 {
                    let (status, output, complaint) =
                        run(&format!("book withdraw {book} {} --owner 1", 1 + worker + 3 * turn));
                    assert_eq!((status, complaint.as_str()), (0, ""));
                    assert!(output.contains(&format!("\n  entry {} of owner 1, ", 1 + worker + 3 * turn)), "{output}");
                }
            });
        }
        scope.spawn(|| (0..6).for_each(|number| assert_eq!(enter(&book, 2 * number + 101, 1).0, 0)));
        scope.spawn(|| (0..4).for_each(|_| assert_eq!(run(&format!("book tidy {book}")).0, 0)));
    });
    let lines = run(&format!("book list --csv {book} --owner 1")).1;
    let expected: Vec<String> =
        (0..6).map(|number| format!("1,{},{},{}", number + 7, 2 * number + 101, ONE.1[0])).collect();
    assert_eq!(lines.lines().skip(1).collect::<Vec<_>>(), expected);
    let totals = "6 entries of owner 1: 6 bundles, 0 views, 12 debits of 21.00, 0 credits of 0.00\n\
                  net position: -21.00\nfree rows: 6 of 12\nfree places: 28 of 40\n";
    assert_eq!(run(&format!("book totals {book} --owner 1")).1, totals);
    assert_eq!(folder.names(""), ["day.book"]);
}

/// Two that withdraw the same entry: one of them does.
#[test]
fn one_entry_for_two() {
    let folder = Folder::new("one-entry");
    let book = folder.path("day.book");
    assert_eq!(run(&format!("book new {book}")).0, 0);
    for number in 0..4 {
        assert_eq!(enter(&book, 2 * number + 1, 2).0, 0);
        let words = format!("book withdraw {book} {} --owner 2", number + 1);
        let both = std::thread::scope(|scope| {
            let both = [0, 1].map(|_| scope.spawn(|| run(&words).0));
            both.map(|one| one.join().unwrap())
        });
        assert!(both == [0, 1] || both == [1, 0], "{both:?}");
    }
    assert_eq!(entries(&book, 2).len(), 0);
}

/// Killed after any delay: the book is the old one or the new one, and what was told is there.
#[test]
fn killed_at_any_instant() {
    let folder = Folder::new("killed");
    let book = folder.path("day.book");
    assert_eq!(run(&format!("book new {book}")).0, 0);
    let started = Instant::now();
    assert_eq!(enter(&book, 0, 2).0, 0);
    // As long as one takes, and a little more: on a machine at work, until about half have come to their end.
    let mut longest = started.elapsed().as_micros() as usize;
    let (mut random, mut known) = (Random::new(66), 1);
    let (mut ended, mut unended) = (0, 0);
    for number in 1..=30 {
        let words = format!("book enter {book} {} --number {number} --owner 2", file(number).0);
        let mut child = icl(words.split(' ')).stdout(Stdio::piped()).stderr(Stdio::null()).spawn().unwrap();
        std::thread::sleep(Duration::from_micros(random.below(longest) as u64));
        child.kill().unwrap();
        let told = !child.wait_with_output().unwrap().stdout.is_empty();
        let before = fs::read(&book).unwrap();
        let found = entries(&book, 2);
        let is_there = found.contains_key(&number);
        assert!(is_there || !told, "{number} was told");
        assert_eq!(found.len(), known + usize::from(is_there), "{number}");
        // Entered again, it is there once, whatever the killed one left behind.
        let (status, _, complaint) = enter(&book, number, 2);
        assert_eq!(status, i32::from(is_there), "{complaint}");
        assert_eq!(fs::read(&book).unwrap() == before, is_there);
        assert_eq!(folder.names(""), ["day.book"], "{number}");
        known += 1;
        (ended, unended) = (ended + usize::from(is_there), unended + usize::from(!is_there));
        longest = if ended < unended { longest + longest / 8 } else { longest };
    }
    assert_eq!(entries(&book, 2).len(), 31);
    assert!(ended > 0 && unended > 0, "{ended} ended, {unended} did not");
}

/// Killed while it withdraws or tidies up: the book is the old one or the new one, byte for byte, and what was told is so.
#[test]
fn killed_while_withdrawing_or_tidying_up() {
    let folder = Folder::new("killed-withdrawing");
    let (book, fine) = (folder.path("day.book"), folder.path("fine.book"));
    assert_eq!(run(&format!("book new {fine}")).0, 0);
    for number in 1..=12 {
        assert_eq!(enter(&fine, number, 1 + number % 2).0, 0);
    }
    assert_eq!(run(&format!("book withdraw {fine} 3 --owner 2")).0, 0);
    let (with_a_gap, mut random) = (fs::read(&fine).unwrap(), Random::new(67));
    for command in ["withdraw BOOK 2 --owner 1", "tidy BOOK"] {
        let command = format!("book {command}");
        let words = command.replace("BOOK", &fine);
        let started = Instant::now();
        assert_eq!(run(&words).0, 0);
        let mut longest = started.elapsed().as_micros() as usize;
        let changed = fs::read(&fine).unwrap();
        fs::write(&fine, &with_a_gap).unwrap();
        assert_ne!(changed, with_a_gap);
        let (mut ended, mut unended) = (0, 0);
        for turn in 0..20 {
            fs::write(&book, &with_a_gap).unwrap();
            let words = command.replace("BOOK", &book);
            let mut child = icl(words.split(' ')).stdout(Stdio::piped()).stderr(Stdio::null()).spawn().unwrap();
            std::thread::sleep(Duration::from_micros(random.below(longest) as u64));
            child.kill().unwrap();
            let told = !child.wait_with_output().unwrap().stdout.is_empty();
            let found = fs::read(&book).unwrap();
            assert!(found == changed || (found == with_a_gap && !told), "{command}, {turn}");
            // The next one finds its way past what was left behind.
            assert_eq!(run(&format!("book tidy {book}")).0, 0);
            assert_eq!(folder.names(""), ["day.book", "fine.book"], "{command}, {turn}");
            (ended, unended) = (ended + usize::from(found == changed), unended + usize::from(found == with_a_gap));
            longest = if ended < unended { longest + longest / 8 } else { longest };
        }
        assert!(ended > 0 && unended > 0, "{command}: {ended} ended, {unended} did not");
    }
}
