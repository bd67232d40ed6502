//! `icl book withdraw` and `icl book tidy`: entries that leave the book, rows that are used again, and numbers that are not.

mod common;

use std::fs;

use common::{below_zero, book_file, run, Folder};

const PICTURED: &str = "samples/two-letters-with-pictures.x9";
const CREDITED: &str = "samples/credits-with-pictures.x9";
const CHECKS: &str = "peer/samples/sound-2-checks.x9";

/// The cash letters of the samples, by peer/reader/src/pictures.rs and common/pictured_credits.rs.
const PICTURED_LETTERS: [&str; 2] = [
    "2 bundles, 6 views, 3 debits of 165.57, 0 credits of 0.00",
    "1 bundle, 2 views, 1 debit of 310.00, 0 credits of 0.00",
];
const CREDITED_LETTERS: [&str; 2] = [
    "2 bundles, 10 views, 4 debits of 168.07, 4 credits of 333.64",
    "1 bundle, 4 views, 1 debit of 310.00, 2 credits of 1,310.00",
];
const CHECKS_LETTER: &str = "1 bundle, 0 views, 2 debits of 3.50, 0 credits of 0.00";

fn done(output: impl Into<String>) -> (i32, String, String) {
    (0, output.into(), String::new())
}

fn refused(book: &str, number: u64, words: &str) -> (i32, String, String) {
    (1, String::new(), format!("icl: {book}: refused {number} record 0 field 0 offset 0: {words}\n"))
}

/// Runs a command that is to leave the book as it was.
fn unchanged(book: &str, words: &str) -> (i32, String, String) {
    let before = fs::read(book).unwrap();
    let outcome = run(words);
    assert_eq!(fs::read(book).unwrap(), before, "{words}");
    outcome
}

/// A book of five rows and six places: two letters of owner 1, two of owner 2, one of owner 1.
fn five(folder: &Folder) -> String {
    let book = folder.path("day.book");
    assert_eq!(run(&format!("book new {book} --rows 5 --places 6")).0, 0);
    for (file, number, owner) in [(PICTURED, 7, 1), (CREDITED, 7, 2), (CHECKS, 8, 1)] {
        assert_eq!(run(&format!("book enter {book} {file} --number {number} --owner {owner}")).0, 0);
    }
    book
}

fn withdrawn(book: &str, owner: u64, entry: &str) -> (i32, String, String) {
    done(format!("1 cash letter withdrawn from {book} for owner {owner}\n  {entry}\n"))
}

#[test]
fn withdrawn_and_used_again() {
    let folder = Folder::new("withdrawn");
    let book = five(&folder);
    let entry = format!("entry 1 of owner 1, file number 7: {}", PICTURED_LETTERS[0]);
    assert_eq!(run(&format!("book withdraw {book} 1 --owner 1")), withdrawn(&book, 1, &entry));
    let entry = format!("entry 2 of owner 2, file number 7: {}", CREDITED_LETTERS[1]);
    assert_eq!(run(&format!("book withdraw --owner 2 {book} 2")), withdrawn(&book, 2, &entry));
    // 310.00 and 3.50 are left of owner 1; 168.07 and 333.64 of owner 2.
    let of_one =
        "2 entries of owner 1: 2 bundles, 2 views, 3 debits of 313.50, 0 credits of 0.00\nnet position: -313.50";
    let of_two =
        "1 entry of owner 2: 2 bundles, 10 views, 4 debits of 168.07, 4 credits of 333.64\nnet position: +165.57";
    for (owner, totals) in [(1, of_one), (2, of_two)] {
        let totals = format!("{totals}\nfree rows: 2 of 5\nfree places: 3 of 6\n");
        assert_eq!(run(&format!("book totals {book} --owner {owner}")), done(totals));
    }
    // A withdrawn entry is none, and not its owner's to withdraw again; the other owner's of that number is another.
    let words = "NOENTRY: the day book has no such entry; entry number 1 of owner 1; last entry number given: 3; \
                 this one was withdrawn";
    for command in ["show", "withdraw"] {
        assert_eq!(unchanged(&book, &format!("book {command} {book} 1 --owner 1")), refused(&book, 15, words));
        let words = "NOENTRY: the day book has no such entry; entry number 4 of owner 1; last entry number given: 3";
        assert_eq!(unchanged(&book, &format!("book {command} {book} 4 --owner 1")), refused(&book, 15, words));
    }
    let shown = format!("entry 1 of owner 2, file number 7: {}\n", CREDITED_LETTERS[0]);
    assert_eq!(run(&format!("book show {book} 1 --owner 2")), done(shown));
    // Two letters go into the two gaps, though all five rows have been used; numbers go on.
    let entered = [3, 4].map(|entry: u64| {
        format!("  entry {entry} of owner 2, file number 9: {}\n", PICTURED_LETTERS[entry as usize - 3])
    });
    let entered = format!("2 cash letters entered into {book} for owner 2\n{}", entered.concat());
    assert_eq!(run(&format!("book enter {book} {PICTURED} --number 9 --owner 2")), done(entered));
    // Listed by their numbers, though entry 3 stands in the row before entry 1.
    let columns = "owner,entry,file_number,bundles,debit_items,credit_items,views,debit,credit\n";
    let rows = "2,1,7,2,4,4,10,16807,33364\n2,3,9,2,3,0,6,16557,0\n2,4,9,1,1,0,2,31000,0\n";
    assert_eq!(run(&format!("book list --csv {book} --owner 2")), done(format!("{columns}{rows}")));
    let rows = "1,2,7,1,1,0,2,31000,0\n1,3,8,1,2,0,0,350,0\n";
    assert_eq!(run(&format!("book list --csv {book} --owner 1")), done(format!("{columns}{rows}")));
    // Now it is full.
    let words = format!(
        "FULL: the day book has no room for the file; cash letters: 1; free rows: 0; \
         icl book grow {book} --rows N makes room, N being 6 or more"
    );
    let full = unchanged(&book, &format!("book enter {book} {CHECKS} --number 10 --owner 1"));
    assert_eq!(full, refused(&book, 13, &words));
    assert_eq!(folder.names(""), ["day.book"]);
}

/// The file number of a withdrawn entry stays taken, of one left and of none.
#[test]
fn file_numbers_stay_taken() {
    let folder = Folder::new("stay-taken");
    let book = five(&folder);
    for (entry, left) in
        [(1, "entries with it: 1, the first of them entry 2"), (2, "no entry has it any more, and it stays taken")]
    {
        assert_eq!(run(&format!("book withdraw {book} {entry} --owner 1")).0, 0);
        let words = format!("DUPLICATE: the file number has been entered already; file number 7 of owner 1; {left}");
        let again = unchanged(&book, &format!("book enter {book} {PICTURED} --number 7 --owner 1"));
        assert_eq!(again, refused(&book, 12, &words));
    }
    assert_eq!(run(&format!("book tidy {book}")).0, 0);
    assert_eq!(unchanged(&book, &format!("book enter {book} {PICTURED} --number 7 --owner 1")).0, 1);
    // Under a number of its own it comes in again, with new entry numbers.
    let entered = run(&format!("book enter {book} {PICTURED} --number 71 --owner 1"));
    assert!(entered.1.contains("\n  entry 4 of owner 1, file number 71: "), "{entered:?}");
    // Also when all are gone: the last number given is kept.
    for entry in [3, 4, 5] {
        assert_eq!(run(&format!("book withdraw {book} {entry} --owner 1")).0, 0);
    }
    let entered = run(&format!("book enter {book} {CHECKS} --number 72 --owner 1"));
    let line = format!("  entry 6 of owner 1, file number 72: {CHECKS_LETTER}\n");
    assert_eq!(entered, done(format!("1 cash letter entered into {book} for owner 1\n{line}")));
}

/// Without free places there is no room, whatever rows are free, and each lack is told with what helps.
#[test]
fn full_for_want_of_places() {
    let folder = Folder::new("places");
    let book = folder.path("day.book");
    assert_eq!(run(&format!("book new {book} --rows 2 --places 2")).0, 0);
    for (number, owner) in [(1, 1), (2, 2)] {
        assert_eq!(run(&format!("book enter {book} {CHECKS} --number {number} --owner {owner}")).0, 0);
    }
    let enter = |file: &str| unchanged(&book, &format!("book enter {book} {file} --number 3 --owner 2"));
    let both = |letters: u64, free: u64, rows: u64| {
        format!(
            "FULL: the day book has no room for the file; cash letters: {letters}; free rows: {free}; \
             icl book grow {book} --rows N --places M makes room, N being {rows} or more and M being 3 or more"
        )
    };
    assert_eq!(enter(CHECKS), refused(&book, 13, &both(1, 0, 3)));
    assert_eq!(run(&format!("book withdraw {book} 1 --owner 1")).0, 0);
    assert_eq!(enter(PICTURED), refused(&book, 13, &both(2, 1, 3)));
    let words = format!(
        "FULL: the day book has no room for the file; places for file numbers: 2, none of them free; \
         icl book grow {book} --places N makes room, N being 3 or more"
    );
    assert_eq!(enter(CHECKS), refused(&book, 13, &words));
    assert_eq!(run(&format!("book grow {book} --places 3")), done("free rows: 1 of 2\nfree places: 1 of 3\n"));
    assert_eq!(run(&format!("book enter {book} {CHECKS} --number 3 --owner 2")).0, 0);
}

/// The file after each step, byte by byte.
#[test]
fn the_bytes_of_the_file() {
    let folder = Folder::new("withdrawn-bytes");
    let book = folder.path("day.book");
    assert_eq!(run(&format!("book new {book} --rows 4 --places 3")).0, 0);
    assert_eq!(run(&format!("book enter {book} {PICTURED} --number 7 --owner 2")).0, 0);
    assert_eq!(run(&format!("book enter {book} {CHECKS} --number 9 --owner 1")).0, 0);
    let of_one = [1, 1, 2, 0, 0, 350, 0, below_zero(350)];
    let of_two = [2, 1, 1, 0, 2, 31_000, 0, below_zero(31_000)];
    let kept = [[2, 2, 7, 1, 1, 0, 2, 31_000, 0], [1, 1, 9, 1, 2, 0, 0, 350, 0]];
    let list = [2, 2, 7, 1, 9];
    assert_eq!(run(&format!("book withdraw {book} 1 --owner 2")).0, 0);
    let numbers = [[3].as_slice(), &of_one, &of_two, &[0; 9], &kept.concat()].concat();
    assert_eq!(fs::read(&book).unwrap(), book_file(53, &numbers, 7, &list));
    let tidied = format!("1 gap closed in {book}\nfree rows: 2 of 4\nfree places: 1 of 3\n");
    assert_eq!(run(&format!("book tidy {book}")), done(tidied));
    // Nine numbers fewer: what is free takes no room.
    let numbers = [[2].as_slice(), &of_one, &of_two, &kept.concat()].concat();
    assert_eq!(fs::read(&book).unwrap(), book_file(53, &numbers, 7, &list));
    let tidied = format!("0 gaps closed in {book}\nfree rows: 2 of 4\nfree places: 1 of 3\n");
    assert_eq!(unchanged(&book, &format!("book tidy {book}")), done(tidied));
}

/// A tidy-up changes nothing that an owner sees.
#[test]
fn tidied_up() {
    let folder = Folder::new("tidied");
    let book = five(&folder);
    for (entry, owner) in [(2, 1), (1, 2)] {
        assert_eq!(run(&format!("book withdraw {book} {entry} --owner {owner}")).0, 0);
    }
    let seen =
        || [1, 2].map(|owner| ["list", "totals"].map(|command| run(&format!("book {command} {book} --owner {owner}"))));
    let before = seen();
    let tidied = format!("2 gaps closed in {book}\nfree rows: 2 of 5\nfree places: 3 of 6\n");
    assert_eq!(run(&format!("book tidy {book}")), done(tidied));
    assert_eq!(seen(), before);
}

/// A withdrawal that would carry the net position beyond its bound, and one that takes it there. The entries are made up.
#[test]
fn net_positions_out_of_bounds() {
    const BOUND: u64 = 1_000_000_000_000_000_000;
    let folder = Folder::new("withdrawn-range");
    // Of owner 1: a credit of 7 cents, and a debit.
    let with = |name: &str, debit: u64| {
        let head = [2, 2, 2, 1, 1, 0, debit, 7, below_zero(debit - 7), 0, 0, 0, 0, 0, 0, 0, 0];
        let rows = [[1, 1, 5, 1, 0, 1, 0, 0, 7], [1, 2, 6, 1, 1, 0, 0, debit, 0]];
        folder.with(name, &book_file(35, &[head.as_slice(), &rows.concat()].concat(), 5, &[2, 1, 5, 1, 6]))
    };
    let book = with("there.book", BOUND);
    let entry = "entry 1 of owner 1, file number 5: 1 bundle, 0 views, 0 debits of 0.00, 1 credit of 0.07";
    assert_eq!(run(&format!("book withdraw {book} 1 --owner 1")), withdrawn(&book, 1, entry));
    let net = run(&format!("book totals {book} --owner 1"));
    assert_eq!(net.1.lines().nth(1), Some("net position: -10,000,000,000,000,000.00"));
    let book = with("beyond.book", BOUND + 1);
    let words = "RANGE: the net position would lie beyond 1000000000000000000 cents either side; \
                 net position of owner 1 in cents: -999999999999999994; it would be: -1000000000000000001";
    assert_eq!(unchanged(&book, &format!("book withdraw {book} 1 --owner 1")), refused(&book, 16, words));
    // NOENTRY comes first, and the debit may go.
    assert!(unchanged(&book, &format!("book withdraw {book} 3 --owner 1")).2.contains("NOENTRY"));
    assert_eq!(run(&format!("book withdraw {book} 2 --owner 1")).0, 0);
}

/// What is asked of the command line.
#[test]
fn words_that_are_missing() {
    let folder = Folder::new("withdraw-words");
    let book = five(&folder);
    for (words, complaint) in [
        (format!("withdraw {book} 1"), "--owner N is missing, N being 1 or 2"),
        (format!("withdraw {book} --owner 1"), "ENTRY is missing"),
        (format!("withdraw {book} 1 2 --owner 1"), "2 is a word too many: BOOK and ENTRY are asked"),
        (format!("withdraw {book} one --owner 1"), "one is no entry number: a decimal number is needed"),
        ("tidy".to_string(), "BOOK is missing"),
        (format!("tidy {book} --owner 1"), "--owner is not known here"),
    ] {
        let expected = (2, String::new(), format!("icl: {complaint} (icl --help tells more)\n"));
        assert_eq!(unchanged(&book, &format!("book {words}")), expected);
    }
    let help = run("book --help").1;
    assert!(help.contains("the file number stays taken"), "{help}");
}
