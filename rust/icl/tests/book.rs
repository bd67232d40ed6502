//! `icl book`: a day book in a file, on the samples, whose figures were worked out by hand.

mod common;

use std::fs;
use std::os::unix::fs::PermissionsExt;
use std::os::unix::process::CommandExt;
use std::process::Command;

use common::{below_zero, book_file, icl, many_checks, outcome, piped, read, run, Folder};
use peer_reader::plain::*;

const PICTURED: &str = "samples/two-letters-with-pictures.x9";
const IN_EBCDIC: &str = "samples/ebcdic-with-pictures.x9";
const CREDITED: &str = "samples/credits-with-pictures.x9";

/// The cash letters of the samples, by peer/reader/src/pictures.rs and common/pictured_credits.rs.
const PICTURED_LETTERS: [&str; 2] = [
    "2 bundles, 6 views, 3 debits of 165.57, 0 credits of 0.00",
    "1 bundle, 2 views, 1 debit of 310.00, 0 credits of 0.00",
];
const CREDITED_LETTERS: [&str; 2] = [
    "2 bundles, 10 views, 4 debits of 168.07, 4 credits of 333.64",
    "1 bundle, 4 views, 1 debit of 310.00, 2 credits of 1,310.00",
];

fn done(output: impl Into<String>) -> (i32, String, String) {
    (0, output.into(), String::new())
}

fn refused(complaint: impl std::fmt::Display) -> (i32, String, String) {
    (1, String::new(), format!("icl: {complaint}\n"))
}

fn trouble(complaint: impl std::fmt::Display) -> (i32, String, String) {
    (2, String::new(), format!("icl: {complaint}\n"))
}

/// A new book of so many rows.
fn new(folder: &Folder, rows: u64) -> String {
    let book = folder.path("day.book");
    assert_eq!(run(&format!("book new {book} --rows {rows}")).0, 0);
    book
}

/// What the book says of free rows and places.
fn free(book: &str) -> String {
    let (_, output, _) = run(&format!("book totals {book} --owner 1"));
    output.split_inclusive('\n').skip(2).collect()
}

/// Runs a command that is to leave the book as it was.
fn unchanged(book: &str, words: &str) -> (i32, String, String) {
    let before = fs::read(book).unwrap();
    let outcome = run(words);
    assert_eq!(fs::read(book).unwrap(), before, "{words}");
    outcome
}

#[test]
fn two_days() {
    let folder = Folder::new("book");
    let book = folder.path("day.book");
    let written = format!("an empty day book of 10,000 rows and 10,000 places for file numbers written to {book}\n");
    assert_eq!(run(&format!("book new {book}")), done(written));
    let entered = |first: u64, number: u64, letters: [&str; 2]| {
        let line = |entry: u64, letter: &str| format!("  entry {entry} of owner 1, file number {number}: {letter}\n");
        let lines = [line(first, letters[0]), line(first + 1, letters[1])].concat();
        done(format!("2 cash letters entered into {book} for owner 1\n{lines}"))
    };
    assert_eq!(
        run(&format!("book enter {book} {PICTURED} --number 20240116 --owner 1")),
        entered(1, 20_240_116, PICTURED_LETTERS)
    );
    assert_eq!(
        run(&format!("book enter --number 20240117 {book} {CREDITED} --owner 1")),
        entered(3, 20_240_117, CREDITED_LETTERS)
    );
    // The same letters in EBCDIC, from standard input, under a number of their own.
    let piped = piped(&format!("book enter {book} - --number 0 --owner 1"), &read(IN_EBCDIC));
    assert_eq!(piped, entered(5, 0, PICTURED_LETTERS));
    let shown = format!("entry 3 of owner 1, file number 20240117: {}\n", CREDITED_LETTERS[0]);
    assert_eq!(run(&format!("book show {book} 3 --owner 1")), done(shown));
    // 47557 debit cents twice and 47807, 164364 credit cents.
    let totals =
        "6 entries of owner 1: 9 bundles, 30 views, 13 debits of 1,429.21, 6 credits of 1,643.64\nnet position: +214.43\n\
         free rows: 9,994 of 10,000\nfree places: 9,997 of 10,000\n";
    assert_eq!(run(&format!("book totals {book} --owner 1")), done(totals));
    assert_eq!(folder.names(""), ["day.book"]);
}

#[test]
fn lists() {
    let folder = Folder::new("lists");
    let book = new(&folder, 50);
    let table = "owner  entry  file number  bundles  views  debits  debit amount  credits  credit amount\n";
    let columns = "owner,entry,file_number,bundles,debit_items,credit_items,views,debit,credit\n";
    assert_eq!(run(&format!("book list {book} --owner 1")), done(table));
    assert_eq!(run(&format!("book list --csv {book} --owner 1")), done(columns));
    assert_eq!(run(&format!("book list {book} --json --owner 1")), done("[]\n"));
    let totals = "0 entries of owner 1: 0 bundles, 0 views, 0 debits of 0.00, 0 credits of 0.00\nnet position: 0.00\n\
                  free rows: 50 of 50\nfree places: 50 of 50\n";
    assert_eq!(run(&format!("book totals {book} --owner 1")), done(totals));

    let many = folder.with("many.x9", &many_checks());
    for (file, number) in [(PICTURED, 1), (CREDITED, u64::MAX), (many.as_str(), 3)] {
        assert_eq!(run(&format!("book enter {book} {file} --number {number} --owner 1")).0, 0);
    }
    let rows = [
        "    1      1                     1        2      6       3        165.57        0           0.00\n",
        "    1      2                     1        1      2       1        310.00        0           0.00\n",
        "    1      3  18446744073709551615        2     10       4        168.07        4         333.64\n",
        "    1      4  18446744073709551615        1      4       1        310.00        2       1,310.00\n",
        "    1      5                     3        1      0   9,999         99.99        0           0.00\n",
    ];
    let head = "owner  entry           file number  bundles  views  debits  debit amount  credits  credit amount\n";
    assert_eq!(run(&format!("book list {book} --owner 1")), done(format!("{head}{}", rows.concat())));
    let rows = [
        [1, 1, 1, 2, 3, 0, 6, 16_557, 0],
        [1, 2, 1, 1, 1, 0, 2, 31_000, 0],
        [1, 3, u64::MAX, 2, 4, 4, 10, 16_807, 33_364],
        [1, 4, u64::MAX, 1, 1, 2, 4, 31_000, 131_000],
        [1, 5, 3, 1, 9_999, 0, 0, 9_999, 0],
    ];
    let csv = rows.map(|row| format!("{}\n", row.map(|number| number.to_string()).join(","))).concat();
    assert_eq!(run(&format!("book list --csv {book} --owner 1")), done(format!("{columns}{csv}")));
    let json = rows.map(|[owner, entry, file_number, bundles, debit_items, credit_items, views, debit, credit]| {
        format!(
            "  {{\"owner\": {owner}, \"entry\": {entry}, \"file_number\": {file_number}, \"bundles\": {bundles}, \"debit_items\": {debit_items}, \
             \"credit_items\": {credit_items}, \"views\": {views}, \"debit\": {debit}, \"credit\": {credit}}}"
        )
    });
    assert_eq!(run(&format!("book list --json {book} --owner 1")), done(format!("[\n{}\n]\n", json.join(",\n"))));
}

/// Two bureaus at one book: numbers and totals are each one's own, and the free rows are for both.
#[test]
fn two_owners() {
    let folder = Folder::new("owners");
    let book = new(&folder, 5);
    let entered = |owner: u64, letters: [&str; 2]| {
        let line = |entry: u64, letter: &str| format!("  entry {entry} of owner {owner}, file number 7: {letter}\n");
        let lines = [line(1, letters[0]), line(2, letters[1])].concat();
        done(format!("2 cash letters entered into {book} for owner {owner}\n{lines}"))
    };
    assert_eq!(run(&format!("book enter {book} {PICTURED} --number 7 --owner 2")), entered(2, PICTURED_LETTERS));
    assert_eq!(run(&format!("book enter {book} {CREDITED} --owner 1 --number 7")), entered(1, CREDITED_LETTERS));
    for (owner, letters) in [(1, CREDITED_LETTERS), (2, PICTURED_LETTERS)] {
        let shown = format!("entry 2 of owner {owner}, file number 7: {}\n", letters[1]);
        assert_eq!(run(&format!("book show {book} 2 --owner {owner}")), done(shown));
    }
    let of_one = "2 entries of owner 1: 3 bundles, 14 views, 5 debits of 478.07, 6 credits of 1,643.64\nnet position: +1,165.57\n";
    let of_two =
        "2 entries of owner 2: 3 bundles, 8 views, 4 debits of 475.57, 0 credits of 0.00\nnet position: -475.57\n";
    for (owner, totals) in [(1, of_one), (2, of_two)] {
        let totals = format!("{totals}free rows: 1 of 5\nfree places: 3 of 5\n");
        assert_eq!(run(&format!("book totals {book} --owner {owner}")), done(totals));
    }
    let columns = "owner,entry,file_number,bundles,debit_items,credit_items,views,debit,credit\n";
    let of_two = "2,1,7,2,3,0,6,16557,0\n2,2,7,1,1,0,2,31000,0\n";
    assert_eq!(run(&format!("book list --csv {book} --owner 2")), done(format!("{columns}{of_two}")));
    // A third entry of one is none of the other.
    assert_eq!(run(&format!("book enter {book} peer/samples/sound-2-checks.x9 --number 8 --owner 2")).0, 0);
    assert_eq!(run(&format!("book show {book} 3 --owner 2")).0, 0);
    let words = "NOENTRY: the day book has no such entry; entry number 3 of owner 1; last entry number given: 2";
    let expected = refused(format!("{book}: refused 15 record 0 field 0 offset 0: {words}"));
    assert_eq!(unchanged(&book, &format!("book show {book} 3 --owner 1")), expected);
    let words = "DUPLICATE: the file number has been entered already; file number 7 of owner 2; \
                 entries with it: 2, the first of them entry 1";
    let expected = refused(format!("{book}: refused 12 record 0 field 0 offset 0: {words}"));
    assert_eq!(unchanged(&book, &format!("book enter {book} {CREDITED} --number 7 --owner 2")), expected);
}

/// An owner that is neither 1 nor 2 is told with the library's own number, before all that is wrong with the file.
#[test]
fn other_owners() {
    let folder = Folder::new("other-owners");
    let book = new(&folder, 5);
    let large = folder.sparse("large.x9", 300 << 20);
    for owner in ["0", "3", "18446744073709551615"] {
        let words = format!("NOENTRY: the day book has no such entry; owner {owner}; a day book has owners 1 and 2");
        let expected = refused(format!("{book}: refused 15 record 0 field 0 offset 0: {words}"));
        for command in [
            format!("enter {book} {PICTURED} --number 1"),
            format!("enter {book} peer/samples/damaged-02-check-digit.x9 --number 1"),
            format!("enter {book} {large} --number 1"),
            format!("withdraw {book} 1"),
            format!("show {book} 1"),
            format!("list {book}"),
            format!("list --json {book}"),
            format!("totals {book}"),
        ] {
            assert_eq!(unchanged(&book, &format!("book {command} --owner {owner}")), expected, "{command}");
        }
    }
}

#[test]
fn refusals_by_the_book() {
    let folder = Folder::new("refusals");
    let book = new(&folder, 3);
    assert_eq!(run(&format!("book enter {book} {PICTURED} --number 7 --owner 1")).0, 0);
    let none = "NOENTRY: the day book has no such entry";
    for entry in ["0", "3", "18446744073709551615"] {
        let words = format!("{none}; entry number {entry} of owner 1; last entry number given: 2");
        let expected = refused(format!("{book}: refused 15 record 0 field 0 offset 0: {words}"));
        assert_eq!(unchanged(&book, &format!("book show {book} {entry} --owner 1")), expected);
    }
    let words = "DUPLICATE: the file number has been entered already; file number 7 of owner 1; entries with it: 2, the first of them entry 1";
    let expected = refused(format!("{book}: refused 12 record 0 field 0 offset 0: {words}"));
    // Of the same file, of another, and of one that would not fit besides.
    for file in [PICTURED, "peer/samples/sound-2-checks.x9", CREDITED] {
        assert_eq!(unchanged(&book, &format!("book enter {book} {file} --number 7 --owner 1")), expected);
    }
    let words = format!(
        "FULL: the day book has no room for the file; cash letters: 2; free rows: 1; \
         icl book grow {book} --rows N makes room, N being 4 or more"
    );
    let expected = refused(format!("{book}: refused 13 record 0 field 0 offset 0: {words}"));
    assert_eq!(unchanged(&book, &format!("book enter {book} {CREDITED} --number 8 --owner 1")), expected);
    // What fits still goes in.
    assert_eq!(run(&format!("book enter {book} peer/samples/sound-2-checks.x9 --number 8 --owner 1")).0, 0);
    assert_eq!(folder.names(""), ["day.book"]);
}

/// A file that would carry the net position of an owner beyond its bound, and one that takes it there. The entry that is in the book already is made up.
#[test]
fn net_positions_out_of_bounds() {
    const BOUND: u64 = 1_000_000_000_000_000_000;
    let folder = Folder::new("range");
    // Of owner 2, with one debit in one row, and a row free: the letter of two checks has 350 cents more.
    let with = |name: &str, debit: u64| {
        let head = [1, 0, 0, 0, 0, 0, 0, 0, 0, 1, 1, 1, 0, 0, debit, 0, below_zero(debit)];
        let row = [2, 1, 7, 1, 1, 0, 0, debit, 0];
        folder.with(name, &book_file(35, &[head.as_slice(), &row].concat(), 7, &[1, 2, 7]))
    };
    let checks = "peer/samples/sound-2-checks.x9";
    let book = with("there.book", BOUND - 350);
    assert_eq!(run(&format!("book enter {book} {checks} --number 8 --owner 2")).0, 0);
    let totals = "2 entries of owner 2: 2 bundles, 0 views, 3 debits of 10,000,000,000,000,000.00, 0 credits of 0.00\n\
                  net position: -10,000,000,000,000,000.00\nfree rows: 0 of 2\nfree places: 1 of 3\n";
    assert_eq!(run(&format!("book totals {book} --owner 2")), done(totals));
    let book = with("beyond.book", BOUND - 349);
    let words = "RANGE: the net position would lie beyond 1000000000000000000 cents either side; \
                 net position of owner 2 in cents: -999999999999999651; it would be: -1000000000000000001";
    let expected = refused(format!("{book}: refused 16 record 0 field 0 offset 0: {words}"));
    assert_eq!(unchanged(&book, &format!("book enter {book} {checks} --number 8 --owner 2")), expected);
    // It comes behind DUPLICATE and before FULL, and is nothing to the other owner.
    assert!(unchanged(&book, &format!("book enter {book} {checks} --number 7 --owner 2")).2.contains("DUPLICATE"));
    assert_eq!(run(&format!("book enter {book} {checks} --number 8 --owner 1")).0, 0);
    assert_eq!(unchanged(&book, &format!("book enter {book} {checks} --number 8 --owner 2")), expected);
    assert!(unchanged(&book, &format!("book enter {book} {checks} --number 9 --owner 1")).2.contains("FULL"));
}

#[test]
fn refusals_of_the_file() {
    let folder = Folder::new("files");
    let book = new(&folder, 3);
    assert_eq!(run(&format!("book enter {book} {PICTURED} --number 7 --owner 1")).0, 0);
    for name in ["damaged-06-item-count.x9", "damaged-02-check-digit.x9", "ebcdic/damaged-1-no-counterpart.x9"] {
        let file = format!("peer/samples/{name}");
        let listed = run(&format!("rows {file}"));
        assert_eq!(listed.0, 1, "{name}");
        // As elsewhere, and before DUPLICATE.
        assert_eq!(unchanged(&book, &format!("book enter {book} {file} --number 7 --owner 1")), listed);
    }
    let empty = folder.with("empty.x9", b"");
    let words =
        "refused 1 record 0 field 0 offset 0: SIZE: the file has no byte, or more than 268435456; found 0 bytes";
    let outcome = unchanged(&book, &format!("book enter {book} {empty} --number 8 --owner 1"));
    assert_eq!(outcome, refused(format!("{empty}: {words}")));
    let large = folder.sparse("large.x9", 300 << 20);
    let words = "too large: at most 268435456 bytes are read, and it has 314572800";
    let outcome = unchanged(&book, &format!("book enter {book} {large} --number 8 --owner 1"));
    assert_eq!(outcome, refused(format!("{large}: {words}")));
    let none = folder.path("none.x9");
    let outcome = unchanged(&book, &format!("book enter {book} {none} --number 8 --owner 1"));
    assert_eq!(outcome, trouble(format!("{none}: there is no such file or folder")));
}

/// A larger book holds what the smaller one held, and takes what that refused.
#[test]
fn growing() {
    let folder = Folder::new("growing");
    let book = new(&folder, 2);
    assert_eq!(run(&format!("book enter {book} {PICTURED} --number 7 --owner 1")).0, 0);
    let list = run(&format!("book list --csv {book} --owner 1"));
    for rows in [1, 2] {
        let expected = trouble(format!("{book} has 2 rows already, and none are taken away (icl --help tells more)"));
        assert_eq!(unchanged(&book, &format!("book grow {book} --rows {rows}")), expected);
    }
    let before = fs::read(&book).unwrap();
    assert_eq!(run(&format!("book grow {book} --rows 4")), done("free rows: 2 of 4\nfree places: 1 of 2\n"));
    assert_eq!(run(&format!("book list --csv {book} --owner 1")), list);
    // Of the bytes none but the count of numbers, which was 17 + 2 x 9 = 35 and is 53, and the check sum.
    let after = fs::read(&book).unwrap();
    let end = before.len() - 8;
    assert_eq!((before[24], after[24], after.len()), (35, 53, before.len()));
    assert_eq!((&after[..24], &after[25..end]), (&before[..24], &before[25..end]));
    assert_eq!(run(&format!("book enter {book} {CREDITED} --number 8 --owner 1")).0, 0);
    assert_eq!(free(&book), "free rows: 0 of 4\nfree places: 0 of 2\n");
    // The list by itself.
    let expected = trouble(format!("{book} has 2 places already, and none are taken away (icl --help tells more)"));
    assert_eq!(unchanged(&book, &format!("book grow {book} --places 2")), expected);
    assert_eq!(unchanged(&book, &format!("book grow {book} --rows 5 --places 2")), expected);
    let expected = trouble("--rows N or --places N is missing (icl --help tells more)");
    assert_eq!(unchanged(&book, &format!("book grow {book}")), expected);
    let list = run(&format!("book list --csv {book} --owner 1"));
    assert_eq!(run(&format!("book grow {book} --places 3")), done("free rows: 0 of 4\nfree places: 1 of 3\n"));
    assert_eq!(run(&format!("book grow {book} --places 9 --rows 5")), done("free rows: 1 of 5\nfree places: 7 of 9\n"));
    assert_eq!(run(&format!("book list --csv {book} --owner 1")), list);
}

/// The most rows and places that a book may have, and one more.
#[test]
fn numbers_of_rows_and_places() {
    let folder = Folder::new("rows");
    let book = folder.path("day.book");
    for option in ["--rows", "--places"] {
        for count in ["0", "1000001", "18446744073709551615"] {
            let expected = trouble(format!("{option} is a number from 1 to 1,000,000 (icl --help tells more)"));
            assert_eq!(run(&format!("book new {book} {option} {count}")), expected);
        }
        let noun = option.trim_start_matches('-');
        let expected =
            trouble(format!("many is no number of {noun}: a decimal number is needed (icl --help tells more)"));
        assert_eq!(run(&format!("book new {book} {option} many")), expected);
    }
    assert_eq!(folder.names(""), [""; 0]);
    let written =
        format!("an empty day book of 1,000,000 rows and 1,000,000 places for file numbers written to {book}\n");
    assert_eq!(run(&format!("book new {book} --rows 1000000")), done(written));
    assert_eq!(fs::metadata(&book).unwrap().len(), 64);
    assert_eq!(run(&format!("book enter {book} {PICTURED} --number 1 --owner 1")).0, 0);
    assert_eq!(free(&book), "free rows: 999,998 of 1,000,000\nfree places: 999,999 of 1,000,000\n");
    let other = folder.path("other.book");
    let written = format!("an empty day book of 1 row and 7 places for file numbers written to {other}\n");
    assert_eq!(run(&format!("book new {other} --places 7 --rows 1")), done(written));
    assert_eq!(fs::read(&other).unwrap(), book_file(26, &[], 15, &[]));
}

#[test]
fn what_is_there_is_not_overwritten_by_a_new_book() {
    let folder = Folder::new("there");
    let book = new(&folder, 5);
    let mine = folder.with("mine", b"mine");
    std::os::unix::fs::symlink("nowhere", folder.0.join("link")).unwrap();
    for path in [&book, &mine, &folder.path("link")] {
        let before = fs::read(path).ok();
        let expected = trouble(format!("{path}: it is there already, and stays as it is"));
        assert_eq!(run(&format!("book new {path}")), expected);
        assert_eq!(fs::read(path).ok(), before);
    }
    let path = folder.path("missing/day.book");
    let expected = trouble(format!("{path}: there is no folder {}", folder.path("missing")));
    assert_eq!(run(&format!("book new {path}")), expected);
    assert_eq!(run("book new .."), trouble("..: it names no file"));
    assert_eq!(folder.names(""), ["day.book", "link", "mine"]);
}

/// No command but `new` makes a book.
#[test]
fn books_that_are_not_there() {
    let folder = Folder::new("missing-book");
    let new = folder.path("new");
    let pipe = folder.path("pipe");
    assert!(Command::new("mkfifo").arg(&pipe).status().unwrap().success());
    for (path, words) in [
        (folder.path("none"), "there is no such file; icl book new makes a day book"),
        (folder.path("none/none"), "there is no such file; icl book new makes a day book"),
        (folder.path(""), "it is a folder, not a file"),
        (pipe, "it is no plain file"),
    ] {
        let expected = trouble(format!("{path}: {words}"));
        for words in [
            "enter BOOK samples/two-letters-with-pictures.x9 --number 1 --owner 1",
            "withdraw BOOK 1 --owner 1",
            "tidy BOOK",
            "show BOOK 1 --owner 1",
            "list BOOK --owner 2",
            "totals BOOK --owner 1",
            "grow BOOK --rows 5",
            "convert BOOK NEW --owner 1",
        ] {
            assert_eq!(
                run(&format!("book {}", words.replace("BOOK", &path).replace("NEW", &new))),
                expected,
                "{words}"
            );
        }
    }
    assert_eq!(folder.names(""), ["pipe"]);
}

/// Who has a link to the book changes the book itself.
#[test]
fn a_link_to_a_book() {
    let folder = Folder::new("link");
    let book = new(&folder, 5);
    fs::create_dir(folder.0.join("below")).unwrap();
    std::os::unix::fs::symlink("../day.book", folder.0.join("below/link")).unwrap();
    let link = folder.path("below/link");
    assert_eq!(run(&format!("book enter {link} {PICTURED} --number 1 --owner 1")).0, 0);
    assert_eq!(run(&format!("book grow {link} --rows 6")).0, 0);
    assert!(fs::symlink_metadata(&link).unwrap().is_symlink());
    assert_eq!(run(&format!("book withdraw {link} 1 --owner 1")).0, 0);
    assert_eq!(run(&format!("book tidy {link}")).0, 0);
    assert!(fs::symlink_metadata(&link).unwrap().is_symlink());
    assert_eq!(free(&book), "free rows: 5 of 6\nfree places: 4 of 5\n");
    assert_eq!(folder.names("below"), ["link"]);
}

/// A write that fails, here by a limit on the size of files: the old book stays, and nothing beside it.
#[cfg(target_os = "linux")]
#[test]
fn a_write_that_fails() {
    let folder = Folder::new("book-limit");
    let book = new(&folder, 1_000);
    // A thousand letters without detail, of 9 numbers each, the last six of them zeros, which are left out, and a place: 24 + 8 x (5 + 17 + 8994 + 3)
    // bytes, more than the 32 or 64 KiB that are allowed. (Fewer would stop an emulator too.)
    let letter = vec![letter_header('N'), letter_control(0, 0, 0, 0)];
    let file =
        file(&[vec![file_header()], vec![letter; 1_000].concat(), vec![file_control(1_000, 2_002, 0, 0)]].concat());
    let file = folder.with("letters.x9", &file);
    let before = fs::read(&book).unwrap();
    let words = format!("book enter {book} {file} --number 1 --owner 1");
    let limited = format!("ulimit -f 64; exec {} {words}", env!("CARGO_BIN_EXE_icl"));
    let (status, output, complaint) = outcome(Command::new("sh").arg("-c").arg(limited));
    assert_eq!((status, output.as_str()), (2, ""));
    assert!(complaint.starts_with(&format!("icl: {book}: File too large")), "{complaint}");
    assert_eq!(fs::read(&book).unwrap(), before);
    assert_eq!(folder.names(""), ["day.book", "letters.x9"]);
    assert_eq!(run(&words).0, 0);
    assert_eq!(fs::metadata(&book).unwrap().len(), 72_176);
}

/// A book that is marked read-only stays as it is, though its folder could be written. Root may write all, so that root tries it as nobody.
#[test]
fn a_book_that_may_not_be_written() {
    let folder = Folder::new("read-only");
    let book = new(&folder, 5);
    let (file, tool) = (folder.with("file.x9", &read(PICTURED)), folder.path("icl"));
    fs::copy(env!("CARGO_BIN_EXE_icl"), &tool).unwrap();
    let allow = |path: &str, mode| fs::set_permissions(path, fs::Permissions::from_mode(mode)).unwrap();
    allow(&folder.path(""), 0o777);
    allow(&tool, 0o755);
    allow(&file, 0o644);
    let before = fs::read(&book).unwrap();
    let as_nobody = |words: &[&str]| {
        let mut command = Command::new(&tool);
        command.args(words);
        if fs::metadata("/proc/self").is_ok_and(|own| std::os::unix::fs::MetadataExt::uid(&own) == 0) {
            command.uid(65534).gid(65534);
        }
        command.output()
    };
    let enter = ["book", "enter", &book, &file, "--number", "1", "--owner", "1"];
    allow(&book, 0o444);
    let Ok(output) = as_nobody(&enter) else { return eprintln!("not tried: nobody cannot be started here") };
    let said = String::from_utf8(output.stderr).unwrap();
    assert_eq!((output.status.code(), said), (Some(2), format!("icl: {book}: permission was denied\n")));
    assert_eq!(fs::read(&book).unwrap(), before);
    // It can be read all the same.
    assert_eq!(as_nobody(&["book", "totals", &book, "--owner", "1"]).unwrap().status.code(), Some(0));
    assert_eq!(folder.names(""), ["day.book", "file.x9", "icl"]);
}

/// Standard output that is closed or full: what is entered is entered.
#[cfg(target_os = "linux")]
#[test]
fn nowhere_to_tell() {
    let folder = Folder::new("untold");
    let book = new(&folder, 5);
    let full = fs::OpenOptions::new().write(true).open("/dev/full").unwrap();
    let output =
        icl(["book", "enter", &book, PICTURED, "--number", "1", "--owner", "1"]).stdout(full).output().unwrap();
    let said = String::from_utf8(output.stderr).unwrap();
    assert_eq!((output.status.code(), said.as_str()), (Some(2), "icl: standard output: no space is left\n"));
    assert_eq!(run(&format!("book show {book} 2 --owner 1")).0, 0);
}
