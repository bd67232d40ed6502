//! Day books of older versions: they are refused with the command that writes them anew, which a person asks for, and which leaves them as they are.

mod common;

use std::fs;
use std::os::unix::fs::PermissionsExt;

use common::{below_zero, book_file, check_sum, older_file, run, Folder};

const PICTURED: &str = "samples/two-letters-with-pictures.x9";
const CREDITED: &str = "samples/credits-with-pictures.x9";

/// The head that request 6 gave a book with the two letters of a sample: rows claimed, last entry number, running totals; and its rows, with the
/// letters' figures by peer/reader/src/pictures.rs.
const HEAD: [u64; 17] = [2, 2, 3, 4, 0, 8, 47_557, 0, 0, 0, 0, 0, 0, 0, 0, 0, 0];
const ROWS: [[u64; 9]; 2] = [[1, 1, 7, 2, 3, 0, 6, 16_557, 0], [1, 2, 7, 1, 1, 0, 2, 31_000, 0]];

/// A book of version 1 with five rows, two of which are claimed.
fn version_1() -> Vec<u8> {
    older_file(1, 17 + 5 * 9, &[HEAD.as_slice(), &ROWS.concat()].concat())
}

/// A book of version 2 with five rows, three of which are claimed: those rows as owner 2's, and a letter of two checks of owner 1's between them. In the
/// places of the nets stands what may stand there.
fn version_2() -> Vec<u8> {
    let head = [3, 4, 1, 2, 0, 0, 350, 0, 99, 2, 3, 4, 0, 8, 47_557, 0, u64::MAX];
    older_file(2, 62, &[head.as_slice(), &rows_of_both()].concat())
}

fn rows_of_both() -> Vec<u64> {
    [of_owner(2, ROWS[0]), [1, 4, 7, 1, 2, 0, 0, 350, 0], of_owner(2, ROWS[1])].concat()
}

/// The same with nets.
fn numbers_with_nets() -> Vec<u64> {
    let head = [3, 4, 1, 2, 0, 0, 350, 0, below_zero(350), 2, 3, 4, 0, 8, 47_557, 0, below_zero(47_557)];
    [head.as_slice(), &rows_of_both()].concat()
}

/// A book of version 3 is that.
fn version_3() -> Vec<u8> {
    older_file(3, 62, &numbers_with_nets())
}

/// What becomes of either: the file number of each owner is taken once, in the order of the rows, and there are as many places as rows.
fn with_owners_anew() -> Vec<u8> {
    book_file(62, &numbers_with_nets(), 11, &[2, 2, 7, 1, 7])
}

fn of_owner(owner: u64, mut row: [u64; 9]) -> [u64; 9] {
    row[0] = owner;
    row
}

fn done(output: impl Into<String>) -> (i32, String, String) {
    (0, output.into(), String::new())
}

fn refused(complaint: impl std::fmt::Display) -> (i32, String, String) {
    (1, String::new(), format!("icl: {complaint}\n"))
}

fn trouble(complaint: impl std::fmt::Display) -> (i32, String, String) {
    (2, String::new(), format!("icl: {complaint}\n"))
}

/// No command takes an older book for one of today, and none changes it.
#[test]
fn older_books_are_refused() {
    let folder = Folder::new("older");
    let book = folder.path("day.book");
    let first = format!(
        "it is of version 1, whose entries have no owner, and this icl keeps version 4; icl book convert {book} NEW --owner N \
         writes it anew as NEW, with all its entries given to owner N, which is 1 or 2"
    );
    let second = format!(
        "it is of version 2, which has no net positions, and this icl keeps version 4; icl book convert {book} NEW \
         writes it anew as NEW"
    );
    let third = format!(
        "it is of version 3, which has no list of the file numbers taken, and this icl keeps version 4; \
         icl book convert {book} NEW writes it anew as NEW"
    );
    for (bytes, words) in [(version_1(), first), (version_2(), second), (version_3(), third)] {
        fs::write(&book, &bytes).unwrap();
        let expected = refused(format!("{book}: refused 20 record 0 field 0 offset 0: BOOK: {words}"));
        for command in [
            format!("enter {book} {PICTURED} --number 9 --owner 1"),
            format!("enter {book} peer/samples/damaged-02-check-digit.x9 --number 9 --owner 3"),
            format!("withdraw {book} 1 --owner 1"),
            format!("tidy {book}"),
            format!("grow {book} --rows 9"),
            format!("show {book} 1 --owner 1"),
            format!("list {book} --owner 2"),
            format!("totals {book} --owner 1"),
        ] {
            assert_eq!(run(&format!("book {command}")), expected, "{command}");
        }
        assert_eq!(fs::read(&book).unwrap(), bytes);
        assert_eq!(folder.names(""), ["day.book"]);
    }
}

/// What is written is what entering for that owner would have written, and goes on as that owner's.
#[test]
fn all_entries_to_one_owner() {
    for (owner, other) in [(1, 2), (2, 1)] {
        let folder = Folder::new(&format!("owner-{owner}"));
        let [old, new, grown] = ["old.book", "new.book", "grown.book"].map(|name| folder.path(name));
        fs::write(&old, version_1()).unwrap();
        let entries =
            if owner == 1 { "2 entries of owner 1, 0 entries of" } else { "0 entries of owner 1, 2 entries of" };
        let written = format!(
            "{new}, version 4, written from {old}, version 1, which stays as it is\n{entries} owner 2\n\
             free rows: 3 of 5\nfree places: 4 of 5\n"
        );
        assert_eq!(run(&format!("book convert {old} {new} --owner {owner}")), done(written));
        assert_eq!(fs::read(&old).unwrap(), version_1());
        let mut head = [0; 17];
        let block = if owner == 1 { 1 } else { 9 };
        head[block..block + 7].copy_from_slice(&HEAD[1..8]);
        (head[0], head[block + 7]) = (2, below_zero(47_557));
        let rows = ROWS.map(|row| of_owner(owner, row)).concat();
        assert_eq!(fs::read(&new).unwrap(), book_file(62, &[head.as_slice(), &rows].concat(), 11, &[1, owner, 7]));
        assert_eq!(run(&format!("book new {grown} --rows 5")).0, 0);
        assert_eq!(run(&format!("book enter {grown} {PICTURED} --number 7 --owner {owner}")).0, 0);
        assert_eq!(fs::read(&new).unwrap(), fs::read(&grown).unwrap());
        // The entries, and none of the other owner.
        let totals = format!(
            "2 entries of owner {owner}: 3 bundles, 8 views, 4 debits of 475.57, 0 credits of 0.00\n\
             net position: -475.57\nfree rows: 3 of 5\nfree places: 4 of 5\n"
        );
        assert_eq!(run(&format!("book totals {new} --owner {owner}")), done(totals));
        assert_eq!(run(&format!("book list {new} --json --owner {other}")), done("[]\n"));
        assert_eq!(run(&format!("book enter {new} {CREDITED} --number 7 --owner {owner}")).0, 1);
        let entered = run(&format!("book enter {new} peer/samples/sound-2-checks.x9 --number 8 --owner {owner}"));
        let figures = "1 bundle, 0 views, 2 debits of 3.50, 0 credits of 0.00";
        let line = format!("  entry 3 of owner {owner}, file number 8: {figures}\n");
        assert_eq!(entered, done(format!("1 cash letter entered into {new} for owner {owner}\n{line}")));
        assert_eq!(folder.names(""), ["grown.book", "new.book", "old.book"]);
    }
}

/// A book with owners gets what it lacks, and each owner goes on where it was.
#[test]
fn owners_keep_their_entries() {
    for (version, bytes) in [(2, version_2()), (3, version_3())] {
        let folder = Folder::new(&format!("owners-keep-{version}"));
        let (old, new) = (folder.with("old.book", &bytes), folder.path("new.book"));
        let written = format!(
            "{new}, version 4, written from {old}, version {version}, which stays as it is\n\
             1 entry of owner 1, 2 entries of owner 2\nfree rows: 2 of 5\nfree places: 3 of 5\n"
        );
        assert_eq!(run(&format!("book convert {old} {new}")), done(written));
        assert_eq!(fs::read(&old).unwrap(), bytes);
        assert_eq!(fs::read(&new).unwrap(), with_owners_anew());
        // What was taken is taken.
        for owner in [1, 2] {
            assert!(run(&format!("book enter {new} {CREDITED} --number 7 --owner {owner}")).2.contains("DUPLICATE"));
        }
        let entered = run(&format!("book enter {new} {CREDITED} --number 8 --owner 1"));
        let begin = format!("2 cash letters entered into {new} for owner 1\n  entry 5 of owner 1, ");
        assert!(entered.1.starts_with(&begin));
        // 1643.64 - 478.07 - 3.50, and -475.57.
        for (owner, net) in [(1, "net position: +1,162.07"), (2, "net position: -475.57")] {
            assert_eq!(run(&format!("book totals {new} --owner {owner}")).1.lines().nth(1), Some(net));
        }
        assert_eq!(run(&format!("book withdraw {new} 1 --owner 2")).0, 0);
    }
}

/// Whether `--owner` is asked for is the old book's to say.
#[test]
fn owners_that_are_named_or_not() {
    let folder = Folder::new("named");
    let [old, new] = ["old.book", "new.book"].map(|name| folder.path(name));
    for (bytes, option, words) in [
        (version_1(), "", "version 1, whose entries have no owner: --owner N is missing, N being 1 or 2"),
        (version_2(), " --owner 1", "version 2, whose entries have owners: --owner is for version 1 alone"),
        (version_3(), " --owner 2", "version 3, whose entries have owners: --owner is for version 1 alone"),
    ] {
        fs::write(&old, &bytes).unwrap();
        let expected = trouble(format!("{old} is of {words} (icl --help tells more)"));
        assert_eq!(run(&format!("book convert {old} {new}{option}")), expected);
        assert_eq!(folder.names(""), ["old.book"]);
    }
}

/// Empty and full ones, and one with numbers that version 1 did not look at.
#[test]
fn all_sorts_of_older_books() {
    let folder = Folder::new("sorts");
    let convert = |name: &str, bytes: &[u8]| {
        let (old, new) = (folder.with(name, bytes), folder.path(&format!("new-{name}")));
        let option = if bytes.starts_with(b"icl day book, version 1") { " --owner 2" } else { "" };
        let (status, output, complaint) = run(&format!("book convert {old} {new}{option}"));
        assert_eq!((status, complaint.as_str()), (0, ""), "{name}");
        (output.lines().skip(1).collect::<Vec<_>>().join("; "), fs::read(new).unwrap())
    };
    let told = |entries: u64, rows: &str, places: &str| {
        let entries = format!("0 entries of owner 1, {entries} entries of owner 2");
        format!("{entries}; free rows: {rows}; free places: {places}")
    };
    for version in [1, 2, 3] {
        let free = convert(&format!("free-{version}"), &older_file(version, 17 + 9 * 10_000, &[]));
        let empty = book_file(90_017, &[], 20_001, &[]);
        assert_eq!(free, (told(0, "10,000 of 10,000", "10,000 of 10,000"), empty));
        // No number at all: before version 3 it gets its head, and still has no rows.
        let bare = convert(&format!("bare-{version}"), &older_file(version, 0, &[]));
        let head = if version < 3 { 17 } else { 0 };
        assert_eq!(bare, (told(0, "0 of 0", "0 of 0"), book_file(head, &[], 1, &[])));
    }
    let one = [HEAD.as_slice(), &ROWS.concat()].concat();
    let head = [[2].as_slice(), &[0; 8], &HEAD[1..8], &[below_zero(47_557)]].concat();
    let moved = [head, ROWS.map(|row| of_owner(2, row)).concat()].concat();
    let expected = (told(2, "0 of 2", "1 of 2"), book_file(35, &moved, 5, &[1, 2, 7]));
    assert_eq!(convert("full", &older_file(1, 35, &one)), expected);
    let mut other = one.clone();
    (8..17).for_each(|place| other[place] = 99);
    (other[17], other[26]) = (0, u64::MAX);
    assert_eq!(convert("other", &older_file(1, 35, &other)), expected);
    // Each entry of a file of its own, and one file number of three entries; a row of no one takes none.
    let row = |owner: u64, entry: u64, file_number: u64| [owner, entry, file_number, 0, 0, 0, 0, 0, 0];
    let rows = [row(2, 1, 5), row(2, 2, 0), row(3, 1, 9), row(2, 3, 5), row(2, 4, u64::MAX), row(2, 5, 5)];
    let mut head = [0; 17];
    (head[0], head[9]) = (6, 5);
    let numbers = [head.as_slice(), &rows.concat()].concat();
    let expected = (told(5, "1 of 6", "3 of 6"), book_file(71, &numbers, 13, &[3, 2, 5, 2, 0, 2, u64::MAX]));
    assert_eq!(convert("several", &older_file(3, 71, &numbers)), expected);
}

/// What is damaged, what is of today, and what is no book: nothing is written.
#[test]
fn what_is_not_converted() {
    let folder = Folder::new("not-converted");
    let (old, new) = (folder.path("old.book"), folder.path("new.book"));
    let convert = |bytes: &[u8], option: &str| {
        fs::write(&old, bytes).unwrap();
        let outcome = run(&format!("book convert {old} {new}{option}"));
        assert_eq!(fs::read(&old).unwrap(), bytes);
        assert_eq!(folder.names(""), ["old.book"]);
        outcome
    };
    let line =
        |number: u64, words: &str| refused(format!("{old}: refused {number} record 0 field 0 offset 0: {words}"));
    let damaged = |words: &str| line(20, &format!("BOOK: the day book is not sound; {words}"));
    let numbers = [HEAD.as_slice(), &ROWS.concat()].concat();
    let with = |version: u64, place: usize, number: u64| {
        let mut numbers = numbers.clone();
        numbers[place] = number;
        older_file(version, 62, &numbers)
    };
    for (version, option) in [(1, " --owner 1"), (1, " --owner 2"), (1, " --owner 3"), (2, ""), (3, "")] {
        let sound = older_file(version, 62, &numbers);
        let mut changed = sound.clone();
        changed[60] ^= 4;
        let (stated, found) = (check_sum(&sound[..sound.len() - 8]), check_sum(&changed[..sound.len() - 8]));
        let sums = format!("its check sum is wrong: {stated:016x} stands there, and its bytes come to {found:016x}");
        assert_eq!(convert(b"", option), damaged("the file is empty"));
        let first_line = "it does not begin with the line \"icl day book, version 4\"";
        assert_eq!(convert(b"anything", option), damaged(first_line));
        assert_eq!(convert(&sound[..24], option), damaged("it ends after 24 bytes, before its numbers do"));
        assert_eq!(convert(&changed, option), damaged(&sums));
        // What the library finds, in words of the first owner, whose the entries of version 1 are taken for.
        assert_eq!(convert(&with(version, 0, 6), option), damaged("rows claimed: 6; rows there: 5"));
        let total = "running total of debit cents of owner 1: 47558; its rows come to: 47557";
        assert_eq!(convert(&with(version, 6, 47_558), option), damaged(total));
        let later = "it says that it is of version 5, and this icl reads version 4";
        assert_eq!(convert(&with(5, 0, 2), option), damaged(later));
        let now = format!("{old} is of version 4 already, and needs no conversion (icl --help tells more)");
        assert_eq!(convert(&book_file(62, &numbers, 11, &[1, 1, 7]), option), trouble(now));
    }
    // Of version 3 the net positions are asked for too.
    let net = "net position of owner 1 in cents: 5; its rows come to: -47557";
    assert_eq!(convert(&with(3, 8, 5), ""), damaged(net));
    // An owner that is none, after BOOK.
    let words = "NOENTRY: the day book has no such entry; owner 3; a day book has owners 1 and 2";
    assert_eq!(convert(&version_1(), " --owner 3"), line(15, words));
    // A net that 64 bits do not hold: two letters of 2^63 - 1 credit cents.
    let most = i64::MAX as u64;
    let (mut head, mut row) = ([0; 17], [0; 9]);
    (head[0], head[7], row[0], row[8]) = (2, 2 * most, 1, most);
    let rich = [head.as_slice(), &row, &row].concat();
    let net =
        "net position of owner 1 in cents: -2; its rows come to: 18446744073709551614, which no net position holds";
    assert_eq!(convert(&older_file(2, 35, &rich), ""), damaged(net));
    assert_eq!(convert(&older_file(1, 35, &rich), " --owner 2"), damaged(net));
}

#[test]
fn what_is_there_is_not_overwritten() {
    let folder = Folder::new("convert-there");
    let old = folder.with("old.book", &version_2());
    let mine = folder.with("mine", b"mine");
    std::os::unix::fs::symlink("nowhere", folder.0.join("link")).unwrap();
    for path in [&old, &mine, &folder.path("link")] {
        let expected = trouble(format!("{path}: it is there already, and stays as it is"));
        assert_eq!(run(&format!("book convert {old} {path}")), expected);
    }
    assert_eq!((fs::read(&old).unwrap(), fs::read(&mine).unwrap()), (version_2(), b"mine".to_vec()));
    let path = folder.path("missing/new.book");
    let expected = trouble(format!("{path}: there is no folder {}", folder.path("missing")));
    assert_eq!(run(&format!("book convert {old} {path}")), expected);
    assert_eq!(folder.names(""), ["link", "mine", "old.book"]);
}

/// Who may read the old one may read the new one, and no one else; it is to be written, though the old one be read-only.
#[test]
fn rights() {
    let folder = Folder::new("convert-rights");
    for (mode, expected) in [(0o600, 0o600), (0o640, 0o640), (0o664, 0o664), (0o440, 0o640), (0o400, 0o600)] {
        let (old, new) = (folder.with("old.book", &version_2()), folder.path("new.book"));
        fs::set_permissions(&old, fs::Permissions::from_mode(mode)).unwrap();
        assert_eq!(run(&format!("book convert {old} {new}")).0, 0);
        assert_eq!(fs::metadata(&new).unwrap().permissions().mode() & 0o7777, expected, "{mode:o}");
        fs::remove_file(&new).unwrap();
        fs::remove_file(&old).unwrap();
    }
}
