//! Damaged day books: whatever is wrong with the file, it is told as BOOK (number 20), and the file is never written to.

mod common;

use std::fs;

use common::{book_file, check_sum, read, run, Folder};

const FILE: &str = "peer/samples/sound-11-credits.x9";

/// The commands that take a book.
const COMMANDS: [&str; 11] = [
    "enter BOOK peer/samples/sound-2-checks.x9 --number 9 --owner 1",
    "withdraw BOOK 1 --owner 1",
    "withdraw BOOK 9 --owner 3",
    "tidy BOOK",
    "grow BOOK --rows 9",
    "grow BOOK --places 9",
    "show BOOK 1 --owner 2",
    "list BOOK --owner 1",
    "list BOOK --csv --owner 2",
    "totals BOOK --owner 1",
    "totals BOOK --owner 3",
];

/// A sound book with one entry in two rows and one file number in two places, of 24 + 8 x (5 + 26 + 3) bytes.
fn sound(folder: &Folder) -> Vec<u8> {
    let book = folder.path("sound.book");
    assert_eq!(run(&format!("book new {book} --rows 2")).0, 0);
    assert_eq!(run(&format!("book enter {book} {FILE} --number 7 --owner 1")).0, 0);
    let bytes = fs::read(&book).unwrap();
    assert_eq!(bytes.len(), 296);
    bytes
}

/// Runs a command on a book of these bytes, which is to be refused as BOOK and left as it is; gives the words.
fn words(folder: &Folder, bytes: &[u8], command: &str) -> String {
    let book = folder.with("damaged.book", bytes);
    let (status, output, complaint) = run(&format!("book {}", command.replace("BOOK", &book)));
    assert_eq!((status, output.as_str()), (1, ""), "{command}: {complaint}");
    assert_eq!(fs::read(&book).unwrap(), bytes, "{command}");
    let begin = format!("icl: {book}: refused 20 record 0 field 0 offset 0: BOOK: the day book is not sound; ");
    let words = complaint.strip_prefix(&begin).unwrap_or_else(|| panic!("{command}: {complaint}"));
    assert_eq!(words.lines().count(), 1);
    words.trim_end().to_string()
}

/// Every byte of a small book changed, in turn by one bit, to zero, and wholly. (`book_file` tries every value of every byte.)
#[test]
fn each_byte_changed() {
    let folder = Folder::new("bytes");
    let sound = sound(&folder);
    for at in 0..sound.len() {
        let mut bytes = sound.clone();
        bytes[at] = match at % 3 {
            0 => bytes[at] ^ (1 << (at % 8)),
            1 if bytes[at] != 0 => 0,
            _ => !bytes[at],
        };
        words(&folder, &bytes, COMMANDS[at % COMMANDS.len()]);
    }
    assert_eq!(folder.names(""), ["damaged.book", "sound.book"]);
}

/// A file whose check sum is right, with other numbers in the table, or, from 26 on, in the list behind it.
fn with_numbers(sound: &[u8], changes: &[(usize, u64)]) -> Vec<u8> {
    let mut bytes = sound[..sound.len() - 8].to_vec();
    changes.iter().for_each(|(place, number)| bytes[56 + 8 * place..][..8].copy_from_slice(&number.to_le_bytes()));
    let sum = check_sum(&bytes);
    bytes.extend(sum.to_le_bytes());
    bytes
}

#[test]
fn each_kind_of_damage() {
    let folder = Folder::new("kinds");
    let sound = sound(&folder);
    assert_eq!(with_numbers(&sound, &[]), sound);
    let first_line = "it does not begin with the line \"icl day book, version 4\"";
    let later = [b"icl day book, version 5\n", &sound[24..]].concat();
    let other_sum = [&sound[..288], &[0; 8]].concat();
    let sum = check_sum(&sound[..288]);
    let kinds = [
        (vec![], "the file is empty".to_string()),
        (vec![0; 296], first_line.to_string()),
        (read("README.md"), first_line.to_string()),
        (read(FILE), first_line.to_string()),
        (later, "it says that it is of version 5, and this icl reads version 4".to_string()),
        (sound[..24].to_vec(), "it ends after 24 bytes, before its numbers do".to_string()),
        (sound[..295].to_vec(), "it has 295 bytes, which is not what its counts ask for: 29 numbers".to_string()),
        (
            [&sound[..], b"\n"].concat(),
            "it has 297 bytes, which is not what its counts ask for: 29 numbers".to_string(),
        ),
        (other_sum, format!("its check sum is wrong: 0000000000000000 stands there, and its bytes come to {sum:016x}")),
        // Here the library judges. The letter has one bundle, 40005 debit cents and 112352 credit cents.
        (with_numbers(&sound, &[(0, 3)]), "rows claimed: 3; rows there: 2".to_string()),
        (
            with_numbers(&sound, &[(6, 40_004)]),
            "running total of debit cents of owner 1: 40004; its rows come to: 40005".to_string(),
        ),
        (with_numbers(&sound, &[(0, 0)]), "running total of bundles of owner 1: 1; its rows come to: 0".to_string()),
        (with_numbers(&sound, &[(17, 0)]), "running total of bundles of owner 1: 1; its rows come to: 0".to_string()),
        (
            with_numbers(&sound, &[(8, u64::MAX)]),
            "net position of owner 1 in cents: -1; its rows come to: 72347".to_string(),
        ),
        (with_numbers(&sound, &[(16, 5)]), "net position of owner 2 in cents: 5; its rows come to: 0".to_string()),
        (
            with_numbers(&sound, &[(15, 5)]),
            "running total of credit cents of owner 2: 5; its rows come to: 0".to_string(),
        ),
        (with_numbers(&sound, &[(26, 3)]), "places claimed for file numbers: 3; places there: 2".to_string()),
        // Of both, the table is told.
        (with_numbers(&sound, &[(26, u64::MAX), (0, 3)]), "rows claimed: 3; rows there: 2".to_string()),
    ];
    for (bytes, expected) in &kinds {
        for command in COMMANDS {
            assert_eq!(words(&folder, bytes, command), *expected, "{command}");
        }
    }
    // Not over a damaged one either.
    let book = folder.with("damaged.book", &kinds[6].0);
    assert_eq!(run(&format!("book new {book}")).0, 2);
    assert_eq!(fs::read(&book).unwrap(), kinds[6].0);
    // BOOK comes before all that is wrong with the file.
    let large = folder.sparse("large.x9", 300 << 20);
    for file in ["peer/samples/damaged-02-check-digit.x9", &large] {
        words(&folder, &kinds[9].0, &format!("enter BOOK {file} --number 7 --owner 2"));
        words(&folder, &kinds[6].0, &format!("enter BOOK {file} --number 7 --owner 2"));
    }
}

/// What the library does not look at, here behind the rows and the places claimed, may stand in a sound file: it is kept.
#[test]
fn numbers_that_are_not_looked_at() {
    let folder = Folder::new("other-numbers");
    let behind: Vec<u64> = (1..=20).collect();
    let numbers = [[0; 17].as_slice(), &behind].concat();
    let list = [0, 1, 7, 2, 8];
    let book = folder.with("other.book", &book_file(37, &numbers, 6, &list));
    assert_eq!(
        run(&format!("book tidy {book}")).1,
        format!("0 gaps closed in {book}\nfree rows: 2 of 2\nfree places: 2 of 2\n")
    );
    assert_eq!(fs::read(&book).unwrap(), book_file(37, &numbers, 6, &list));
    assert_eq!(run(&format!("book grow {book} --rows 3")).0, 0);
    assert_eq!(fs::read(&book).unwrap(), book_file(44, &numbers, 6, &list));
    assert_eq!(run(&format!("book grow {book} --places 3")).0, 0);
    assert_eq!(fs::read(&book).unwrap(), book_file(44, &numbers, 7, &list));
    assert_eq!(run(&format!("book list {book} --json --owner 1")).1, "[]\n");
}

/// A file that is longer than any book, of which no more is read.
#[test]
fn a_file_too_long() {
    let folder = Folder::new("long");
    let book = folder.with("long.book", b"icl day book, version 4\n");
    fs::File::options().write(true).open(&book).unwrap().set_len(300 << 20).unwrap();
    for command in ["list BOOK --owner 1", "enter BOOK peer/samples/sound-2-checks.x9 --number 1 --owner 1"] {
        let (status, _, complaint) = run(&format!("book {}", command.replace("BOOK", &book)));
        assert_eq!(status, 1);
        assert!(complaint.ends_with("; it is longer than 88000208 bytes, and no day book is\n"), "{complaint}");
    }
    assert_eq!(fs::metadata(&book).unwrap().len(), 300 << 20);
}
