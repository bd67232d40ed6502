//! Files in EBCDIC (request 5): every command shows them as text, and tells the set.

mod common;

use std::fs;

use common::{icl, outcome, piped, read, run, Folder};
use peer_reader::copy::to_ebcdic;

const IN_ASCII: &str = "samples/two-letters-with-pictures.x9";
const IN_EBCDIC: &str = "samples/ebcdic-with-pictures.x9";
const SET: &str = "character set: EBCDIC (code page 037)";

/// Whether a sample of peer/samples/ebcdic has F0 F1 at its bytes 5 and 6. Two of the damaged ones lack them.
fn is_ebcdic(name: &str) -> bool {
    !["damaged-4-half-turned.x9", "damaged-6-five-bytes.x9"].contains(&name)
}

#[test]
fn check_prints_the_expected_line_and_the_set_of_every_sample() {
    let expected = String::from_utf8(read("peer/samples/ebcdic/expected.txt")).unwrap();
    let mut all = vec!["check".to_string(), IN_ASCII.to_string()];
    let mut lines = format!("{IN_ASCII}: {}\n", peer_reader::pictures::LINE);
    for line in expected.lines() {
        let (name, line) = line.split_once('\t').unwrap();
        let file = format!("peer/samples/ebcdic/{name}");
        let status = if line.starts_with("accepted") { 0 } else { 1 };
        let set = if is_ebcdic(name) { format!("  {SET}\n") } else { String::new() };
        assert_eq!(run(&format!("check {file}")), (status, format!("{line}\n{set}"), String::new()), "{name}");
        lines.push_str(&format!("{file}: {line}\n{set}"));
        all.push(file);
    }
    assert_eq!(lines.matches(SET).count(), 12);
    assert_eq!(outcome(&mut icl(all)), (1, lines, String::new()));
}

/// The sample for users is the one with pictures, translated by the independent side.
#[test]
fn the_sample_is_the_translated_one() {
    assert_eq!(read(IN_EBCDIC), to_ebcdic(&peer_reader::pictures::pictured()));
    let line = peer_reader::pictures::LINE;
    assert_eq!(run(&format!("check {IN_EBCDIC}")), (0, format!("{line}\n  {SET}\n"), String::new()));
}

#[test]
fn check_explains() {
    let lines = [
        "accepted records 14 letters 1 bundles 1 items 3 views 0 debit 72",
        "  character set: EBCDIC (code page 037)",
        "  ACCEPTED: all rules hold",
        "  14 records, 1 cash letter, 1 bundle, 3 items, 0 views, 2 debits of 0.72, 1 credit of 0.70",
    ];
    explained("peer/samples/ebcdic/sound-3-returns-and-credits.x9", 0, &lines);
    // The 70 stands at 5 x 84 + 143 = 563, its field 4 at position 19: 563 + 4 + 18 = 585.
    let lines = [
        "refused 9 record 7 field 4 offset 563",
        "  character set: EBCDIC (code page 037)",
        "  TOTAL: a control field is not what its part of the file adds up to",
        "  record 7, Bundle Control Record (type 70), at offset 563",
        "  field 4, MICR Valid Debit Total Amount, at offset 585",
        "  found \"000000000000\"",
        "  cents of the items with MICR Valid Indicator 1 in the bundle: 150",
        "  no bytes that follow can mend it: the fault stands in the bytes up to the end of record 7, before offset 647",
    ];
    explained("peer/samples/ebcdic/damaged-8-micr-total.x9", 1, &lines);
    let lines = [
        "refused 8 record 5 field 1 offset 336",
        "  character set: EBCDIC (code page 037)",
        "  LINK: a field or record disagrees with an earlier one",
        "  record 5, Image View Detail Record (type 50), at offset 336",
        "  field 1, Record Type, at offset 340",
        "  found \"50\"",
        "  field 8, Cash Letter Record Type Indicator, of record 2 is \"E\": no view may come",
        "  no bytes that follow can mend it: the fault stands in the bytes up to the end of record 5, before offset 420",
    ];
    explained("peer/samples/ebcdic/damaged-7-view-under-e.x9", 1, &lines);
}

fn explained(file: &str, status: i32, lines: &[&str]) {
    let output = format!("{}\n", lines.join("\n"));
    assert_eq!(run(&format!("check --explain {file}")), (status, output, String::new()));
}

/// A byte without a counterpart: which it is, where it stands, and why it is refused. 99.6 stands at 257 + 4 + 40 = 301.
#[test]
fn check_explains_a_byte_without_a_character() {
    let lines = [
        "refused 7 record 4 field 6 offset 257",
        "  character set: EBCDIC (code page 037)",
        "  FIELD: a field breaks its data type or its defined values",
        "  record 4, File Control Record (type 99), at offset 257",
        "  field 6, Immediate Origin Contact Name, at offset 301",
        "  found \"\\x4A             \"",
        "  asked: printable characters",
        "  the byte 4A at offset 301: code page 037 has no character of clause 5 for it",
        "  no bytes that follow can mend it: the fault stands in the bytes up to the end of record 4, before offset 341",
    ];
    explained("peer/samples/ebcdic/damaged-1-no-counterpart.x9", 1, &lines);
    let lines = [
        "refused 5 record 2 field 0 offset 84",
        "  character set: EBCDIC (code page 037)",
        "  TYPE: the record's first two characters name no type that is read here",
        "  record 2, at offset 84",
        "  found in place of the type: the bytes 31 30 (hexadecimal)",
        "  the byte 31 at offset 88: code page 037 has no character of clause 5 for it, nor for 1 more byte here",
        "  these are digits in ASCII, and the file is read as EBCDIC, since its bytes 5 and 6 are F0 F1",
        "  no bytes that follow can mend it: the fault stands in the bytes up to the end of record 2, before offset 168",
    ];
    explained("peer/samples/ebcdic/damaged-2-ascii-record.x9", 1, &lines);
}

#[test]
fn rows_and_tree_are_those_of_the_ascii_file() {
    let credits = "samples/credits-with-pictures.x9";
    let folder = Folder::new("alike");
    let credits_in_ebcdic = folder.with("credits", &to_ebcdic(&read(credits)));
    for (ascii, ebcdic) in [(IN_ASCII, IN_EBCDIC), (credits, &credits_in_ebcdic)] {
        for command in ["rows", "rows --csv", "rows --json"] {
            let (in_ascii, mut in_ebcdic) = (run(&format!("{command} {ascii}")), run(&format!("{command} {ebcdic}")));
            in_ebcdic.1 = in_ebcdic.1.replace(ebcdic, ascii);
            assert_eq!((in_ascii.0, &in_ascii), (0, &in_ebcdic), "{command}");
        }
        let (_, in_ascii, _) = run(&format!("tree {ascii}"));
        let (first, others) = in_ascii.split_once('\n').unwrap();
        let in_ebcdic = (0, format!("{first}\n    {SET}\n{others}"), String::new());
        assert_eq!(run(&format!("tree {ebcdic}")), in_ebcdic);
        assert_eq!(piped("tree -", &read(ebcdic)), in_ebcdic);
    }
}

/// Pictures are never translated, and their endings come of the format's characters.
#[test]
fn pictures_are_those_of_the_ascii_file() {
    let folder = Folder::new("translated");
    let [from_ascii, from_ebcdic] = ["ascii", "ebcdic"].map(|name| folder.path(name));
    assert_eq!(run(&format!("pictures {IN_ASCII} {from_ascii}")).0, 0);
    // 179 + 4 x 188 + 3 x 196, by tests/pictures.rs.
    let said = format!("8 pictures (1,519 bytes) written to {from_ebcdic}\n");
    assert_eq!(run(&format!("pictures {IN_EBCDIC} {from_ebcdic}")), (0, said, String::new()));
    let names = folder.all("ebcdic");
    assert_eq!((names.len(), &names), (8, &folder.all("ascii")));
    assert!(names.iter().all(|name| name.ends_with(".tif")));
    for name in names {
        let bytes = |from: &str| fs::read(folder.0.join(from).join(&name)).unwrap();
        assert_eq!(bytes("ascii"), bytes("ebcdic"), "{name}");
    }
    let one = |file: &str| icl(["picture", file, "623", "-o", "-"]).output().unwrap().stdout;
    assert_eq!((one(IN_ASCII).len(), one(IN_ASCII)), (179, one(IN_EBCDIC)));
}

#[test]
fn refusals_on_standard_error_tell_the_set() {
    let folder = Folder::new("told");
    let file = "peer/samples/ebcdic/damaged-1-no-counterpart.x9";
    let complaint = format!(
        "icl: {file}: refused 7 record 4 field 6 offset 257: FIELD: a field breaks its data type or its defined values; record 4, \
         File Control Record (type 99), at offset 257; field 6, Immediate Origin Contact Name, at offset 301; found \
         \"\\x4A             \"; asked: printable characters; the byte 4A at offset 301: code page 037 has no character of clause 5 \
         for it; {SET}\n"
    );
    for command in [format!("rows {file}"), format!("tree {file}"), format!("pictures {file} {}", folder.path("out"))] {
        assert_eq!(run(&command), (1, String::new(), complaint.clone()), "{command}");
    }
    let complaint = format!(
        "icl: {IN_EBCDIC}: refused 5 record 0 field 0 offset 252: TYPE: the record's first two characters name no type that is read \
         here; the record, Check Detail Record (type 25), at offset 252; found in place of the type: \"25\"; a picture stands in an \
         Image View Data Record (type 52) only; {SET}\n"
    );
    let out = folder.path("out");
    assert_eq!(run(&format!("picture {IN_EBCDIC} 252 -o {out}")), (1, String::new(), complaint));
    assert_eq!(folder.names(""), [""; 0]);
}

/// Whatever stands in an EBCDIC file, what is printed of it is text: the characters of clause 5 and ends of lines.
#[test]
fn all_that_is_printed_is_text() {
    let folder = Folder::new("text");
    let mut words = vec!["check".to_string(), "--explain".to_string()];
    let mut accepted = Vec::new();
    for index in 0..400 {
        let made = peer_reader::ebcdic::file(185, index).bytes;
        if made.len() <= 65_536 {
            let line = peer_reader::line::line(&made);
            words.push(folder.with(&format!("{index}.x9"), &made));
            accepted.extend(words.last().filter(|_| line.starts_with("accepted")).cloned());
        }
    }
    let (status, output, complaint) = outcome(&mut icl(&words));
    assert_eq!((status, complaint.as_str()), (1, ""));
    assert!(
        output.matches(SET).count() > 250 && output.contains(": code page 037 has no character of clause 5 for it")
    );
    assert!(accepted.len() > 20);
    let trees = accepted.iter().map(|file| run(&format!("tree {file}")).1);
    for text in trees.chain([output]) {
        assert!(text.chars().all(|letter| matches!(letter, ' '..='~' | '\n')), "{}", text.escape_debug());
    }
}
