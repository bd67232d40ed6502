//! `icl show`: one record field by field; whole outputs. Positions, names and codes are those of the standard's clauses.

mod common;

use common::{icl, outcome, piped, read, run, Folder};

const PICTURED: &str = "samples/two-letters-with-pictures.x9";
const EBCDIC: &str = "samples/ebcdic-with-pictures.x9";
const DAMAGED: &str = "peer/samples/damaged-06-item-count.x9";
const CHECK_DIGIT: &str = "peer/samples/damaged-02-check-digit.x9";

/// The first check of the sample with pictures, by clause 10.
const CHECK: &str = r#"record 4, at offset 252: Check Detail Record (type 25), 80 bytes
    cash letter 1, bundle 1, item 1
    every rule holds: the file is accepted
field  position  name                                    characters              rule   meaning
    1       1-2  Record Type                             "25"                    holds  Check Detail Record
    2      3-17  Auxiliary On-Us                         "               "       holds  blank
    3        18  External Processing Code                " "                     holds  blank
    4     19-27  Payor Bank Routing Number               "111111118"             holds  Federal Reserve prefix 1111, ABA institution identifier 1111, check digit 8
    5     28-47  On-Us                                   "                    "  holds  blank
    6     48-57  Item Amount                             "0000012550"            holds  125.50
    7     58-72  ECE Institution Item Sequence Number    "000000000000101"       holds  101
    8        73  Documentation Type Indicator            " "                     holds  blank
    9        74  Electronic Return Acceptance Indicator  " "                     holds  blank
   10        75  MICR Valid Indicator                    "1"                     holds  good read, On-Us field present
   11        76  BOFD Indicator                          " "                     holds  blank
   12     77-78  Check Detail Record Addendum Count      "02"                    holds  2
   13        79  Correction Indicator                    " "                     holds  blank
   14        80  Archive Type Indicator                  " "                     holds  blank
"#;

#[test]
fn a_record_of_an_accepted_file() {
    for place in ["4", "252", "@252"] {
        assert_eq!(run(&format!("show {PICTURED} {place}")), (0, CHECK.to_string(), String::new()), "{place}");
    }
    assert_eq!(piped("show - 4", &read(PICTURED)), (0, CHECK.to_string(), String::new()));
    // In EBCDIC the same values, and the set.
    let (first, others) = CHECK.split_once('\n').unwrap();
    let expected = format!("{first}\n    character set: EBCDIC (code page 037)\n{others}");
    assert_eq!(run(&format!("show {EBCDIC} 4")), (0, expected, String::new()));
}

/// The first picture's record, by clause 22: 179 bytes of image data from position 140 on.
#[test]
fn a_record_with_a_picture() {
    let (status, output, complaint) = run(&format!("show {PICTURED} 623"));
    assert_eq!((status, complaint.as_str()), (0, ""));
    let lines: Vec<&str> = output.lines().collect();
    assert_eq!(lines.len(), 4 + 28);
    assert_eq!(lines[0], "record 8, at offset 623: Image View Data Record (type 52), 318 bytes");
    let name = |name: &str| format!("{name:<55}");
    for (place, line) in [
        (6, format!("    3     12-19  {}  \"20240115\"          holds  15 January 2024", name("Bundle Business Date"))),
        (12, format!("    9        85  {}  \"0\"                 holds  clipping information not present", name("Clipping Origin"))),
        (23, format!("   20   128-134  {}  \"0000179\"           holds  179 bytes", name("Length of Image Data"))),
        (25, format!("   22      none  {}  none                holds", name("Image Reference Key"))),
        (30, format!("   27   140-318  {}  179 bytes           holds  from offset 766; icl picture takes it out by offset 623", name("Image Data"))),
    ] {
        assert_eq!(lines[place], line);
    }
}

/// The record at fault: the sum that is wrong, and the fields as they hold alone.
#[test]
fn the_record_at_fault() {
    let expected = r#"record 10, at offset 818: Bundle Control Record (type 70), 80 bytes
    the file is refused 9 record 10 field 2 offset 818, here
field  position  name                            characters              rule         meaning
    1       1-2  Record Type                     "70"                    holds alone  Bundle Control Record
    2       3-6  Bundle Debit Item Count         "0003"                  broken       3
           TOTAL: a control field is not what its part of the file adds up to
           debit items in the bundle: 2
    3      7-18  Bundle Debit Total Amount       "000000000350"          holds alone  3.50
    4     19-30  MICR Valid Debit Total Amount   "            "          holds alone  blank
    5     31-35  Bundle Image View Record Count  "00000"                 holds alone  0
    6     36-39  Bundle Credit Item Count        "0000"                  holds alone  0
    7     40-51  Bundle Credit Total Amount      "000000000000"          holds alone  0.00
    8     52-60  User Field                      "         "             holds alone  blank
    9     61-80  Reserved                        "                    "  holds alone  blank
"#;
    assert_eq!(run(&format!("show {DAMAGED} 10")), (1, expected.to_string(), String::new()));
}

/// Before the fault every rule holds; behind it a record is judged alone, and all its fields are.
#[test]
fn before_and_behind_the_fault() {
    let folder = Folder::new("behind");
    let (status, output, _) = run(&format!("show {DAMAGED} 1"));
    let lines: Vec<&str> = output.lines().collect();
    assert_eq!(
        (status, lines[1]),
        (1, "    no fault was found up to this record: the file is refused 9 record 10 field 2 offset 818")
    );
    assert!(lines[3].contains("  holds  File Header Record"), "{}", lines[3]);
    // The year of the 10 (positions 31 to 34) is wrong already; in the 20 behind it, at 168, the date (23 to 30) and the time (64 to 67) are too.
    let mut file = read(DAMAGED);
    file[84 + 4 + 30..][..4].copy_from_slice(b"1992");
    file[168 + 4 + 22..][..8].copy_from_slice(b"20241332");
    file[168 + 4 + 63..][..4].copy_from_slice(b"2460");
    let file = folder.with("file", &file);
    let (status, output, _) = run(&format!("show {file} 3"));
    let lines: Vec<&str> = output.lines().collect();
    assert_eq!(
        (status, lines[1]),
        (1, "    this record is judged alone: the file is refused 7 record 2 field 6 offset 84")
    );
    let close = |line: &&str| line.split_whitespace().collect::<Vec<_>>().join(" ");
    let broken: Vec<String> = lines.iter().filter(|line| line.contains("  broken")).map(close).collect();
    let expected =
        ["5 23-30 Bundle Business Date \"20241332\" broken", "11 64-67 Bundle Creation Time \"2460\" broken 24:60"];
    assert_eq!(broken, expected, "{output}");
    let asked = "           asked: a date YYYYMMDD: year 1993 to 9999, month 01 to 12, day 01 to 31";
    assert!(lines.contains(&asked), "{output}");
    // A check digit is told below its field.
    let (_, output, _) = run(&format!("show {CHECK_DIGIT} 4"));
    assert!(output.contains("\n           the check digit is wrong: it is 1 and should be 0\n"), "{output}");
}

/// A type that is not read here, by its bytes; and a record whose length is wrong.
#[test]
fn records_that_cannot_be_taken_apart() {
    let (status, output, _) = run("show peer/samples/damaged-10-type-68.x9 3");
    let file = read("peer/samples/damaged-10-type-68.x9");
    let body = String::from_utf8(file[168 + 4..257].to_vec()).unwrap();
    let lines: Vec<&str> = output.lines().collect();
    assert_eq!(lines[0], "record 3, at offset 168: User Record (type 68), 85 bytes");
    assert_eq!((status, lines[1]), (1, "    the file is refused 5 record 3 field 0 offset 168, here:"));
    let rest = [format!("        1  \"{}\"", &body[..64]), format!("       65  \"{}\"", &body[64..])];
    assert_eq!(
        lines[lines.len() - 3..],
        ["    records of this type are not read here; its bytes:", &rest[0], &rest[1]]
    );
    // The 52 of this sample states another length than it has: its fixed fields are judged, its variable ones not.
    let (status, output, _) = run("show peer/samples/damaged-11-image-length.x9 6");
    assert_eq!(
        (status, output.matches("holds alone").count(), output.matches("not judged").count()),
        (1, 21, 7),
        "{output}"
    );
    assert!(
        output.contains("    the file is refused 4 record 6 field 0 offset 420, here:\n        LENGTH: "),
        "{output}"
    );
}

/// A number counts the records; one that is the offset of another record too says so.
#[test]
fn a_number_that_is_both() {
    let folder = Folder::new("both");
    let file = folder.with("many", &common::many_checks());
    let (_, output, _) = run(&format!("show {file} 84"));
    assert!(output.starts_with("record 84, at offset 6972: Check Detail Record (type 25), 80 bytes\n    at offset 84 begins record 2: @84 shows it\n"), "{output}");
    let (_, output, _) = run(&format!("show {file} @84"));
    assert!(
        output
            .starts_with("record 2, at offset 84: Cash Letter Header Record (type 10), 80 bytes\n    cash letter 1\n"),
        "{output}"
    );
}

#[test]
fn sorts_of_input() {
    let folder = Folder::new("sorts");
    for (words, complaint) in [
        (format!("show {PICTURED} 5000"), format!("{PICTURED}: there is no record 5000, and none begins at offset 5000: the lengths frame 38 records, up to offset 5263")),
        (format!("show {PICTURED} @4"), format!("{PICTURED}: no record begins at offset 4: the lengths frame 38 records, up to offset 5263")),
        (format!("show {} 1", folder.path("missing")), format!("{}: there is no such file or folder", folder.path("missing"))),
        (format!("show {} 1", folder.path("")), format!("{}: it is a folder, not a file", folder.path(""))),
    ] {
        assert_eq!(run(&words), (2, String::new(), format!("icl: {complaint}\n")));
    }
    let empty = folder.with("empty", b"");
    let words =
        "refused 1 record 0 field 0 offset 0: SIZE: the file has no byte, or more than 268435456; found 0 bytes";
    assert_eq!(run(&format!("show {empty} 1")), (1, String::new(), format!("icl: {empty}: {words}\n")));
    let cut = "peer/samples/damaged-01-cut.x9";
    let (status, output, complaint) = run(&format!("show {cut} 1"));
    assert_eq!((status, output.as_str()), (1, ""));
    assert!(complaint.starts_with(&format!("icl: {cut}: refused 3 record 1 field 0 offset 0: CUT: ")), "{complaint}");
    for (words, complaint) in [
        (vec!["show", "a"], "RECORD or OFFSET is missing"),
        (vec!["show", "a", "x"], "x is no record or offset: a decimal number is needed"),
        (vec!["show", "a", "@"], "an empty word is no offset: a decimal number is needed"),
    ] {
        let complaint = format!("icl: {complaint} (icl --help tells more)\n");
        assert_eq!(outcome(&mut icl(words)), (2, String::new(), complaint));
    }
}
