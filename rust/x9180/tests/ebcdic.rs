//! Files in EBCDIC (request 5): what the wrapper itself reads of characters goes by the file's set. The samples stand in `peer/samples/ebcdic`,
//! with their records in `peer/reader/src/samples_ebcdic.rs`; other files are versions of ASCII files, made by the independent side.

use peer_reader::copy::{copy, to_ebcdic};
use x9180::CharacterSet::{Ascii, Ebcdic};
use x9180::{picture, read, record, CharacterSet, DataType, ItemKind, Number, Reading, Refusal, Row, Totals};

fn folder(name: &str) -> std::path::PathBuf {
    std::path::Path::new(env!("CARGO_MANIFEST_DIR")).join("../..").join(name)
}

fn sample(name: &str) -> Vec<u8> {
    std::fs::read(folder("peer/samples/ebcdic").join(name)).unwrap()
}

/// The EBCDIC version of a sample in ASCII.
fn version(name: &str) -> Vec<u8> {
    to_ebcdic(&std::fs::read(folder("peer/samples").join(name)).unwrap())
}

/// The words of a refusal, a line each.
fn words(refusal: &Refusal) -> Vec<String> {
    format!("{refusal:#}").lines().map(str::to_string).collect()
}

#[test]
fn lines_are_those_worked_out_by_hand() {
    let expected = std::fs::read_to_string(folder("peer/samples/ebcdic/expected.txt")).unwrap();
    for line in expected.lines() {
        let (name, wanted) = line.split_once('\t').unwrap();
        let line = read(&sample(name)).map_or_else(|refusal| refusal.line(), |reading| reading.line());
        assert_eq!(line, wanted, "{name}");
    }
    assert!(expected.lines().count() >= 14);
}

#[test]
fn the_set_of_an_accepted_file() {
    let ascii = std::fs::read(folder("samples/two-letters-with-pictures.x9")).unwrap();
    let ebcdic = std::fs::read(folder("samples/ebcdic-with-pictures.x9")).unwrap();
    assert_eq!(ebcdic, to_ebcdic(&ascii));
    let (in_ascii, in_ebcdic) = (read(&ascii).unwrap(), read(&ebcdic).unwrap());
    assert_eq!((in_ascii.character_set(), in_ebcdic.character_set()), (Ascii, Ebcdic));
    assert_eq!((in_ascii.rows(), in_ascii.totals()), (in_ebcdic.rows(), in_ebcdic.totals()));
}

/// By the description of the sample: in 99.6 the characters of reading 35 and blanks; 01.6 the date.
#[test]
fn fields_as_text() {
    let file = sample("sound-4-point-17.x9");
    let reading = read(&file).unwrap();
    let (header, control) = (reading.header().unwrap(), reading.control().unwrap());
    assert_eq!(control.text(&file, 6).as_deref(), Some("[]^`|         "));
    assert_eq!(header.text(&file, 1).as_deref(), Some("01"));
    assert_eq!(header.field(&file, 1), Some([0xF0, 0xF1].as_slice()));
    assert_eq!(header.text(&file, 6).as_deref(), Some("20050230"));
    assert_eq!(header.text(&file, 99), None);
    // At signs of ASCII are blanks of EBCDIC.
    let file = sample("sound-6-at-signs.x9");
    assert_eq!(read(&file).unwrap().control().unwrap().text(&file, 6), Some(" ".repeat(14)));
}

/// Variable fields are found by lengths in EBCDIC; Binary ones are never translated, and are no text.
#[test]
fn variable_and_binary_fields() {
    let file = sample("sound-2-check-with-view.x9");
    let reading = read(&file).unwrap();
    let data = reading.rows().iter().find(|row| row.record_type == 52).unwrap();
    assert_eq!(data.field(&file, 27), Some(b"\0\xF0image\x40\x20".as_slice()));
    assert_eq!(data.text(&file, 27), None);
    assert_eq!(data.text(&file, 20).as_deref(), Some("0000009"));
    assert_eq!(picture(&file, data.offset).unwrap(), b"\0\xF0image\x40\x20");

    let file = sample("sound-3-returns-and-credits.x9");
    let reading = read(&file).unwrap();
    let addendum = reading.rows().iter().find(|row| row.record_type == 34).unwrap();
    assert_eq!(addendum.text(&file, 14).as_deref(), Some("#123456780# 1-2/3*$"));
}

/// A 61 is a debit by the character 9, be it 39 or F9.
#[test]
fn debits_and_credits() {
    let file = sample("sound-3-returns-and-credits.x9");
    let reading = read(&file).unwrap();
    let letter = reading.letter(1).unwrap();
    let credits: Vec<_> = letter.credits().map(|credit| (credit.kind(), credit.is_debit(), credit.amount())).collect();
    assert_eq!(credits, [(ItemKind::Credit, false, 70), (ItemKind::Credit, true, 30)]);
    let totals = letter.totals();
    assert_eq!((totals.debit_items(), totals.debit, totals.credit_items, totals.credit), (2, 72, 1, 70));
}

/// Every field of an EBCDIC file is the text of its ASCII copy, every Binary one the same bytes.
fn compare_fields(file: &[u8], copy: &[u8], rows: &[Row]) -> u64 {
    let mut compared = 0;
    for row in rows {
        for field in row.kind().unwrap().fields {
            let (ours, theirs) = (row.text(file, field.number), row.text(copy, field.number));
            assert_eq!(ours, theirs);
            match field.data_type {
                DataType::Binary => assert_eq!(row.field(file, field.number), row.field(copy, field.number)),
                _ => assert_eq!(theirs.unwrap().as_bytes(), row.field(copy, field.number).unwrap()),
            }
            compared += 1;
        }
        assert_eq!(record(Ebcdic, row.body(file).unwrap()), Ok(()));
        assert_eq!(record(Ascii, row.body(copy).unwrap()), Ok(()));
    }
    compared
}

/// What a file and its copy have in common: rows and totals, or the numbers of the refusal.
fn outcome(read: &Result<Reading, Refusal>) -> (String, Vec<Row>, Totals) {
    match read {
        Ok(reading) => (reading.line(), reading.rows().to_vec(), reading.totals()),
        Err(refusal) => (refusal.line(), Vec::new(), Totals::default()),
    }
}

/// The generator's files for request 5: the answer and the rows of the copy, the same fields, the same debits and pictures.
#[test]
fn generated_files_and_their_copies() {
    let (mut accepted, mut refused, mut compared) = (0, 0, 0);
    for index in (0..3_000).filter(|index| index % 3_500 != 1_750) {
        let file = peer_reader::ebcdic::file(5, index).bytes;
        let copy = copy(&file);
        if CharacterSet::of(&file) != Ebcdic || CharacterSet::of(&copy) != Ascii {
            continue;
        }
        let (ours, theirs) = (read(&file), read(&copy));
        assert_eq!(outcome(&ours), outcome(&theirs), "file {index}");
        let (Ok(ours), Ok(theirs)) = (ours, theirs) else {
            refused += 1;
            continue;
        };
        compared += compare_fields(&file, &copy, ours.rows());
        for (ours, theirs) in ours.letters().zip(theirs.letters()) {
            assert_eq!(ours.totals(), theirs.totals(), "file {index}");
        }
        for row in ours.rows().iter().filter(|row| row.record_type == 52) {
            assert_eq!(picture(&file, row.offset), picture(&copy, row.offset));
        }
        accepted += 1;
    }
    assert!(accepted > 300 && refused > 1_000 && compared > 10_000, "{accepted} {refused} {compared}");
}

/// In words an EBCDIC file's fault is told as its ASCII copy's, with the same characters, where all that was found are characters.
#[test]
fn words_are_those_of_the_ascii_file() {
    let mut told = std::collections::BTreeMap::new();
    for index in (0..6_000).filter(|index| index % 5_000 != 2_500) {
        let ascii = peer_reader::stream::file(37, index).bytes;
        let file = to_ebcdic(&ascii);
        let (Err(ours), Err(theirs)) = (read(&file), read(&ascii)) else { continue };
        // Lengths, and what follows a file, are no characters.
        let of_characters = !matches!(theirs.number(), Number::CUT | Number::AFTER);
        if of_characters && CharacterSet::of(&file) == Ebcdic && Ascii.text(theirs.found()).is_some() {
            assert_eq!(words(&ours), words(&theirs), "file {index}");
            assert_eq!(Ebcdic.text(ours.found()), Ascii.text(theirs.found()));
            *told.entry(theirs.number()).or_insert(0) += 1;
        }
    }
    for number in [Number::LENGTH, Number::TYPE, Number::PLACE, Number::FIELD, Number::LINK, Number::TOTAL] {
        assert!(told.get(&number).is_some_and(|told| *told > 20), "{}: {told:?}", number.name());
    }
}

/// The words of the damaged samples that only EBCDIC brings about. 99.6 stands at 257 + 4 + 40 = 301.
#[test]
fn a_byte_without_a_character() {
    let field = "FIELD: a field breaks its data type or its defined values";
    let refusal = |name: &str| read(&sample(name)).unwrap_err();
    let no_counterpart = refusal("damaged-1-no-counterpart.x9");
    assert_eq!(
        words(&no_counterpart),
        [
            field,
            "record 4, File Control Record (type 99), at offset 257",
            "field 6, Immediate Origin Contact Name, at offset 301",
            "found \"\\x4A             \"",
            "asked: printable characters",
            "the byte 4A at offset 301: code page 037 has no character of clause 5 for it",
        ]
    );
    assert_eq!(no_counterpart.found(), [&[0x4A][..], &[0x40; 13]].concat());
    assert_eq!(
        words(&refusal("damaged-3-ascii-header.x9")),
        [
            field,
            "record 1, File Header Record (type 01), at offset 0",
            "field 2, Standard Level, at offset 6",
            "found the bytes 32 30 (hexadecimal)",
            "asked: one of 01, 02, 03, 20",
            "the byte 32 at offset 6: code page 037 has no character of clause 5 for it, nor for 1 more byte here",
        ]
    );
}

/// Far behind the bytes that are shown the byte is named all the same. 52.22, the Image Reference Key, has 200 characters behind the 139 of
/// the fixed part.
#[test]
fn a_byte_without_a_character_in_a_long_field() {
    use peer_reader::charset::Set;
    let mut body = Set::Ebcdic.bytes(&peer_reader::plain::view_data(b""));
    // Its length stands in field 15, positions 104 to 107.
    body[103..107].copy_from_slice(&Set::Ebcdic.bytes(b"0200"));
    body.extend([0xC1; 200]);
    assert_eq!(record(Ebcdic, &body), Ok(()));
    body[139 + 150] = 0xFF;
    body[139 + 160] = 0x00;
    body[139 + 161] = 0x00;
    let refusal = record(Ebcdic, &body).unwrap_err();
    assert_eq!((refusal.number(), refusal.field(), refusal.found().len()), (Number::FIELD, 22, 64));
    assert_eq!(
        words(&refusal)[1..],
        [
            "the record, Image View Data Record (type 52)".to_string(),
            "field 22, Image Reference Key, at position 140".to_string(),
            format!("found \"{}\" (the first 64 of 200 bytes)", "A".repeat(64)),
            "asked: printable characters".to_string(),
            "the byte FF at position 290: code page 037 has no character of clause 5 for it, nor for 2 more bytes here"
                .to_string(),
        ]
    );
}

/// A record in the other set than its file's.
#[test]
fn a_record_of_the_other_set() {
    let of_type = "TYPE: the record's first two characters name no type that is read here";
    assert_eq!(
        words(&read(&sample("damaged-2-ascii-record.x9")).unwrap_err()),
        [
            of_type,
            "record 2, at offset 84",
            "found in place of the type: the bytes 31 30 (hexadecimal)",
            "the byte 31 at offset 88: code page 037 has no character of clause 5 for it, nor for 1 more byte here",
            "these are digits in ASCII, and the file is read as EBCDIC, since its bytes 5 and 6 are F0 F1",
        ]
    );
    let mut file = std::fs::read(folder("peer/samples/sound-1-no-detail.x9")).unwrap();
    file[88..90].copy_from_slice(&[0xF1, 0xF0]);
    assert_eq!(
        words(&read(&file).unwrap_err()),
        [
            of_type,
            "record 2, at offset 84",
            "found in place of the type: the bytes F1 F0 (hexadecimal)",
            "these are digits in EBCDIC, and the file is read as ASCII, since its bytes 5 and 6 are not F0 F1",
        ]
    );
    // One of both: neither set's digits, and one byte that is no character of EBCDIC.
    let mut file = sample("sound-1-no-detail.x9");
    file[88] = b'1';
    assert_eq!(
        words(&read(&file).unwrap_err())[2..],
        [
            "found in place of the type: \"\\x310\"",
            "the byte 31 at offset 88: code page 037 has no character of clause 5 for it",
        ]
    );
}

/// What is worked out from characters. The samples in ASCII are explained in `tests/samples.rs` and `tests/credits.rs`.
#[test]
fn check_digits_links_and_totals() {
    let last = |file: &[u8]| words(&read(file).unwrap_err()).pop().unwrap();
    assert_eq!(last(&version("damaged-02-check-digit.x9")), "the check digit is wrong: it is 1 and should be 0");
    assert_eq!(
        last(&version("damaged-04-owed.x9")),
        "field 12, Check Detail Record Addendum Count, of record 4 is \"01\", and 0 came"
    );
    assert_eq!(last(&version("damaged-12-cycle-number.x9")), "field 9, Cycle Number, of record 3 is \"AB\"");
    assert_eq!(
        last(&version("damaged-24-credit-as-debit.x9")),
        "cents of the debit items in the bundle: 30; of the credit items: 3000"
    );
    assert_eq!(
        last(&sample("damaged-7-view-under-e.x9")),
        "field 8, Cash Letter Record Type Indicator, of record 2 is \"E\": no view may come"
    );
    assert_eq!(
        last(&sample("damaged-8-micr-total.x9")),
        "cents of the items with MICR Valid Indicator 1 in the bundle: 150"
    );
    assert_eq!(
        last(&version("damaged-11-image-length.x9")),
        "its length says 150; its fixed part and the lengths it states come to 151 bytes"
    );
}

/// Lengths left out. Without the first one, bytes 5 and 6 are 01.3 and the first of 01.4, so that the file counts as ASCII.
#[test]
fn lengths_left_out() {
    let sound = sample("sound-1-no-detail.x9");
    let without_lengths = words(&read(&sound[4..]).unwrap_err());
    assert_eq!(
        without_lengths[2..],
        [
            "its length says 4042388208 bytes; bytes left: 333", // F0 F1 F2 F0
            "found in place of the length: the bytes F0 F1 F2 F0 (hexadecimal)",
            "in EBCDIC these are the characters \"0120\", so the records may lack the four-byte length before each",
        ]
    );
    // Without the second length: the file is EBCDIC by its first record.
    let without_second = words(&read(&[&sound[..84], &sound[88..]].concat()).unwrap_err());
    assert_eq!(without_second[0], "CUT: the file ends before the record does");
    assert_eq!(
        without_second[3..5],
        [
            "found in place of the length: \"1001\"", // the type, and 10.2
            "these are characters, so the records may lack the four-byte length before each"
        ]
    );
    // In ASCII characters: a record of the other set without its length.
    let mixed = words(&read(&[&sound[..84], b"10000000"].concat()).unwrap_err());
    assert_eq!(
        mixed[4],
        "in ASCII these are the characters \"1000\", so the records may lack the four-byte length before each"
    );
}

/// One record alone: the set is the caller's to tell.
#[test]
fn records_alone() {
    use peer_reader::charset::Set;
    let ascii = peer_reader::plain::check(150, '1', 0);
    let ebcdic = Set::Ebcdic.bytes(&ascii);
    assert_eq!((record(Ascii, &ascii), record(Ebcdic, &ebcdic)), (Ok(()), Ok(())));
    let refusal = record(Ascii, &ebcdic).unwrap_err();
    assert_eq!(refusal.line(), "refused 5 record 0 field 0 offset 0");
    assert_eq!(
        words(&refusal)[1..],
        [
            "the record",
            "found in place of the type: the bytes F2 F5 (hexadecimal)",
            "these are digits in EBCDIC, and the record was judged as ASCII"
        ]
    );
    let refusal = record(Ebcdic, &ascii).unwrap_err();
    assert_eq!(words(&refusal)[4], "these are digits in ASCII, and the record was judged as EBCDIC");
    for set in [Ascii, Ebcdic] {
        let words = words(&record(set, b"").unwrap_err());
        assert_eq!(words[2], "its length says 0, and a record has a type of two characters at least");
    }
    let refusal = record(Ebcdic, &ebcdic[..79]).unwrap_err();
    assert_eq!((refusal.number(), refusal.kind()), (Number::LENGTH, x9180::Kind::of(25)));
    assert_eq!(
        words(&refusal)[1..],
        ["the record, Check Detail Record (type 25)", "its length says 79; a record of this type has 80 bytes"]
    );
    let refusal = record(Ebcdic, &Set::Ebcdic.bytes(b"68")).unwrap_err();
    assert_eq!(words(&refusal)[3], "the standard has this type of record, but it is not read here yet");
}

/// The picture call goes by the file's first record; offset 0 holds the 01.
#[test]
fn pictures_refused() {
    let file = sample("sound-5-records-in-an-image.x9");
    assert_eq!(
        words(&picture(&file, 0).unwrap_err())[1..],
        [
            "the record, File Header Record (type 01), at offset 0",
            "found in place of the type: \"01\"",
            "a picture stands in an Image View Data Record (type 52) only",
        ]
    );
    // The 52 stands at 5 x 84 = 420; within its image, 143 bytes on, first an EBCDIC 52 of 144 bytes and then an ASCII one.
    assert_eq!(picture(&file, 563).unwrap(), b"inner");
    assert_eq!(picture(&file, 563 + 148).unwrap_err().number(), Number::TYPE);
}
