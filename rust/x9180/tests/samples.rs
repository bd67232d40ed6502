//! The samples: lines, levels, pictures and plain words, worked out by hand.

use x9180::{picture, read, refused_by_size, Number, LIMIT};

fn folder(name: &str) -> std::path::PathBuf {
    std::path::Path::new(env!("CARGO_MANIFEST_DIR")).join("../..").join(name)
}

fn sample(name: &str) -> Vec<u8> {
    std::fs::read(folder("peer/samples").join(name)).unwrap()
}

#[test]
fn lines_are_those_worked_out_by_hand() {
    let expected = std::fs::read_to_string(folder("peer/samples/expected.txt")).unwrap();
    for line in expected.lines() {
        let (name, wanted) = line.split_once('\t').unwrap();
        let line = read(&sample(name)).map_or_else(|refusal| refusal.line(), |reading| reading.line());
        assert_eq!(line, wanted, "{name}");
    }
    assert_eq!(read(&[]).unwrap_err().line(), "refused 1 record 0 field 0 offset 0");
}

#[test]
fn levels_follow_the_ordinals() {
    // 01; 10, 90; 10, 20, 25, 50, 52, 70, 20, 31, 33, 50, 52, 31, 33, 50, 52, 70, 90; 99
    let file = sample("sound-6-two-letters.x9");
    let reading = read(&file).unwrap();
    let letters: Vec<_> = reading.letters().collect();
    assert_eq!(letters.iter().map(|letter| letter.ordinal()).collect::<Vec<_>>(), [1, 2]);
    assert_eq!(letters[0].rows().iter().map(|row| row.record_type).collect::<Vec<_>>(), [10, 90]);
    assert_eq!(letters[0].bundles().count(), 0);
    assert!(letters[0].bundle(1).is_none());
    let bundles: Vec<_> = letters[1].bundles().collect();
    assert_eq!(bundles.len(), 2);
    assert_eq!(bundles[1].rows().first().map(|row| row.record_type), Some(20));
    assert_eq!(bundles[1].rows().last().map(|row| row.record_type), Some(70));
    let types = |rows: &[x9180::Row]| rows.iter().map(|row| row.record_type).collect::<Vec<_>>();
    let items: Vec<_> = bundles[1].items().collect();
    assert_eq!(items.iter().map(|item| (item.ordinal(), item.amount())).collect::<Vec<_>>(), [(1, 1), (2, 0)]);
    assert_eq!(types(items[1].rows()), [31, 33, 50, 52]);
    assert_eq!(items[1].addenda().map(|row| row.record_type).collect::<Vec<_>>(), [33]);
    let views: Vec<_> = items[1].views().collect();
    assert_eq!((views.len(), views[0].ordinal(), types(views[0].rows())), (1, 1, vec![50, 52]));
    assert_eq!(picture(&file, views[0].offset()).unwrap(), b"front");
    let totals = letters[1].totals();
    assert_eq!((totals.bundles, totals.items, totals.views, totals.debit), (2, 3, 3, 10_000_000_000));
    let totals = bundles[1].totals();
    assert_eq!((totals.records, totals.items, totals.views, totals.debit), (10, 2, 2, 1));
    assert_eq!(reading.letter(2).unwrap().bundle(2).unwrap().item(2).unwrap().rows(), items[1].rows());
    for (letter, bundle, item) in [(0, 1, 1), (3, 1, 1), (2, 0, 1), (2, 3, 1), (2, 2, 0), (2, 2, 3), (u64::MAX, 1, 1)] {
        let found =
            reading.letter(letter).and_then(|letter| letter.bundle(bundle)).and_then(|bundle| bundle.item(item));
        assert!(found.is_none(), "{letter} {bundle} {item}");
    }
}

#[test]
fn two_views_and_an_analysis() {
    let file = sample("sound-3-check-with-views.x9");
    let reading = read(&file).unwrap();
    let item = reading.letter(1).unwrap().bundle(1).unwrap().item(1).unwrap();
    let views: Vec<_> = item.views().collect();
    assert_eq!(views.iter().map(|view| (view.ordinal(), view.rows().len())).collect::<Vec<_>>(), [(1, 3), (2, 2)]);
    assert!(views[0].analysis().is_some() && views[1].analysis().is_none());
    assert_eq!(picture(&file, views[0].offset()).unwrap(), b"\0\xFFimage\n\x80\x7F\0");
    assert_eq!(picture(&file, item.view(2).unwrap().offset()).unwrap(), b"");
    assert!(item.view(0).is_none() && item.view(3).is_none());
}

/// The words after the meaning of the number.
#[test]
fn plain_words_of_the_damaged_samples() {
    let cases: [(&str, &[&str]); 12] = [
        (
            "damaged-01-cut.x9",
            &[
                "CUT: the file ends before the record does",
                "record 1, at offset 0",
                "its length says 80 bytes; bytes left: 0",
                "found in place of the length: the bytes 00 00 00 50 (hexadecimal)",
            ],
        ),
        (
            "damaged-02-check-digit.x9",
            // The 25 at 252, its length 4 bytes, field 4 from position 19: 252 + 4 + 18 = 274. 12345678 weighs 150 with a check digit of 0.
            &[
                "FIELD: a field breaks its data type or its defined values",
                "record 4, Check Detail Record (type 25), at offset 252",
                "field 4, Payor Bank Routing Number, at offset 274",
                "found \"123456781\"",
                "asked: a routing number in one of these forms: TTTTAAAAC (nine digits, the ninth the check digit of the ABA rule), \
                 TTTTT-FFF (five digits, a dash, three digits), TTTT-AAAA (four digits, a dash, four digits) or bTTTTAAAA (a blank, eight \
                 digits), unless it holds a can't-read mark *",
                "the check digit is wrong: it is 1 and should be 0",
            ],
        ),
        (
            "damaged-03-place.x9",
            &[
                "PLACE: a record of this type may not stand here",
                "record 2, File Control Record (type 99), at offset 84",
                "the record before it is record 1, File Header Record (type 01)",
            ],
        ),
        (
            "damaged-04-owed.x9",
            &[
                "LINK: a field or record disagrees with an earlier one",
                "record 5, Bundle Control Record (type 70), at offset 336",
                "field 1, Record Type, at offset 340",
                "found \"70\"",
                "field 12, Check Detail Record Addendum Count, of record 4 is \"01\", and 0 came",
            ],
        ),
        (
            "damaged-05-year.x9",
            // The 10 at 84, its length 4 bytes, field 6 from position 31: 84 + 4 + 30 = 118.
            &[
                "FIELD: a field breaks its data type or its defined values",
                "record 2, Cash Letter Header Record (type 10), at offset 84",
                "field 6, Cash Letter Creation Date, at offset 118",
                "found \"19921231\"",
                "asked: a date YYYYMMDD: year 1993 to 9999, month 01 to 12, day 01 to 31",
            ],
        ),
        (
            "damaged-06-item-count.x9",
            &[
                "TOTAL: a control field is not what its part of the file adds up to",
                "record 10, Bundle Control Record (type 70), at offset 818",
                "field 2, Bundle Debit Item Count, at offset 824",
                "found \"0003\"",
                "debit items in the bundle: 2",
            ],
        ),
        (
            "damaged-07-micr-total.x9",
            // Field 4 from position 19: 818 + 4 + 18 = 840. The 25 of 100 cents is MICR valid, that of 250 is not.
            &[
                "TOTAL: a control field is not what its part of the file adds up to",
                "record 10, Bundle Control Record (type 70), at offset 818",
                "field 4, MICR Valid Debit Total Amount, at offset 840",
                "found \"000000000350\"",
                "cents of the items with MICR Valid Indicator 1 in the bundle: 100",
            ],
        ),
        (
            "damaged-08-open.x9",
            &[
                "OPEN: the file ends without a File Control Record (type 99)",
                "record 4, at offset 257",
                "the record before it is record 3, Cash Letter Control Record (type 90)",
            ],
        ),
        (
            "damaged-09-after.x9",
            &[
                "AFTER: bytes follow the File Control Record (type 99)",
                "record 5, at offset 341",
                "found 1 more byte: the byte 0A (hexadecimal)",
            ],
        ),
        (
            "damaged-10-type-68.x9",
            &[
                "TYPE: the record's first two characters name no type that is read here",
                "record 3, User Record (type 68), at offset 168",
                "found in place of the type: \"68\"",
                "the standard has this type of record, but it is not read here yet",
            ],
        ),
        (
            "damaged-11-image-length.x9",
            // 139 and eleven image bytes; twelve are stated.
            &[
                "LENGTH: the length is wrong for the record",
                "record 6, Image View Data Record (type 52), at offset 420",
                "its length says 150; its fixed part and the lengths it states come to 151 bytes",
            ],
        ),
        (
            "damaged-12-cycle-number.x9",
            // Field 4 from position 20: 420 + 4 + 19 = 443.
            &[
                "LINK: a field or record disagrees with an earlier one",
                "record 6, Image View Data Record (type 52), at offset 420",
                "field 4, Cycle Number, at offset 443",
                "found \"Ab\"",
                "field 9, Cycle Number, of record 3 is \"AB\"",
            ],
        ),
    ];
    for (name, lines) in cases {
        explained(name, lines);
    }
}

fn explained(name: &str, lines: &[&str]) {
    let refusal = read(&sample(name)).unwrap_err();
    assert_eq!(format!("{refusal:#}"), lines.join("\n"), "{name}");
    assert_eq!(format!("{refusal}"), lines.join("; "), "{name}");
}

/// Routing numbers in forms that their fields do not list (request 1): the words say which forms they take.
#[test]
fn plain_words_of_the_damaged_routing_numbers() {
    let of_two = "asked: all blank, or a routing number in one of these forms: TTTTAAAAC (nine digits, the ninth the check digit of the ABA \
                  rule) or TTTTT-FFF (five digits, a dash, three digits)";
    let of_three = "asked: a routing number in one of these forms: TTTTAAAAC (nine digits, the ninth the check digit of the ABA rule), \
                    TTTTT-FFF (five digits, a dash, three digits) or NNNNNNNNN (the number of a non-financial institution: one to nine \
                    digits side by side, the rest blank)";
    let field = "FIELD: a field breaks its data type or its defined values";
    // Field 10 from position 55: 168 + 4 + 54 = 226.
    let [record, name] = [
        "record 3, Bundle Header Record (type 20), at offset 168",
        "field 10, Return Location Routing Number, at offset 226",
    ];
    explained("damaged-13-short-number.x9", &[field, record, name, "found \"1234567  \"", of_two]);
    explained(
        "damaged-14-moved-number.x9",
        &[
            "LINK: a field or record disagrees with an earlier one",
            "record 6, Image View Data Record (type 52), at offset 420",
            "field 2, ECE Institution Routing Number, at offset 426",
            "found \" 12345678\"",
            "field 4, Bundle ECE Institution Routing Number, of record 3 is \"12345678 \"",
        ],
    );
    let [record, name] = [
        "record 1, File Header Record (type 01), at offset 0",
        "field 4, Immediate Destination Routing Number, at offset 9",
    ];
    explained("damaged-15-no-number.x9", &[field, record, name, "found \"         \"", of_three]);
    // Field 4 from position 14: 84 + 4 + 13 = 101.
    let [record, name] = [
        "record 2, Cash Letter Header Record (type 10), at offset 84",
        "field 4, ECE Institution Routing Number, at offset 101",
    ];
    explained("damaged-16-moved-dash.x9", &[field, record, name, "found \"1020-2006\"", of_three]);
}

/// Nine digits in 20.10 and in 35.3, and which ninth digit they should have. 22222222 weighs 3 x 6 + 7 x 6 + 4 = 64, which lacks 6 to the next
/// multiple of 10; 09876543 weighs 3 (0 + 7 + 4) + 7 (9 + 6 + 3) + 8 + 5 = 172, which lacks 8.
#[test]
fn the_right_check_digit_is_told() {
    let last_line = |record: usize, position: usize, contents: &[u8]| {
        let mut file = sample("sound-9-canadian.x9");
        let offset = read_offsets(&file)[record - 1] + 4 + position - 1;
        file[offset..offset + 9].copy_from_slice(contents);
        let refusal = read(&file).unwrap_err();
        assert_eq!((refusal.number(), refusal.record()), (Number::FIELD, record as u64));
        refusal.to_string().rsplit("; ").next().unwrap().to_string()
    };
    assert_eq!(last_line(3, 55, b"222222222"), "the check digit is wrong: it is 2 and should be 6");
    assert_eq!(last_line(14, 5, b"098765432"), "the check digit is wrong: it is 2 and should be 8");
    // No check digit is spoken of where the characters are no nine digits.
    assert!(last_line(14, 5, b"09876543 ").starts_with("asked: all blank, or "));
}

/// Where the lengths of records stand.
fn read_offsets(file: &[u8]) -> Vec<usize> {
    let (mut offsets, mut at) = (Vec::new(), 0);
    while at < file.len() {
        offsets.push(at);
        at += 4 + u32::from_be_bytes(file[at..at + 4].try_into().unwrap()) as usize;
    }
    offsets
}

#[test]
fn what_a_sender_often_gets_wrong() {
    let sound = sample("sound-1-no-detail.x9");
    let bare = &sound[4..]; // no length before the first record: "0120" is 808,530,480
    let words = format!("{:#}", read(bare).unwrap_err());
    assert!(
        words.contains("its length says 808530480 bytes; bytes left: 333\nfound in place of the length: \"0120\""),
        "{words}"
    );
    assert!(words.ends_with("the records may lack the four-byte length before each"), "{words}");

    // A file in EBCDIC that does not begin with a 01 counts as ASCII.
    let mut ebcdic = sound.clone();
    ebcdic[4..6].copy_from_slice(&[0xF1, 0xF0]);
    let refusal = read(&ebcdic).unwrap_err();
    assert_eq!((refusal.number(), refusal.found()), (Number::TYPE, [0xF1, 0xF0].as_slice()));
    let end = "these are digits in EBCDIC, and the file is read as ASCII, since its bytes 5 and 6 are not F0 F1";
    assert!(refusal.to_string().ends_with(end), "{refusal}");
}

#[test]
fn pictures_refused() {
    let file = sample("sound-3-check-with-views.x9");
    let words = |offset| format!("{:#}", picture(&file, offset).unwrap_err());
    assert_eq!(
        words(252),
        "TYPE: the record's first two characters name no type that is read here\n\
         the record, Check Detail Record (type 25), at offset 252\n\
         found in place of the type: \"25\"\n\
         a picture stands in an Image View Data Record (type 52) only"
    );
    let past = u64::MAX - file.len() as u64;
    assert_eq!(
        words(u64::MAX),
        format!(
            "CUT: the file ends before the record does\nthe record, at offset {}\n\
             the offset lies {past} bytes past the end of the file",
            u64::MAX
        )
    );
    assert_eq!(
        words(file.len() as u64),
        "CUT: the file ends before the record does\nthe record, at offset 1142\n\
         a length of four bytes should stand here; bytes left: 0"
    );
}

#[test]
fn sizes() {
    // Zeros come from the system untouched; the length alone is looked at.
    let mut file = vec![0; LIMIT + 1];
    assert_eq!(read(&file), Err(refused_by_size(LIMIT as u64 + 1).unwrap()));
    assert_eq!(picture(&file, 0).unwrap_err(), refused_by_size(LIMIT as u64 + 1).unwrap());
    file.truncate(LIMIT);
    assert_eq!(read(&file).unwrap_err().number(), Number::LENGTH);
    assert_eq!(read(&[]), Err(refused_by_size(0).unwrap()));
    assert_eq!(refused_by_size(1), None);
}

/// Every beginning of the samples and the fuzzing seeds, and every byte of them put to several values: no call panics, and the words can
/// be made. Whether a file is accepted is the library's own matter, which `peer/` tries.
#[test]
fn no_panic_on_damage() {
    let mut files = Vec::new();
    for name in ["peer/samples", "peer/samples/ebcdic", "fuzz/seeds", "fuzz/seeds-ebcdic"] {
        let paths = std::fs::read_dir(folder(name)).unwrap().map(|entry| entry.unwrap().path());
        files.extend(paths.filter(|path| path.is_file()).map(|path| std::fs::read(path).unwrap()));
    }
    assert!(files.len() > 250);
    let look = |file: &[u8]| {
        if let Err(refusal) = read(file) {
            assert!(format!("{refusal:#}").len() > 10);
            assert!(refusal.found().len() <= 64);
            let _ = picture(file, refusal.offset()).map_err(|refusal| refusal.to_string());
        }
    };
    for file in files.iter().filter(|file| file.len() < 2000) {
        for end in 0..file.len() {
            look(&file[..end]);
            let _ = picture(file, end as u64).map_err(|refusal| refusal.to_string());
        }
        let mut damaged = file.clone();
        for place in 0..file.len() {
            for value in [0x00, 0x20, 0x30, 0x39, 0x41, 0xFF, file[place] ^ 1] {
                damaged[place] = value;
                look(&damaged);
            }
            damaged[place] = file[place];
        }
    }
}
