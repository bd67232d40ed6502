//! Credits (request 2): levels, sums and plain words, worked out by hand from the rules. The files are those of `peer/samples`, whose records
//! stand in `peer/reader/src/samples.rs`, and others made of the same records here.
//!
//! With its length a record takes 84 bytes, a 61 takes 88, a 90 takes 89, a 32 takes 119, a 52 takes 143 and its picture.

use peer_reader::plain::*;
use x9180::ItemKind::{Check, Credit, Return};
use x9180::{picture, read, Content, Number, Totals};

fn sample(name: &str) -> Vec<u8> {
    std::fs::read(std::path::Path::new(env!("CARGO_MANIFEST_DIR")).join("../../peer/samples").join(name)).unwrap()
}

/// The words of a refusal, a line each.
fn words(file: &[u8]) -> Vec<String> {
    format!("{:#}", read(file).unwrap_err()).lines().map(str::to_string).collect()
}

/// The letter's contents: a bundle as its items, a credit directly in it as one.
fn outline(file: &[u8]) -> Vec<String> {
    let reading = read(file).unwrap();
    let mut lines = Vec::new();
    for letter in reading.letters() {
        for content in letter.contents() {
            let (name, items) = match content {
                Content::Bundle(bundle) => (format!("bundle {}", bundle.ordinal()), bundle.items().collect()),
                Content::Credit(credit) => ("direct".to_string(), vec![credit]),
            };
            for item in items {
                let side = if item.is_debit() { "debit" } else { "credit" };
                let (kind, views) = (item.kind(), item.views().count());
                let item = format!("{} {kind:?} {side} {}", item.ordinal(), item.amount());
                lines.push(format!("letter {} {name}: {item}, views {views}", letter.ordinal()));
            }
        }
    }
    lines
}

#[test]
fn credits_among_bundles() {
    let file = sample("sound-11-credits.x9");
    assert_eq!(
        outline(&file),
        [
            "letter 1 direct: 1 Credit credit 100000, views 1",
            "letter 1 bundle 1: 1 Credit credit 12345, views 1",
            "letter 1 bundle 1: 2 Check debit 40000, views 1",
            "letter 1 bundle 1: 3 Credit debit 5, views 0",
            "letter 1 direct: 2 Credit credit 7, views 0",
        ]
    );
    let reading = read(&file).unwrap();
    let letter = reading.letter(1).unwrap();
    let totals = Totals {
        records: 17,
        letters: 1,
        bundles: 1,
        items: 5,
        views: 3,
        debit: 40_005,
        credit_items: 3,
        credit: 112_352,
    };
    assert_eq!(reading.totals(), totals);
    // But for the 01 and the 99 all records are the letter's.
    assert_eq!(letter.totals(), Totals { records: 15, ..totals });
    let in_bundle = Totals {
        records: 9,
        letters: 0,
        bundles: 1,
        items: 3,
        views: 2,
        debit: 40_005,
        credit_items: 1,
        credit: 12_345,
    };
    assert_eq!(letter.bundle(1).unwrap().totals(), in_bundle);
    let first = letter.credit(1).unwrap();
    assert_eq!(first.rows().iter().map(|row| row.record_type).collect::<Vec<_>>(), [61, 50, 52]);
    assert_eq!(picture(&file, first.view(1).unwrap().offset()).unwrap(), b"slip");
    assert_eq!(first.addenda().count(), 0);
    assert!(letter.credit(0).is_none() && letter.credit(3).is_none() && letter.bundle(0).is_none());
}

/// Reading 30: 25s, 31s and 61s of a bundle are counted together; directly in a letter the bundle and the item are 0, and so for the views.
#[test]
fn ordinals_of_rows() {
    let reading = read(&sample("sound-11-credits.x9")).unwrap();
    let rows: Vec<_> =
        reading.rows().iter().map(|row| (row.record_type, row.letter, row.bundle, row.item, row.amount)).collect();
    assert_eq!(
        rows,
        [
            (1, 0, 0, 0, 0),
            (10, 1, 0, 0, 0),
            (61, 1, 0, 0, 100_000),
            (50, 1, 0, 0, 0),
            (52, 1, 0, 0, 0),
            (20, 1, 1, 0, 0),
            (61, 1, 1, 1, 12_345),
            (50, 1, 1, 1, 0),
            (52, 1, 1, 1, 0),
            (25, 1, 1, 2, 40_000),
            (50, 1, 1, 2, 0),
            (52, 1, 1, 2, 0),
            (61, 1, 1, 3, 5),
            (70, 1, 1, 0, 40_005),
            (61, 1, 0, 0, 7),
            (90, 1, 0, 0, 40_005),
            (99, 0, 0, 0, 40_005),
        ]
    );
}

#[test]
fn credits_alone_and_between_bundles() {
    assert_eq!(
        outline(&sample("sound-12-credits-alone.x9")),
        [
            "letter 1 direct: 1 Credit credit 99999999999999, views 0",
            "letter 1 direct: 2 Credit debit 1, views 0",
            "letter 2 bundle 1: 1 Credit credit 10, views 0",
            "letter 2 bundle 1: 2 Credit credit 20, views 0",
        ]
    );
    let file = sample("sound-13-credits-among-items.x9");
    let reading = read(&file).unwrap();
    let letter = reading.letter(1).unwrap();
    let kinds = |bundle: u64| letter.bundle(bundle).unwrap().items().map(|item| item.kind()).collect::<Vec<_>>();
    assert_eq!((kinds(1), kinds(2)), (vec![Return, Credit, Return, Credit], vec![Credit, Check]));
    assert_eq!(
        letter.credits().map(|credit| (credit.ordinal(), credit.is_debit())).collect::<Vec<_>>(),
        [(1, true), (2, false)]
    );
    let [first, second] = [1, 2].map(|bundle| letter.bundle(bundle).unwrap().totals());
    assert_eq!((first.debit_items(), first.debit, first.credit_items, first.credit), (2, 30, 2, 3_000));
    assert_eq!((second.debit_items(), second.debit, second.credit_items, second.credit), (1, 7, 1, 50));
    let totals = letter.totals();
    assert_eq!((totals.debit_items(), totals.debit, totals.credit_items, totals.credit), (4, 337, 4, 3_450));
}

/// A letter of E with these records before its end, none of whose records is looked at once the fault is found.
fn with_fault(content: char, records: &[Vec<u8>]) -> Vec<u8> {
    file(&[&[file_header(), letter_header(content)], records].concat())
}

/// Clause 26 and reading 25: what is told where a 61 may not stand, or where a record may not follow one.
#[test]
fn places() {
    let place = "PLACE: a record of this type may not stand here";
    let credit_record = |record: u64, offset: u64| {
        format!("record {record}, Credit/Reconciliation Record (type 61), at offset {offset}")
    };
    let before = |record: u64, kind: &str| format!("the record before it is record {record}, {kind}");
    let says = |file: Vec<u8>, lines: [&str; 3]| assert_eq!(words(&file), [&[place], lines.as_slice()].concat());

    let no_letter = "no cash letter is open here";
    says(
        sample("damaged-19-61-in-no-letter.x9"),
        [&credit_record(2, 84), &before(1, "File Header Record (type 01)"), no_letter],
    );
    // 01 and 10 of 84, the 90 of 89.
    says(
        with_fault('N', &[letter_sums(0, (0, 0), 0, (0, 0)), credit('2', 1)]),
        [&credit_record(4, 257), &before(3, "Cash Letter Control Record (type 90)"), no_letter],
    );
    let addendum = "the Return Addendum B Record (type 33) of the return has to come first";
    says(
        with_fault('E', &[bundle_header(), returned(1, 1), credit('5', 1)]),
        [&credit_record(5, 336), &before(4, "Return Record (type 31)"), addendum],
    );
    says(
        with_fault('E', &[bundle_header(), returned(1, 2), return_addendum_a(1, DATE), credit('5', 1)]),
        [&credit_record(6, 455), &before(5, "Return Addendum A Record (type 32)"), addendum],
    );
    let data = "the Image View Data Record (type 52) of the view has to come first";
    says(
        with_fault('I', &[bundle_header(), check(1, ' ', 0), view_detail('0'), credit('5', 1)]),
        [&credit_record(6, 420), &before(5, "Image View Detail Record (type 50)"), data],
    );
    // A 61 itself has to have its view whole.
    says(
        with_fault('I', &[credit('1', 1), view_detail('0'), bundle_header()]),
        [
            "record 5, Bundle Header Record (type 20), at offset 340",
            &before(4, "Image View Detail Record (type 50)"),
            data,
        ],
    );

    let last = "Credit/Reconciliation Record (type 61)";
    let in_letter = "a cash letter is open here, and no bundle";
    for (record, name) in [
        (check(1, ' ', 0), "Check Detail Record (type 25)"),
        (returned(1, 1), "Return Record (type 31)"),
        (bundle_sums((0, 0), NOT_STATED, 0, (1, 1)), "Bundle Control Record (type 70)"),
        (letter_header('E'), "Cash Letter Header Record (type 10)"),
        (file_sums(1, 4, 1, 0, 1), "File Control Record (type 99)"),
        (view_data(b""), "Image View Data Record (type 52)"),
        (view_analysis(), "Image View Analysis Record (type 54)"),
        (check_addendum_a(1), "Check Detail Addendum A Record (type 26)"),
    ] {
        says(
            with_fault('E', &[credit('1', 1), record.clone()]),
            [&format!("record 4, {name}, at offset 256"), &before(3, last), in_letter],
        );
    }
    for (record, name) in [
        (bundle_header(), "Bundle Header Record (type 20)"),
        (letter_sums(1, (0, 0), 0, (1, 1)), "Cash Letter Control Record (type 90)"),
        (return_addendum_b(), "Return Addendum B Record (type 33)"),
    ] {
        says(
            with_fault('E', &[bundle_header(), credit('3', 1), record.clone()]),
            [&format!("record 5, {name}, at offset 340"), &before(4, last), "a bundle is open here"],
        );
    }
    // The view of a 61 directly in the letter, and then an item. 168 + 88 + 84 + 143 = 483.
    says(
        with_fault('I', &[credit('1', 1), view_detail('0'), view_data(b""), check(1, ' ', 0)]),
        [
            "record 6, Check Detail Record (type 25), at offset 483",
            &before(5, "Image View Data Record (type 52)"),
            in_letter,
        ],
    );

    // Document 01: a bundle is of one kind, and request 2: 61s do not count for it.
    assert_eq!(
        words(&with_fault('E', &[bundle_header(), check(1, ' ', 0), credit('5', 1), returned(1, 1)])),
        [
            place,
            "record 6, Return Record (type 31), at offset 424",
            "a bundle holds checks or returns, not both, and record 4 is a Check Detail Record (type 25)",
        ]
    );
    assert_eq!(
        words(&file(&[credit('1', 1)])),
        [place, &credit_record(1, 0), "a file begins with a File Header Record (type 01)"]
    );
}

/// What is said of a link: the record, the field with its place and contents, and what it disagrees with.
fn link(file: &[u8], lines: [&str; 4]) {
    assert_eq!(words(file), [&["LINK: a field or record disagrees with an earlier one"], lines.as_slice()].concat());
}

/// Reading 28: addenda owed and views missing at a 61; views under E; bundles under N and none under E, I and F.
#[test]
fn links_of_records() {
    let credit_record = [
        "record 5, Credit/Reconciliation Record (type 61), at offset 336",
        "field 1, Record Type, at offset 340",
        "found \"61\"",
    ];
    let at_credit = |file: &[u8], last: &str| link(file, [credit_record[0], credit_record[1], credit_record[2], last]);
    at_credit(
        &sample("damaged-22-owed-at-61.x9"),
        "field 12, Check Detail Record Addendum Count, of record 4 is \"01\", and 0 came",
    );
    at_credit(
        &sample("damaged-17-view-missing-at-61.x9"),
        "field 8, Cash Letter Record Type Indicator, of record 2 is \"I\", and the item of record 4 has no view",
    );
    at_credit(
        &with_fault('F', &[bundle_header(), check(5, ' ', 0), credit('4', 5)]),
        "field 8, Cash Letter Record Type Indicator, of record 2 is \"F\", and the item of record 4 has no view",
    );
    // The 33 is one addendum of the two that the 31 states: 336 + 84.
    link(
        &with_fault('E', &[bundle_header(), returned(5, 2), return_addendum_b(), credit('4', 5)]),
        [
            "record 6, Credit/Reconciliation Record (type 61), at offset 420",
            "field 1, Record Type, at offset 424",
            "found \"61\"",
            "field 8, Return Record Addendum Count, of record 4 is \"02\", and 1 came",
        ],
    );
    let view = "field 8, Cash Letter Record Type Indicator, of record 2 is \"E\": no view may come";
    // The check before the 61 has all its addenda, and owes nothing any more: 336 + 119 + 88 = 543.
    let check_and_addendum = [bundle_header(), check(1, ' ', 1), check_addendum_a(1)];
    let behind_a_check = with_fault('E', &[&check_and_addendum[..], &[credit('3', 1), view_detail('0')]].concat());
    for (file, record, offset) in [
        (sample("damaged-21-view-under-e.x9"), 4, 256),
        (with_fault('E', &[bundle_header(), credit('3', 1), view_detail('0')]), 5, 340),
        (behind_a_check, 7, 543),
    ] {
        let head = format!("record {record}, Image View Detail Record (type 50), at offset {offset}");
        link(&file, [&head, &format!("field 1, Record Type, at offset {}", offset + 4), "found \"50\"", view]);
    }
    let bundles = "field 8, Cash Letter Record Type Indicator, of record 2 is \"N\": no bundle may come";
    link(
        &with_fault('N', &[credit('1', 1), bundle_header()]),
        [
            "record 4, Bundle Header Record (type 20), at offset 256",
            "field 1, Record Type, at offset 260",
            "found \"20\"",
            bundles,
        ],
    );
    for content in ['E', 'I', 'F'] {
        let indicator = format!("field 8, Cash Letter Record Type Indicator, of record 2 is \"{content}\"");
        link(
            &with_fault(content, &[credit('1', 9), letter_sums(0, (0, 0), 0, (1, 9))]),
            [
                "record 4, Cash Letter Control Record (type 90), at offset 256",
                "field 1, Record Type, at offset 260",
                "found \"90\"",
                &format!("{indicator}: a bundle at least has to come before this record"),
            ],
        );
    }
}

/// A 61 owes no view, and pays none for the item before it: a check without a view behind a 61 is told at the record behind the check.
#[test]
fn a_view_missing_behind_a_credit() {
    let records = [bundle_header(), credit('3', 1), view_detail('0'), view_data(b""), check(5, ' ', 0)];
    // 84 x 3 + 88 + 84 + 143 + 84 = 651.
    link(
        &with_fault('I', &[&records[..], &[bundle_sums((1, 5), NOT_STATED, 1, (1, 1))]].concat()),
        [
            "record 8, Bundle Control Record (type 70), at offset 651",
            "field 1, Record Type, at offset 655",
            "found \"70\"",
            "field 8, Cash Letter Record Type Indicator, of record 2 is \"I\", and the item of record 7 has no view",
        ],
    );
}

/// The key of a 52 under a 61 (reading 28): in a bundle 20.4, 20.5, 20.9 and 61.8; directly in a letter 10.4, 10.5 and 61.8.
#[test]
fn links_of_views() {
    let sequence = "000000000000061";
    let of_credit = put(credit('1', 1), 63, sequence);
    let detail = view_detail('0');
    let data = put(view_data(b""), 22, sequence);
    // Field 2 at position 3, field 3 at 12, field 4 at 20, field 5 at 22.
    let wrong = [
        (2, 3, "ECE Institution Routing Number", "111111118"),
        (3, 12, "Bundle Business Date", "20240101"),
        (4, 20, "Cycle Number", "ab"),
        (5, 22, "ECE Institution Item Sequence Number", "000000000000062"),
    ];

    // In a bundle the 52 is the sixth record: 84 x 3 + 88 + 84 = 424.
    let in_bundle = [
        "field 4, Bundle ECE Institution Routing Number, of record 3 is \"123456780\"",
        "field 5, Bundle Business Date, of record 3 is \"20050230\"",
        "field 9, Cycle Number, of record 3 is \"AB\"",
        "field 8, Item Sequence Number, of record 4 is \"000000000000061\"",
    ];
    for ((field, position, name, contents), last) in wrong.into_iter().zip(in_bundle) {
        let data = put(data.clone(), position, contents);
        link(
            &with_fault('I', &[bundle_header(), of_credit.clone(), detail.clone(), data]),
            [
                "record 6, Image View Data Record (type 52), at offset 424",
                &format!("field {field}, {name}, at offset {}", 424 + 4 + position - 1),
                &format!("found \"{contents}\""),
                last,
            ],
        );
    }

    // Behind a bundle and directly in the letter, whose header has another institution and day: three of 84 and the 61, 50 and 52 of
    // the bundle take 567, its 70 ends at 651, and the 52 stands behind an 88 and an 84 at 823.
    let control = bundle_sums((0, 0), NOT_STATED, 1, (1, 1));
    let header = put(put(letter_header('I'), 14, "222222226"), 23, "20240115");
    let of_letter = put(put(data.clone(), 3, "222222226"), 12, "20240115");
    let in_letter = [
        Some("field 4, ECE Institution Routing Number, of record 2 is \"222222226\""),
        Some("field 5, Cash Letter Business Date, of record 2 is \"20240115\""),
        None,
        Some("field 8, Item Sequence Number, of record 8 is \"000000000000061\""),
    ];
    for ((field, position, name, contents), last) in wrong.into_iter().zip(in_letter) {
        let bundle = [bundle_header(), of_credit.clone(), detail.clone(), data.clone(), control.clone()];
        let direct = [of_credit.clone(), detail.clone(), put(of_letter.clone(), position, contents)];
        let records = [&[file_header(), header.clone()], &bundle[..], &direct[..]].concat();
        let Some(last) = last else {
            // The cycle number is not compared: the reading goes on to the end of the bytes.
            assert_eq!(read(&file(&records)).unwrap_err().number(), Number::OPEN);
            continue;
        };
        link(
            &file(&records),
            [
                "record 10, Image View Data Record (type 52), at offset 823",
                &format!("field {field}, {name}, at offset {}", 823 + 4 + position - 1),
                &format!("found \"{contents}\""),
                last,
            ],
        );
    }

    // Fields 7 and 8 with 50.10 as before; directly in the letter the 52 is the fifth record, at 84 + 84 + 88 + 84 = 340.
    link(
        &with_fault('I', &[of_credit, view_detail('1'), data]),
        [
            "record 5, Image View Data Record (type 52), at offset 340",
            "field 7, Security Authenticator Name, at offset 396",
            "found \"                \"",
            "it may not be blank, since field 10, Digital Signature Indicator, of record 4 is \"1\"",
        ],
    );
}

/// Every control field one too high, in a file whose every count and sum is another number.
///
/// Cash letter 1 has a bundle: a 25 of 1,000 (MICR valid) with a view, a 61 of 9 and 20 with two views, 61s of 300, 4,000 and 50,000; directly a 61 of 9
/// and 600,000, a 61 of 7,000,000 with a view. Cash letter 2 is of N and has a 61 of 80,000,000. Bundle: debits 2 of 1,020, credits 3 of 54,300, views 3.
/// Letter 1: debits 3 of 601,020, credits 4 of 7,054,300, views 4. File: 8 items, debits 3 of 601,020, credits 5 of 87,054,300.
/// Records: 01 and 99, two 10s and 90s, a 20 and a 70, a 25, seven 61s, four views of 2: 2 + 4 + 2 + 1 + 7 + 8 = 24.
#[test]
fn totals() {
    let view = |sequence: &str| vec![view_detail('0'), put(view_data(b""), 22, sequence)];
    let records = [
        vec![file_header(), letter_header('I'), bundle_header(), check(1_000, '1', 0)],
        view(SEQUENCE),
        vec![credit('9', 20)],
        view(SEQUENCE),
        view(SEQUENCE),
        vec![credit('3', 300), credit('5', 4_000), credit(' ', 50_000)],
        vec![bundle_sums((2, 1_020), "000000001000", 3, (3, 54_300)), credit('9', 600_000), credit('2', 7_000_000)],
        view(SEQUENCE),
        vec![letter_sums(1, (3, 601_020), 4, (4, 7_054_300)), letter_header('N'), credit('7', 80_000_000)],
        vec![letter_sums(0, (0, 0), 0, (1, 80_000_000)), file_sums(2, 24, 8, 601_020, 87_054_300)],
    ]
    .concat();
    assert_eq!(
        read(&file(&records)).unwrap().line(),
        "accepted records 24 letters 2 bundles 1 items 8 views 4 debit 601020"
    );
    // The record, the field's number and its last position, and the line.
    let cases = [
        (15, 2, 6, "debit items in the bundle: 2; credit items: 3"),
        (15, 3, 18, "cents of the debit items in the bundle: 1020; of the credit items: 54300"),
        (15, 4, 30, "cents of the items with MICR Valid Indicator 1 in the bundle: 1000"),
        (15, 5, 35, "views in the bundle: 3"),
        (15, 6, 39, "credit items in the bundle: 3; debit items: 2"),
        (15, 7, 51, "cents of the credit items in the bundle: 54300; of the debit items: 1020"),
        (20, 2, 8, "bundles in the cash letter: 1"),
        (20, 3, 16, "debit items in the cash letter: 3; credit items: 4"),
        (20, 4, 30, "cents of the debit items in the cash letter: 601020; of the credit items: 7054300"),
        (20, 5, 39, "views in the cash letter: 4"),
        (20, 8, 71, "credit items in the cash letter: 4; debit items: 3"),
        (20, 9, 85, "cents of the credit items in the cash letter: 7054300; of the debit items: 601020"),
        (24, 2, 8, "cash letters in the file: 2"),
        (24, 3, 16, "records, this one included, in the file: 24"),
        (24, 4, 24, "items in the file: 8; debit items: 3; credit items: 5"),
        (24, 5, 40, "cents of the debit items in the file: 601020; of the credit items: 87054300"),
        (24, 8, 80, "cents of the credit items in the file: 87054300; of the debit items: 601020"),
    ];
    for (record, field, position, last) in cases {
        let mut records = records.clone();
        records[record - 1][position - 1] += 1;
        let file = file(&records);
        let refusal = read(&file).unwrap_err();
        assert_eq!(
            (refusal.number(), refusal.record(), refusal.field()),
            (Number::TOTAL, record as u64, field),
            "{last}"
        );
        assert_eq!(words(&file).last().unwrap(), last);
    }
}

/// 184,468 credits of 99,999,999,999,999 cents: 184,468 x 10^14 - 184,468 cents, which 64 bits do not hold, and no field can state.
#[test]
fn a_sum_beyond_64_bits() {
    let mut records = vec![file_header(), letter_header('N')];
    records.extend(std::iter::repeat_n(credit('7', 99_999_999_999_999), 184_468));
    records.push(letter_sums(0, (0, 0), 0, (184_468, 0)));
    let lines = words(&file(&records));
    // 84 + 84 + 184,468 x 88 = 16,233,352; field 9 from position 72.
    assert_eq!(lines[1], "record 184471, Cash Letter Control Record (type 90), at offset 16233352");
    assert_eq!(lines[2], "field 9, Cash Letter Credit Total Amount, at offset 16233427");
    assert_eq!(lines[4], "cents of the credit items in the cash letter: 18446799999999815532; of the debit items: 0");
}

/// Clause 26 field by field: what is asked of each. The 61 is the third record, at 168; its first byte stands at 172.
#[test]
fn fields() {
    let routing = "a routing number in one of these forms: TTTTAAAAC (nine digits, the ninth the check digit of the ABA rule) or TTTTT-FFF (five \
                   digits, a dash, three digits), unless it holds a can't-read mark *";
    let cases = [
        (2, 3, "0", "Record Usage Indicator", "all blank, or one of 1, 2, 3, 4, 5, 6, 7, 8, 9"),
        (3, 4, "1A             ", "Auxiliary On-Us", "digits, blanks, dashes and the mark *"),
        (4, 19, "-", "External Processing Code", "digits, blanks and the mark *"),
        (5, 20, "1234-5678", "Posting Bank Routing Number", routing),
        (
            6,
            29,
            "1#                  ",
            "Posting Account Number (On-Us)",
            "digits, blanks, dashes, slashes and the mark *",
        ),
        (7, 49, "0000000000000 ", "Item Amount", "digits"),
        (8, 63, "1 2            ", "Item Sequence Number", "digits and blanks, no blank between digits"),
        (9, 78, "N", "Documentation Type Indicator", "all blank, or one of A-M"),
        (10, 79, "6", "Type of Account Code", "all blank, or one of 1-5, A-J"),
        (10, 79, "K", "Type of Account Code", "all blank, or one of 1-5, A-J"),
        (11, 80, "12", "Source of Work Code", "all blank, or one of 01-11, 21-50, 51-99"),
        (11, 80, "20", "Source of Work Code", "all blank, or one of 01-11, 21-50, 51-99"),
        (12, 82, "  .", "Reserved", "blanks"),
    ];
    for (field, position, contents, name, asked) in cases {
        let lines = words(&with_fault('N', &[put(credit('1', 1), position, contents)]));
        assert_eq!(
            lines,
            [
                "FIELD: a field breaks its data type or its defined values",
                "record 3, Credit/Reconciliation Record (type 61), at offset 168",
                &format!("field {field}, {name}, at offset {}", 172 + position - 1),
                &format!("found \"{contents}\""),
                &format!("asked: {asked}"),
            ]
        );
    }
    // Nine digits are judged by their check digit: 12345678 weighs 150, so that it is 0.
    let lines = words(&with_fault('N', &[put(credit('1', 1), 20, "123456784")]));
    assert_eq!(lines[5], "the check digit is wrong: it is 4 and should be 0");
    assert_eq!(words(&sample("damaged-23-source-of-work.x9"))[3], "found \"12\"");
}

/// The samples of wrong sums, worked out beside `peer/reader/src/samples.rs`.
#[test]
fn samples_of_wrong_sums() {
    for (name, last) in [
        ("damaged-24-credit-as-debit.x9", "cents of the debit items in the bundle: 30; of the credit items: 3000"),
        ("damaged-25-credit-left-out.x9", "cents of the credit items in the bundle: 3000; of the debit items: 30"),
        ("damaged-26-outside-left-out.x9", "credit items in the cash letter: 4; debit items: 4"),
        ("damaged-27-item-count.x9", "items in the file: 4; debit items: 1; credit items: 3"),
    ] {
        assert_eq!(words(&sample(name)).last().unwrap(), last, "{name}");
    }
}
