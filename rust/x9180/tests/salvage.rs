//! `salvage`: torn samples worked out by hand, torn files of the generator beside the independent salvage, every proper beginning of the samples, and the plain
//! words.

use std::collections::BTreeMap;
use std::path::{Path, PathBuf};

use peer_reader::copy::{copy, to_ebcdic};
use peer_reader::descent::{self, Number as PeerNumber};
use peer_reader::plain::*;
use peer_salvage::generate;
use peer_salvage::salvage::outcome;
use x9180::{Number, Part, Salvage, Sort, Status, Why, LIMIT};

fn root() -> PathBuf {
    Path::new(env!("CARGO_MANIFEST_DIR")).join("../..")
}

fn read(name: &str) -> Vec<u8> {
    std::fs::read(root().join(name)).unwrap()
}

/// All samples, sound and damaged, in either set.
fn samples() -> Vec<(String, Vec<u8>)> {
    let mut found = Vec::new();
    for folder in ["samples", "peer/samples", "peer/samples/ebcdic"] {
        for entry in std::fs::read_dir(root().join(folder)).unwrap() {
            let path = entry.unwrap().path();
            if path.extension() == Some("x9".as_ref()) {
                found.push((path.display().to_string(), std::fs::read(&path).unwrap()));
            }
        }
    }
    found.sort();
    assert_eq!(found.len(), 57);
    found
}

/// The list as the header has it: offset, type, status, number.
fn listed(salvage: &Salvage) -> Vec<[u64; 4]> {
    let status = |status| match status {
        Status::Kept => 0,
        Status::MadeNew => 1,
        Status::Dropped => 2,
    };
    let row = |listed: &x9180::Listed| {
        let number = listed.fault().map_or(0, |fault| fault.0);
        [listed.offset, listed.record_type, status(listed.status()), number]
    };
    salvage.list().iter().map(row).collect()
}

/// The sample of two letters, cut in its second bundle. Its records stand at the offsets that `icl/tests/pictures.rs` and the lengths tell: the first bundle
/// from 168 to 2,450, the 20, 25 and first 50 of the second at 2,450, 2,534 and 2,618, and the 52 cut off. Kept are 01, 10 and the bundle, as they stand; a 90 of 89
/// bytes and a 99 of 84 are new.
#[test]
fn a_sample_cut_in_a_bundle() {
    let file = read("samples/two-letters-with-pictures.x9");
    let salvage = x9180::salvage(&file[..2_900]).unwrap();
    assert_eq!(salvage.file().len(), 2_450 + 89 + 84);
    assert_eq!(salvage.file()[..2_450], file[..2_450]);
    // Two checks of 125.50 and 40.00, with two views each.
    let controls = [letter_control(1, 2, 16_550, 4), file_control(1, 19, 2, 16_550)];
    assert_eq!(salvage.file()[2_450..], peer_reader::plain::file(&controls));
    let totals = salvage.totals();
    assert_eq!((totals.records, totals.letters, totals.bundles, totals.items), (19, 1, 1, 2));
    assert_eq!((totals.views, totals.debit, totals.credit_items, totals.credit), (4, 16_550, 0, 0));
    let list = listed(&salvage);
    assert_eq!(list.len(), 20);
    assert!(list[..17].iter().all(|row| row[2..] == [0, 0]));
    assert_eq!(list[17..], [[2_450, 20, 2, 6], [2_534, 25, 2, 6], [2_618, 50, 2, 6]]);
    // In EBCDIC the same comes out, in ASCII.
    let in_ebcdic = read("samples/ebcdic-with-pictures.x9");
    assert_eq!(x9180::salvage(&in_ebcdic[..2_900]).unwrap(), salvage);
    assert_eq!(salvage.clone().into_file(), salvage.file());
}

#[test]
fn a_sound_file_loses_nothing() {
    let mut sound = 0;
    for (name, file) in samples() {
        let Ok(reading) = x9180::read(&file) else { continue };
        let salvage = x9180::salvage(&file).unwrap_or_else(|refusal| panic!("{name}: {refusal}"));
        assert_eq!(salvage.file(), copy(&file).as_ref(), "{name}");
        assert_eq!(salvage.totals(), reading.totals(), "{name}");
        let controls = |listed: &x9180::Listed| matches!(listed.record_type, 90 | 99);
        for listed in salvage.list() {
            let status = if controls(listed) { Status::MadeNew } else { Status::Kept };
            assert_eq!((listed.status(), listed.fault()), (status, None), "{name}");
        }
        assert!(salvage.list().iter().map(|listed| listed.offset).eq(reading.rows().iter().map(|row| row.offset)));
        assert!(salvage.parts().iter().all(|part| salvage.why(&file, part).is_none()), "{name}");
        sound += 1;
    }
    assert_eq!(sound, 22);
}

/// Torn files of every shape of the generator. What is written and listed is the independent side's; the parts take in every row once, and what is said of
/// those dropped goes with their numbers.
#[test]
fn torn_files_beside_the_independent_salvage() {
    let (mut written, mut refusals, mut reasons) = (0, BTreeMap::new(), BTreeMap::new());
    for index in 0..3_000 {
        let file = generate::file(11, index).bytes;
        let expected = outcome(&file);
        match x9180::salvage(&file) {
            Ok(salvage) => {
                assert_eq!(salvage.file(), expected.file, "file {index}");
                assert_eq!(listed(&salvage), expected.list, "file {index}");
                let totals = salvage.totals();
                let sums = [totals.debit, totals.credit_items, totals.credit];
                let numbers = [totals.records, totals.letters, totals.bundles, totals.items, totals.views];
                assert_eq!((0, &expected.answer[4..]), (expected.answer[0], [&numbers[..], &sums].concat().as_slice()));
                check_parts(&file, &salvage, &mut reasons);
                written += 1;
            }
            Err(refusal) => {
                let [number, record, field, offset, ..] = expected.answer;
                assert_eq!((refusal.number(), refusal.record()), (Number(number), record), "file {index}");
                assert_eq!((refusal.field(), refusal.offset()), (field, offset), "file {index}");
                assert!(
                    refusal.to_string().len() > refusal.number().name().len() + refusal.number().meaning().len() + 2
                );
                *refusals.entry(refusal.number().name()).or_insert(0) += 1;
            }
        }
    }
    assert!(written > 1_500, "{written}");
    assert!(["NOTHING", "SIZE", "TOTAL"].iter().all(|name| refusals.contains_key(name)), "{refusals:?}");
    let all = ["fault", "half view", "not closed", "unsound header", "letter without bundle", "astray"];
    assert!(all.iter().all(|reason| reasons.get(reason).is_some_and(|count| *count > 10)), "{reasons:?}");
}

fn check_parts(file: &[u8], salvage: &Salvage, reasons: &mut BTreeMap<&'static str, u64>) {
    let mut next = 0;
    for part in salvage.parts() {
        assert_eq!(part.rows.start, next);
        next = part.rows.end;
        let rows = &salvage.list()[part.rows.clone()];
        let (status, fault) = (rows[0].status(), rows[0].fault());
        assert!(rows.iter().all(|listed| (listed.status(), listed.fault()) == (status, fault)));
        let why = salvage.why(file, &part);
        assert_eq!(why.is_some(), status == Status::Dropped);
        let Some(why) = why else { continue };
        *reasons.entry(reason(&part, fault, &why, salvage)).or_insert(0) += 1;
        assert_eq!(format!("{why:#}").lines().collect::<Vec<_>>().join("; "), why.to_string());
    }
    assert_eq!(next, salvage.list().len());
}

/// A name for it, and whether it goes with the number on the list and names a record of the part.
fn reason(part: &Part, fault: Option<Number>, why: &Why, salvage: &Salvage) -> &'static str {
    let place = Some(Number::PLACE);
    match why {
        Why::Fault(refusal) => {
            let number = if part.sort == Sort::Header { Some(Number::PLACE) } else { Some(refusal.number()) };
            assert_eq!(fault, number, "{refusal}");
            let row = usize::try_from(refusal.record()).unwrap() - 1;
            assert!(part.rows.contains(&row) && salvage.list()[row].offset == refusal.offset(), "{part:?} {refusal}");
            assert!(part.sort != Sort::Header || matches!(refusal.number(), Number::LENGTH | Number::FIELD));
            "fault"
        }
        Why::HalfView => {
            assert_eq!((fault, part.sort), (place, Sort::Credit));
            "half view"
        }
        Why::NotClosed => {
            assert_eq!((fault, part.sort), (place, Sort::OpenBundle));
            "not closed"
        }
        Why::UnsoundHeader => {
            assert!(fault == place && part.header.is_some());
            "unsound header"
        }
        Why::LetterWithoutBundle => {
            assert!(fault == place && part.header.is_some());
            "letter without bundle"
        }
        Why::Astray => {
            assert_eq!((fault, part.sort), (place, Sort::Stray));
            "astray"
        }
    }
}

/// The bundles of a file by the independent reader's rows: each from its 20 up to behind its 70.
fn bundles(file: &[u8]) -> Vec<std::ops::Range<usize>> {
    let reading = descent::read(file);
    let ends = |kind: u64| reading.rows.iter().filter(move |row| row[0] == kind);
    ends(20).zip(ends(70)).map(|(first, last)| first[1] as usize..(last[1] + 4 + last[2]) as usize).collect()
}

/// Issue 22: every proper beginning of the samples, salvaged by the library, is accepted by the independent reader or NOTHING; and of sound samples the
/// kept bundles are those that are whole, byte for byte.
#[test]
fn every_proper_beginning_of_the_samples() {
    let (mut cuts, mut written, mut kept) = (0, 0, 0);
    for (name, file) in samples() {
        let is_sound = descent::read(&file).answer.number == PeerNumber::Accepted;
        let (copied, whole) = (copy(&file), bundles(&file));
        for end in 1..file.len() {
            cuts += 1;
            let left = match x9180::salvage(&file[..end]) {
                Ok(salvage) => {
                    let answer = descent::read(salvage.file()).answer;
                    assert_eq!(answer.number, PeerNumber::Accepted, "{name} cut at {end}");
                    written += 1;
                    salvage.into_file()
                }
                Err(refusal) => {
                    assert_eq!(refusal.number(), Number::NOTHING, "{name} cut at {end}");
                    Vec::new()
                }
            };
            if is_sound {
                let expected = whole.iter().filter(|bundle| bundle.end <= end).map(|bundle| &copied[bundle.clone()]);
                assert!(
                    bundles(&left).into_iter().map(|bundle| &left[bundle]).eq(expected.clone()),
                    "{name} cut at {end}"
                );
                kept += expected.count();
            }
        }
    }
    assert!(cuts > 50_000 && written > 20_000 && kept > 10_000, "{cuts} beginnings, {written} written, {kept} bundles");
}

/// The lines behind the first of a refusal.
fn words(file: &[u8]) -> (u64, Vec<String>) {
    let refusal = x9180::salvage(file).unwrap_err();
    assert_eq!(
        (refusal.more_bytes(), refusal.decided_by().is_some()),
        (refusal.more_bytes().filter(|_| refusal.number() == Number::SIZE), false)
    );
    (refusal.number().0, format!("{refusal:#}").lines().skip(1).map(str::to_string).collect())
}

#[test]
fn why_nothing_is_left() {
    let bundle = [bundle_header(), check(100, ' ', 0)];
    let header = |content| vec![file_header(), letter_header(content)];
    let cases: [(Vec<u8>, &[&str]); 7] = [
        (
            b"\0\0\0\x5001".to_vec(),
            &[
                "record 1, at offset 0",
                "its length says 80 bytes; bytes left: 2",
                "found in place of the length: the bytes 00 00 00 50 (hexadecimal)",
            ],
        ),
        (
            b"\0\0\0\x010".to_vec(),
            &["record 1, at offset 0", "its length says 1, and a record has a type of two characters at least"],
        ),
        (
            file(&[letter_header('N'), file_control(1, 2, 0, 0)]),
            &[
                "record 1, Cash Letter Header Record (type 10), at offset 0",
                "a file begins with a File Header Record (type 01)",
            ],
        ),
        (
            file(&[put(file_header(), 5, "X"), letter_header('N')]),
            &[
                "record 1, File Header Record (type 01), at offset 0",
                "field 3, File Type Indicator, at offset 8",
                "found \"X\"",
                "asked: one of P, T, A, B",
            ],
        ),
        (file(&[file_header()]), &["the file header is sound, but no Cash Letter Header Record (type 10) was walked"]),
        (
            file(&[header('E'), bundle.to_vec()].concat()),
            &[
                "the file header is sound; Cash Letter Header Records (type 10) walked: 1",
                "not sound: 0; sound, but without the sound bundle that Annex B asks for: 1",
            ],
        ),
        (
            file(
                &[header('I'), vec![put(letter_header('N'), 43, "X")], vec![put(letter_header('N'), 43, "?")]].concat(),
            ),
            &[
                "the file header is sound; Cash Letter Header Records (type 10) walked: 3",
                "not sound: 2; sound, but without the sound bundle that Annex B asks for: 1",
            ],
        ),
    ];
    for (file, lines) in cases {
        assert_eq!(words(&file), (17, lines.iter().map(|line| line.to_string()).collect()));
    }
    // In EBCDIC what was found is shown as text.
    let (number, lines) = words(&to_ebcdic(&file(&[put(file_header(), 5, "X"), letter_header('N')])));
    assert_eq!((number, lines[2].as_str()), (17, "found \"X\""));
}

#[test]
fn other_refusals() {
    assert_eq!(words(b""), (1, vec!["found 0 bytes".to_string()]));
    assert_eq!(words(&vec![0; LIMIT + 1]), (1, vec!["found 268435457 bytes".to_string()]));
    // Two credits of 14 nines directly in a letter: 15 digits, where 90.9 holds 14. The 90 is record 5, behind 84 + 84 + 2 x 88 bytes.
    let most = 99_999_999_999_999;
    let torn = file(&[file_header(), letter_header('N'), credit('1', most), credit('1', most)]);
    let expected = [
        "record 5 of the file being made, Cash Letter Control Record (type 90), at offset 344 of it",
        "field 9, Cash Letter Credit Total Amount",
        "the sum is too long: the field holds 14 digits",
    ];
    assert_eq!(words(&torn), (9, expected.map(str::to_string).to_vec()));
    let refusal = x9180::salvage(&torn).unwrap_err();
    assert_eq!((refusal.record(), refusal.field(), refusal.offset()), (5, 9, 344));
    assert_eq!(refusal.kind().map(|kind| kind.number), Some(90));
}

/// What is said of each part of a file that has all sorts of them, in either set: records and offsets are those of the torn file.
#[test]
fn why_each_part_was_dropped() {
    let other_check = put(check(100, ' ', 0), 19, "123456781");
    let records = [
        file_header(),
        letter_header('N'),         // 2, kept
        file_header(),              // 3, a second one: astray
        credit('1', 100),           // 4, kept
        credit('1', 200),           // 5, ends behind its 50
        view_detail('0'),           // 6
        letter_control(0, 0, 0, 0), // 7, made new
        letter_control(9, 0, 0, 0), // 8, astray
        letter_header('E'),         // 9, kept
        bundle_header(),            // 10, not closed
        bundle_header(),            // 11, a wrong check digit at 12
        other_check,                // 12
        bundle_control(1, 100, NOT_STATED, 0),
        bundle_header(),    // 14, kept
        check(100, ' ', 0), // 15
        bundle_control(1, 100, NOT_STATED, 0),
        bundle_header(),    // 17, a wrong sum at 19
        check(100, ' ', 0), // 18
        bundle_control(1, 300, NOT_STATED, 0),
        letter_header('I'),               // 20, no bundle of it is sound
        credit('1', 300),                 // 21
        letter_control(0, 0, 0, 0),       // 22
        put(letter_header('N'), 43, "X"), // 23, not sound
        credit('1', 400),                 // 24
    ];
    let ascii = file(&records);
    for torn in [ascii.clone(), to_ebcdic(&ascii)] {
        let salvage = x9180::salvage(&torn).unwrap();
        let told: Vec<(usize, String)> = salvage
            .parts()
            .iter()
            .filter_map(|part| Some((part.rows.start + 1, salvage.why(&torn, part)?)))
            .map(|(record, why)| (record, why.to_string()))
            .collect();
        // 01, 10, 20, 25, 50, 70: 84 bytes each; 61: 88; 90: 89.
        let astray = "PLACE: it belongs to no bundle, credit or cash letter that is kept";
        let no_bundle = "PLACE: its cash letter is to hold a bundle (Annex B), and no sound one is left";
        let expected = [
            (3, astray.to_string()),
            (5, "PLACE: it ends behind an Image View Detail Record (type 50), and the Image View Data Record (type 52) of the view is missing".to_string()),
            (8, astray.to_string()),
            (10, "PLACE: no Bundle Control Record (type 70) closes it".to_string()),
            (11, format!("FIELD: a field breaks its data type or its defined values; record 12, Check Detail Record (type 25), at offset {}; field 4, Payor Bank Routing Number, at offset {}; found \"123456781\"; asked: {}; the check digit is wrong: it is 1 and should be 0", 942, 942 + 4 + 18, x9180::Kind::of(25).unwrap().field(4).unwrap().asked())),
            (17, format!("TOTAL: a control field is not what its part of the file adds up to; record 19, Bundle Control Record (type 70), at offset {}; field 3, Bundle Debit Total Amount, at offset {}; found \"000000000300\"; cents of the debit items in the bundle: 100", 1_530, 1_530 + 4 + 6)),
            (20, no_bundle.to_string()),
            (21, no_bundle.to_string()),
            (22, no_bundle.to_string()),
            (23, format!("FIELD: a field breaks its data type or its defined values; record 23, Cash Letter Header Record (type 10), at offset {}; field 8, Cash Letter Record Type Indicator, at offset {}; found \"X\"; asked: {}", 1_875, 1_875 + 4 + 42, x9180::Kind::of(10).unwrap().field(8).unwrap().asked())),
            (24, "PLACE: the header of its cash letter is not sound".to_string()),
        ];
        assert_eq!(told, expected);
    }
}
