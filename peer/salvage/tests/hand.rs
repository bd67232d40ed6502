//! Cases worked out by hand from request 11 and readings 60 to 67. The records are those that `plain` spells out; each case is put in ASCII and in
//! EBCDIC, and to both opinions.

use peer_reader::copy::to_ebcdic;
use peer_reader::plain::*;
use peer_salvage::opinion::opinion;
use peer_salvage::salvage::{outcome, salvage, Outcome};

const SIZE: u64 = 1;
const ROOM: u64 = 2;
const LENGTH: u64 = 4;
const TYPE: u64 = 5;
const PLACE: u64 = 6;
const FIELD: u64 = 7;
const LINK: u64 = 8;
const TOTAL: u64 = 9;
const NOTHING: u64 = 17;

/// What becomes of a record: its type, status and number.
type Row = [u64; 3];

const fn kept(code: u64) -> Row {
    [code, 0, 0]
}

const fn new(code: u64) -> Row {
    [code, 1, 0]
}

const fn dropped(code: u64, number: u64) -> Row {
    [code, 2, number]
}

/// Both opinions on the file, and on it in EBCDIC.
fn outcomes(file: &[u8]) -> Outcome {
    let found = outcome(file);
    assert_eq!(found, opinion(file), "the second opinion");
    if file.get(4..6) == Some(b"01") {
        let version = to_ebcdic(file);
        assert_eq!(outcome(&version), found, "in EBCDIC");
        assert_eq!(opinion(&version), found, "the second opinion in EBCDIC");
    }
    found
}

/// A file of these records with some bytes behind them: what is listed, and what is written.
#[track_caller]
fn salvaged(records: &[Vec<u8>], behind: &[u8], rows: &[Row], written: &[Vec<u8>]) {
    let torn = [file(records).as_slice(), behind].concat();
    let found = outcomes(&torn);
    let mut offset = 0;
    let mut expected = Vec::new();
    for (record, [code, status, number]) in records.iter().zip(rows) {
        expected.push([offset, *code, *status, *number]);
        offset += 4 + record.len() as u64;
    }
    assert_eq!(found.list, expected);
    assert_eq!(found.file.escape_ascii().to_string(), file(written).escape_ascii().to_string());
    assert_eq!(found.answer[..4], [0, written.len() as u64, 0, file(written).len() as u64]);
}

#[track_caller]
fn refused(torn: &[u8], number: u64, record: u64, field: u64, offset: u64) {
    let found = outcomes(torn);
    assert_eq!(found.answer, [number, record, field, offset, 0, 0, 0, 0, 0, 0, 0, 0]);
    assert!(found.file.is_empty() && found.list.is_empty());
    let (mut out, mut list) = (vec![0xA5; 3 * torn.len() + 400], vec![0xA5; torn.len() + 400]);
    assert_eq!(salvage(torn, &mut out, &mut list)[0], number);
    assert!(out.iter().all(|byte| *byte == 0xA5) && list.iter().all(|number| *number == 0xA5));
}

/// A bundle of one check.
fn bundle(amount: u64) -> Vec<Vec<u8>> {
    vec![bundle_header(), check(amount, ' ', 0), bundle_control(1, amount, NOT_STATED, 0)]
}

/// A bundle of one check with a view.
fn viewed(amount: u64) -> Vec<Vec<u8>> {
    let control = bundle_control(1, amount, NOT_STATED, 1);
    vec![bundle_header(), check(amount, ' ', 0), view_detail('0'), view_data(b"im"), control]
}

/// A 52 of a 61 directly under a 10: the same routing number and date as there, and the same sequence number. Field 4 is not compared.
fn direct_data() -> Vec<u8> {
    put(view_data(b"image"), 20, "ZZ")
}

fn one(record: Vec<u8>) -> Vec<Vec<u8>> {
    vec![record]
}

/// Records one behind the other.
fn all(parts: &[Vec<Vec<u8>>]) -> Vec<Vec<u8>> {
    parts.concat()
}

fn begin(content: char) -> Vec<Vec<u8>> {
    vec![file_header(), letter_header(content)]
}

// Refusals.

#[test]
fn no_byte_is_size() {
    refused(b"", SIZE, 0, 0, 0);
}

#[test]
fn nothing_where_no_record_is_walked() {
    refused(b"\0\0\0\x50", NOTHING, 0, 0, 0);
    refused(b"\0\0\0", NOTHING, 0, 0, 0);
    refused(b"\0\0\0\0", NOTHING, 0, 0, 0);
    refused(b"\0\0\0\x010", NOTHING, 0, 0, 0);
    // Cut in its only record, which begins with F0 F1: EBCDIC, and nothing to walk.
    refused(b"\0\0\0\x50\xF0\xF1", NOTHING, 0, 0, 0);
}

#[test]
fn nothing_without_a_sound_01() {
    let rest = || vec![letter_header('N'), letter_control(0, 0, 0, 0), file_control(1, 4, 0, 0)];
    for first in [
        put(file_header(), 1, "10"),             // no 01
        put(file_header(), 24, "19921231"),      // FIELD
        [file_header(), b" ".to_vec()].concat(), // LENGTH
        file_header()[..79].to_vec(),            // LENGTH
        file_header()[..2].to_vec(),             // a 01 by its first two characters alone, and too short
        put(file_header(), 80, "x"),             // 01.14 is blank
    ] {
        refused(&file(&all(&[one(first), rest()])), NOTHING, 0, 0, 0);
    }
    // A sound 01 that stands second is none.
    refused(&file(&all(&[one(letter_header('N')), one(file_header()), rest()])), NOTHING, 0, 0, 0);
}

#[test]
fn nothing_where_no_letter_is_left() {
    refused(&file(&[file_header()]), NOTHING, 0, 0, 0);
    refused(&file(&[file_header(), file_control(1, 4, 0, 0)]), NOTHING, 0, 0, 0);
    // The header's year is 1992.
    let unsound = put(letter_header('N'), 23, "19921231");
    refused(&file(&[file_header(), unsound, letter_control(0, 0, 0, 0)]), NOTHING, 0, 0, 0);
    // Annex B asks for a bundle under E, I and F, in either case.
    for content in "EIFeif".chars() {
        refused(&file(&begin(content)), NOTHING, 0, 0, 0);
        refused(&file(&all(&[begin(content), one(credit('9', 7))])), NOTHING, 0, 0, 0);
    }
    // Behind the 99 nothing is walked.
    let torn = all(&[one(file_header()), one(file_control(1, 4, 0, 0)), begin('N')]);
    refused(&file(&torn), NOTHING, 0, 0, 0);
}

/// 90.9 has fourteen digits: two times 99,999,999,999,999 is too long. The 90 would be record 5, behind 84, 84, 88 and 88 bytes.
#[test]
fn total_where_a_new_control_cannot_state_a_sum() {
    let credits = |usage: char| all(&[begin('N'), one(credit(usage, 99_999_999_999_999)), one(credit(usage, 1))]);
    refused(&file(&credits(' ')), TOTAL, 5, 9, 344);
    refused(&file(&credits('9')), TOTAL, 5, 4, 344);
    // Whatever the old controls state, and though the buffer and the list are short.
    let whole = all(&[credits('1'), one(letter_sums(0, (0, 0), 0, (2, 0))), one(file_sums(1, 6, 2, 0, 0))]);
    assert_eq!(salvage(&file(&whole), &mut [], &mut [])[..4], [TOTAL, 5, 9, 344]);
    // A sum of fourteen nines can be stated.
    let fits = all(&[begin('N'), one(credit('1', 99_999_999_999_998)), one(credit('1', 1))]);
    assert_eq!(outcomes(&file(&fits)).answer[..4], [0, 6, 0, 84 + 84 + 88 + 88 + 89 + 84]);
}

/// 01, 10, 90, 99 are 84 + 84 + 89 + 84 = 341 bytes, and four rows are sixteen numbers.
#[test]
fn room_for_the_bytes_and_then_for_the_rows() {
    let whole = file(&all(&[begin('N'), one(letter_control(0, 0, 0, 0)), one(file_control(1, 4, 0, 0))]));
    let try_with = |bytes: usize, numbers: usize| {
        let (mut out, mut list) = (vec![0xA5; bytes], vec![7; numbers]);
        let answer = salvage(&whole, &mut out, &mut list);
        if answer[0] != 0 {
            assert!(out.iter().all(|byte| *byte == 0xA5) && list.iter().all(|number| *number == 7));
        }
        (answer, out, list)
    };
    for (bytes, numbers, needed) in
        [(340, 16, 341), (0, 16, 341), (340, 0, 341), (341, 15, 4), (341, 0, 4), (900, 12, 4)]
    {
        assert_eq!(try_with(bytes, numbers).0, [ROOM, needed, 0, 0, 0, 0, 0, 0, 0, 0, 0, 0]);
    }
    for (bytes, numbers) in [(341, 16), (342, 17), (400, 19), (341, 40)] {
        let (answer, out, list) = try_with(bytes, numbers);
        assert_eq!(answer, [0, 4, 0, 341, 4, 1, 0, 0, 0, 0, 0, 0]);
        assert_eq!(out[..341], whole);
        assert!(out[341..].iter().all(|byte| *byte == 0xA5) && list[16..].iter().all(|number| *number == 7));
        assert_eq!(list[..16], [0, 1, 0, 0, 84, 10, 0, 0, 168, 90, 1, 0, 257, 99, 1, 0]);
    }
}

// What is kept.

#[test]
fn a_sound_file_loses_nothing() {
    let records = all(&[
        begin('I'),
        one(credit('9', 5)),
        viewed(100),
        one(credit('1', 7)),
        one(view_detail('0')),
        one(direct_data()),
        one(letter_sums(1, (2, 105), 2, (1, 7))),
        one(letter_header('n')),
        one(letter_control(0, 0, 0, 0)),
        one(file_sums(2, 15, 3, 105, 7)),
    ]);
    let codes = [1, 10, 61, 20, 25, 50, 52, 70, 61, 50, 52, 90, 10, 90, 99];
    let rows: Vec<Row> = codes.map(|code| if code >= 90 { new(code) } else { kept(code) }).to_vec();
    salvaged(&records, b"", &rows, &records);
    assert_eq!(outcomes(&file(&records)).answer[4..], [15, 2, 1, 3, 2, 105, 1, 7]);
}

/// The line drops in the second bundle: the first is kept, and 90 and 99 are written though none was walked.
#[test]
fn the_good_bundle_of_a_torn_file() {
    let torn = all(&[begin('E'), bundle(100), one(bundle_header()), one(check(200, ' ', 0))]);
    let rows = [kept(1), kept(10), kept(20), kept(25), kept(70), dropped(20, PLACE), dropped(25, PLACE)];
    let controls = [letter_control(1, 1, 100, 0), file_control(1, 7, 1, 100)];
    let written = all(&[begin('E'), bundle(100), controls.to_vec()]);
    for behind in [&b""[..], b"\0\0\0", b"\0\0\0\x5070", b"\0\0\0\0and more", b"\0\0\0\x017"] {
        salvaged(&torn, behind, &rows, &written);
    }
    let found = outcomes(&file(&torn));
    assert_eq!(found.answer, [0, 7, 0, 5 * 84 + 89 + 84, 7, 1, 1, 1, 0, 100, 0, 0]);
    assert_eq!(found.list[6], [504, 25, 2, 6]);
}

/// A bundle that ends before the next 20 is torn, also where a 70 stands behind that one.
#[test]
fn a_bundle_without_its_70() {
    let torn = all(&[begin('E'), bundle(1)[..2].to_vec(), bundle(2), one(letter_control(2, 2, 3, 0))]);
    let rows = [kept(1), kept(10), dropped(20, PLACE), dropped(25, PLACE), kept(20), kept(25), kept(70), new(90)];
    let written = all(&[begin('E'), bundle(2), one(letter_control(1, 1, 2, 0)), one(file_control(1, 7, 1, 2))]);
    salvaged(&torn, b"", &rows, &written);
}

/// Without its 20 a bundle's records are strays: PLACE, the 70 too.
#[test]
fn a_bundle_without_its_20() {
    let torn = all(&[begin('E'), bundle(1)[1..].to_vec(), bundle(2)]);
    let rows = [kept(1), kept(10), dropped(25, PLACE), dropped(70, PLACE), kept(20), kept(25), kept(70)];
    let written = all(&[begin('E'), bundle(2), one(letter_control(1, 1, 2, 0)), one(file_control(1, 7, 1, 2))]);
    salvaged(&torn, b"", &rows, &written);
}

/// Each record of an unsound run has the number of the run's first fault.
#[test]
fn the_first_fault_of_a_run_stands_at_each_of_its_records() {
    let with = |records: Vec<Vec<u8>>, number: u64| {
        let codes: Vec<u64> =
            records.iter().map(|record| (record[0] - b'0') as u64 * 10 + (record[1] - b'0') as u64).collect();
        let torn = all(&[begin('E'), records, bundle(2)]);
        let mut rows = vec![kept(1), kept(10)];
        rows.extend(codes.iter().map(|code| dropped(*code, number)));
        rows.extend([kept(20), kept(25), kept(70)]);
        let written = all(&[begin('E'), bundle(2), one(letter_control(1, 1, 2, 0)), one(file_control(1, 7, 1, 2))]);
        salvaged(&torn, b"", &rows, &written);
    };
    let end = || bundle_control(1, 1, NOT_STATED, 0);
    with(vec![bundle_header(), put(check(1, ' ', 0), 1, "40"), end()], TYPE);
    with(vec![bundle_header(), end()], PLACE);
    with(vec![bundle_header(), file_header(), check(1, ' ', 0), end()], PLACE);
    with(vec![bundle_header(), check(1, ' ', 0), returned(1, 0), end()], PLACE);
    with(vec![bundle_header(), [check(1, ' ', 0), b" ".to_vec()].concat(), end()], LENGTH);
    with(vec![bundle_header(), check(1, ' ', 0), end()[..79].to_vec()], LENGTH);
    with(vec![bundle_header(), put(check(1, ' ', 0), 48, " "), end()], FIELD);
    with(vec![put(bundle_header(), 74, "x"), check(1, ' ', 0), end()], FIELD);
    with(vec![bundle_header(), check(1, ' ', 1), end()], LINK);
    with(vec![bundle_header(), check(1, ' ', 0), view_detail('0'), view_data(b""), end()], LINK); // a view under E
    with(vec![bundle_header(), check(1, ' ', 0), bundle_control(2, 1, NOT_STATED, 0)], TOTAL);
    with(vec![bundle_header(), check(1, ' ', 0), bundle_control(1, 1, "000000000001", 0)], TOTAL);
    // The first one: FIELD at the 25, whatever the 70 states.
    with(vec![bundle_header(), put(check(1, ' ', 0), 48, " "), bundle_control(2, 1, NOT_STATED, 0)], FIELD);
}

/// A 70.4 that is blank stays blank, and one that is stated stays.
#[test]
fn the_micr_total_stays_as_it_stands() {
    let stated = vec![bundle_header(), check(3, '1', 0), bundle_control(1, 3, "000000000003", 0)];
    let blank = vec![bundle_header(), check(4, '1', 0), bundle_control(1, 4, NOT_STATED, 0)];
    let records = all(&[begin('E'), stated, blank]);
    let rows = [1, 10, 20, 25, 70, 20, 25, 70].map(kept);
    let written = all(&[records.clone(), one(letter_control(2, 2, 7, 0)), one(file_control(1, 10, 2, 7))]);
    salvaged(&records, b"", &rows, &written);
}

// Headers.

/// What is under an unsound 10 is PLACE, also a run with a fault of its own; what is under the next is judged by the next.
#[test]
fn an_unsound_header_takes_all_under_it() {
    let wrong = vec![bundle_header(), check(1, ' ', 0), bundle_control(9, 1, NOT_STATED, 0)];
    let unsound = put(letter_header('E'), 3, "xx");
    let torn = all(&[
        begin('N'),
        one(unsound),
        one(credit('1', 7)),
        bundle(2),
        wrong,
        one(letter_control(2, 2, 3, 0)),
        one(letter_header('e')),
        bundle(5),
    ]);
    let rows = [
        kept(1),
        kept(10),
        dropped(10, PLACE),
        dropped(61, PLACE),
        dropped(20, PLACE),
        dropped(25, PLACE),
        dropped(70, PLACE),
        dropped(20, PLACE),
        dropped(25, PLACE),
        dropped(70, PLACE),
        dropped(90, PLACE),
        kept(10),
        kept(20),
        kept(25),
        kept(70),
    ];
    let first = all(&[begin('N'), one(letter_control(0, 0, 0, 0))]);
    let second = all(&[one(letter_header('e')), bundle(5), one(letter_control(1, 1, 5, 0))]);
    salvaged(&torn, b"", &rows, &all(&[first, second, one(file_control(2, 9, 1, 5))]));
}

/// A letter of I whose only bundle is unsound is dropped whole: the bundle with its fault, the sound 61, the header and the 90 with PLACE.
#[test]
fn annex_b_drops_a_letter_without_its_bundle() {
    for content in "IiFf".chars() {
        let torn = all(&[
            begin('N'),
            one(letter_header(content)),
            one(credit('1', 7)),
            bundle(2), // no view: LINK at its 70
            one(letter_control(1, 1, 2, 0)),
        ]);
        let rows = [
            kept(1),
            kept(10),
            dropped(10, PLACE),
            dropped(61, PLACE),
            dropped(20, LINK),
            dropped(25, LINK),
            dropped(70, LINK),
            dropped(90, PLACE),
        ];
        let written = all(&[begin('N'), one(letter_control(0, 0, 0, 0)), one(file_control(1, 4, 0, 0))]);
        salvaged(&torn, b"", &rows, &written);
    }
}

/// N takes no bundle, LINK at its 20, and is kept with its 61s, or with nothing.
#[test]
fn a_letter_of_n_is_kept_without_its_bundle() {
    for content in ['N', 'n'] {
        let torn = all(&[begin(content), bundle(2), one(credit('9', 7)), one(letter_control(1, 1, 2, 0))]);
        let rows = [kept(1), kept(10), dropped(20, LINK), dropped(25, LINK), dropped(70, LINK), kept(61), new(90)];
        let controls = vec![letter_sums(0, (1, 7), 0, (0, 0)), file_sums(1, 5, 1, 7, 0)];
        salvaged(&torn, b"", &rows, &all(&[begin(content), one(credit('9', 7)), controls]));
    }
}

/// A lost 10: its records stand under the one before, where a view makes the difference.
#[test]
fn a_run_is_judged_under_the_header_it_stands_under() {
    let torn = all(&[begin('I'), viewed(1), bundle(2)]);
    let rows = [
        kept(1),
        kept(10),
        kept(20),
        kept(25),
        kept(50),
        kept(52),
        kept(70),
        dropped(20, LINK),
        dropped(25, LINK),
        dropped(70, LINK),
    ];
    let written = all(&[begin('I'), viewed(1), one(letter_control(1, 1, 1, 1)), one(file_control(1, 9, 1, 1))]);
    salvaged(&torn, b"", &rows, &written);
    // A 61's view repeats the first 10's routing number, not that of its own.
    let other = put(letter_header('N'), 14, "999999999");
    let torn = all(&[begin('N'), one(other.clone()), one(credit('1', 7)), one(view_detail('0')), one(direct_data())]);
    let rows = [kept(1), kept(10), kept(10), dropped(61, LINK), dropped(50, LINK), dropped(52, LINK)];
    let none = || one(letter_control(0, 0, 0, 0));
    salvaged(&torn, b"", &rows, &all(&[begin('N'), none(), one(other), none(), one(file_control(2, 6, 0, 0))]));
}

// 61s.

/// Directly under the 10, behind a stray, behind a whole run of it, and behind a 70 whose 20 was lost.
#[test]
fn a_61_in_no_stretch_is_kept_wherever_it_stands() {
    let torn = all(&[
        begin('N'),
        one(credit('1', 1)),
        one(check(5, ' ', 0)),
        one(credit('1', 2)),
        one(bundle_control(1, 5, NOT_STATED, 0)),
        one(credit('9', 4)),
        bundle(6),
        one(credit('2', 8)),
    ]);
    let rows = [
        kept(1),
        kept(10),
        kept(61),
        dropped(25, PLACE),
        kept(61),
        dropped(70, PLACE),
        kept(61),
        dropped(20, LINK),
        dropped(25, LINK),
        dropped(70, LINK),
        kept(61),
    ];
    let credits = vec![credit('1', 1), credit('1', 2), credit('9', 4), credit('2', 8)];
    let controls = vec![letter_sums(0, (1, 4), 0, (3, 11)), file_sums(1, 8, 4, 4, 11)];
    salvaged(&torn, b"", &rows, &all(&[begin('N'), credits, controls]));
}

/// In a stretch without a 70 a 61 goes with it, sound as it may be; behind the next bundle's 70 it is direct again.
#[test]
fn a_61_of_a_torn_bundle_is_dropped() {
    let torn = all(&[begin('E'), one(bundle_header()), one(credit('1', 3)), bundle(2), one(credit('1', 7))]);
    let rows = [kept(1), kept(10), dropped(20, PLACE), dropped(61, PLACE), kept(20), kept(25), kept(70), kept(61)];
    let controls = vec![letter_sums(1, (1, 2), 0, (1, 7)), file_sums(1, 8, 2, 2, 7)];
    salvaged(&torn, b"", &rows, &all(&[begin('E'), bundle(2), one(credit('1', 7)), controls]));
}

/// In a bundle a 61 counts there; a bundle of 61s alone is one.
#[test]
fn a_61_in_a_bundle_is_kept_with_it() {
    let records = all(&[begin('E'), vec![bundle_header(), credit('1', 3), bundle_sums((0, 0), NOT_STATED, 0, (1, 3))]]);
    let controls = vec![letter_sums(1, (0, 0), 0, (1, 3)), file_sums(1, 7, 1, 0, 3)];
    salvaged(&records, b"", &[1, 10, 20, 61, 70].map(kept), &all(&[records.clone(), controls]));
}

/// 61s with what stands right behind them of 50s, 52s and 54s, in any number and order: the whole of it is sound or dropped.
#[test]
fn the_views_of_a_61() {
    let with = |content: char, views: &[Vec<u8>], number: Option<u64>| {
        let run = all(&[one(credit('1', 7)), views.to_vec()]);
        let bundle = if content == 'N' {
            Vec::new()
        } else if content == 'E' {
            bundle(2)
        } else {
            viewed(2)
        };
        let torn = all(&[begin(content), run.clone(), bundle.clone()]);
        let found = outcomes(&file(&torn));
        let expected = number.map_or([0, 0], |number| [2, number]);
        assert!(found.list[2..2 + run.len()].iter().all(|row| row[2..] == expected), "{:?}", found.list);
        assert!(found.list[2 + run.len()..].iter().all(|row| row[2] == 0));
        let kept = if number.is_none() { run } else { Vec::new() };
        let beginning = file(&all(&[begin(content), kept, bundle]));
        assert_eq!(found.file[..beginning.len()], beginning);
        assert_eq!(found.file.len(), beginning.len() + 89 + 84);
    };
    let (detail, data, analysis) = (view_detail('0'), direct_data(), view_analysis());
    with('N', &[], None);
    with('N', &[detail.clone(), data.clone()], None);
    with('I', &[detail.clone(), data.clone(), analysis.clone()], None);
    with('F', &[detail.clone(), data.clone(), detail.clone(), data.clone()], None);
    with('E', &[], None);
    with('E', &[detail.clone(), data.clone()], Some(LINK)); // no view under E
    with('E', &[detail.clone()], Some(LINK)); // the fault at the 50 comes first
    with('N', &[detail.clone()], Some(PLACE)); // behind a 50 at its end
    with('N', &[detail.clone(), data.clone(), detail.clone()], Some(PLACE));
    with('N', &[detail.clone(), detail.clone(), data.clone()], Some(PLACE));
    with('N', &[data.clone()], Some(PLACE));
    with('N', &[analysis.clone()], Some(PLACE));
    with('N', &[detail.clone(), analysis.clone()], Some(PLACE));
    with('N', &[detail.clone(), data.clone(), analysis.clone(), analysis.clone()], Some(PLACE));
    with('N', &[detail.clone(), data.clone(), data.clone()], Some(PLACE));
    with('N', &[detail.clone(), put(data.clone(), 22, "2")], Some(LINK)); // another sequence number
    with('N', &[view_detail('1'), data.clone()], Some(LINK)); // signed, and names are blank
    with('N', &[detail.clone(), data[..138].to_vec()], Some(LENGTH));
    with('N', &[put(detail, 3, "9"), data], Some(FIELD));
}

/// Behind a 90 and before the first 10 a 61 is under no header.
#[test]
fn a_61_under_no_header() {
    let torn = all(&[
        one(file_header()),
        one(credit('1', 1)),
        one(letter_header('N')),
        one(letter_control(0, 0, 0, 0)),
        one(credit('1', 2)),
        one(letter_control(0, 0, 0, 0)),
        one(file_control(1, 4, 0, 0)),
    ]);
    let rows = [kept(1), dropped(61, PLACE), kept(10), new(90), dropped(61, PLACE), dropped(90, PLACE), new(99)];
    let written = all(&[begin('N'), one(letter_control(0, 0, 0, 0)), one(file_control(1, 4, 0, 0))]);
    salvaged(&torn, b"", &rows, &written);
}

// Strays.

/// A second 01, types that are not carried, and what is no type: 0 in the list, like the type 00.
#[test]
fn strays_are_place() {
    let named = |name: &str| put(file_header(), 1, name);
    let torn = all(&[
        begin('N'),
        ["01", "40", "68", "00", "AB", " 1", "1-"].map(named).to_vec(),
        one(b"7x".to_vec()),
        one(letter_control(3, 3, 3, 3)),
        one(named("85")),
        one(file_control(7, 7, 7, 7)),
        one(letter_header('N')),
    ]);
    let mut rows = vec![kept(1), kept(10)];
    rows.extend([1, 40, 68, 0, 0, 0, 0, 0].map(|code| dropped(code, PLACE)));
    rows.extend([new(90), dropped(85, PLACE), new(99)]);
    let written = all(&[begin('N'), one(letter_control(0, 0, 0, 0)), one(file_control(1, 4, 0, 0))]);
    salvaged(&torn, b"", &rows, &written); // the 10 behind the 99 is not walked
}

/// A stray in a run is of that run: a type that is not carried makes TYPE of it, a second 01 PLACE. A 10 in a bundle ends it.
#[test]
fn strays_in_a_run() {
    let torn = all(&[begin('E'), bundle(1)[..2].to_vec(), one(letter_header('E')), bundle(2)]);
    let rows =
        [kept(1), dropped(10, PLACE), dropped(20, PLACE), dropped(25, PLACE), kept(10), kept(20), kept(25), kept(70)];
    let written = all(&[begin('E'), bundle(2), one(letter_control(1, 1, 2, 0)), one(file_control(1, 7, 1, 2))]);
    salvaged(&torn, b"", &rows, &written);
    // The first letter has no sound bundle, so that Annex B drops it; the second is kept.
}

// Controls made new.

/// A 90 with a name and a date at positions 40 and 56, a 99 with a name and a telephone number at 41 and 55; their sums are nonsense.
#[test]
fn free_fields_of_old_controls() {
    let name_90 = "FIRST BANK      ";
    let name_99 = "JANE ROE      ";
    let old_90 = put(put(letter_control(7, 7, 7, 7), 40, name_90), 56, "20051231");
    let old_99 = put(put(file_control(7, 7, 7, 7), 41, name_99), 55, "  5551234 ");
    let new_90 = |name: &str, date: &str| put(put(letter_control(0, 0, 0, 0), 40, name), 56, date);
    let new_99 = |name: &str, telephone: &str| put(put(file_control(1, 4, 0, 0), 41, name), 55, telephone);
    let (no_name, no_date, no_telephone) = (" ".repeat(16), " ".repeat(8), " ".repeat(10));
    let with = |control_90: &[u8], control_99: &[u8], expected_90: Vec<u8>, expected_99: Vec<u8>| {
        let torn = all(&[begin('N'), one(control_90.to_vec()), one(control_99.to_vec())]);
        salvaged(
            &torn,
            b"",
            &[kept(1), kept(10), new(90), new(99)],
            &all(&[begin('N'), one(expected_90), one(expected_99)]),
        );
    };
    let both = || (new_90(name_90, "20051231"), new_99(name_99, "  5551234 "));
    with(&old_90, &old_99, both().0, both().1);
    // Longer than it may be, the fields still lie within it.
    with(&[&old_90[..], b"more"].concat(), &[&old_99[..], b" "].concat(), both().0, both().1);
    // To the last byte of field 7, and one byte less; to the last byte of field 6, and one byte less.
    with(&old_90[..63], &old_99[..64], both().0, both().1);
    with(&old_90[..62], &old_99[..63], new_90(name_90, &no_date), new_99(name_99, &no_telephone));
    with(&old_90[..55], &old_99[..54], new_90(name_90, &no_date), new_99(name_99, &no_telephone));
    let none = || (new_90(&no_name, &no_date), new_99(&" ".repeat(14), &no_telephone));
    with(&old_90[..54], &old_99[..53], none().0, none().1);
    with(b"90", b"99", none().0, none().1);
    // Against its rule: month 13, a blank among digits. The other field stays.
    with(
        &put(old_90.clone(), 60, "13"),
        &put(old_99.clone(), 59, " "),
        new_90(name_90, &no_date),
        new_99(name_99, &no_telephone),
    );
    // No character in field 6.
    let mut spoiled = [old_90.clone(), old_99.clone()];
    spoiled[0][39] = 0x7F;
    spoiled[1][53] = 0x00;
    with(&spoiled[0], &spoiled[1], new_90(&no_name, "20051231"), new_99(&" ".repeat(14), "  5551234 "));
    // Sums that are no digits do not matter.
    with(&put(old_90, 3, "      "), &put(old_99, 3, "ABCDEF"), both().0, both().1);
}

/// The 90 that ends a letter is its own: a 90 behind the next 10 belongs to that one, and a second one to none.
#[test]
fn whose_90_it_is() {
    let named = |name: &str| put(letter_control(0, 0, 0, 0), 40, name);
    let torn = all(&[begin('N'), one(letter_header('n')), one(named("SECOND")), one(named("THIRD"))]);
    let rows = [kept(1), kept(10), kept(10), new(90), dropped(90, PLACE)];
    let letters = all(&[begin('N'), one(named("")), one(letter_header('n')), one(named("SECOND"))]);
    salvaged(&torn, b"", &rows, &all(&[letters, one(file_control(2, 6, 0, 0))]));
}

/// The first 99 ends the walk, whatever it is: two characters are a 99.
#[test]
fn the_first_99_ends_the_walk() {
    let rest = all(&[begin('N'), one(letter_control(0, 0, 0, 0)), one(file_control(1, 4, 0, 0))]);
    let torn = all(&[begin('N'), one(b"99".to_vec())]);
    let rows = [kept(1), kept(10), new(99)];
    let written = all(&[begin('N'), one(letter_control(0, 0, 0, 0)), one(file_control(1, 4, 0, 0))]);
    salvaged(&torn, b"", &rows, &written);
    salvaged(&torn, &file(&rest), &rows, &written);
}

/// An EBCDIC file that holds ASCII records has types that are no digits there, and the other way round.
#[test]
fn types_go_by_the_files_set() {
    let mixed = |first: Vec<u8>, second: Vec<u8>| [first, second].concat();
    let (head, stray) = (file(&begin('N')), file(&[check(1, ' ', 0)]));
    let stray_in_ebcdic = to_ebcdic(&stray);
    let ascii = outcome(&mixed(head.clone(), stray_in_ebcdic));
    assert_eq!(ascii.list[2], [168, 0, 2, PLACE]);
    let ebcdic = outcome(&mixed(to_ebcdic(&head), stray));
    assert_eq!(ebcdic.list[2], [168, 0, 2, PLACE]);
    assert_eq!(ascii.file, ebcdic.file);
    assert_eq!(ascii.file.len(), 341);
}
