//! Cases of request 2, worked out by hand from clauses 26, 31, 34 and 35, document 02 and readings 24 to 32, and made of
//! records spelled out in `plain`. With its length a 61 takes 88 bytes.

use peer_reader::descent::{read, read_into, Row};
use peer_reader::plain::*;

/// All twelve numbers.
fn listed(records: &[Vec<u8>]) -> [u64; 12] {
    read(&file(records)).answer.listed()
}

/// Number, record, field, offset; every total is 0 on a refusal.
fn refusal(records: &[Vec<u8>]) -> [u64; 4] {
    let listed = listed(records);
    assert_ne!(listed[0], 0, "accepted");
    assert_eq!(listed[4..], [0; 8], "no totals on a refusal");
    [listed[0], listed[1], listed[2], listed[3]]
}

/// The records' lengths with their length fields: where the next record begins.
fn end_of(records: &[Vec<u8>]) -> u64 {
    file(records).len() as u64
}

/// A sequence number that is no other record's.
const OTHER: &str = "  22           ";

/// A cash letter header with an institution and a day of its own.
fn own_letter(content: char) -> Vec<u8> {
    put(put(letter_header(content), 14, "12345-678"), 23, "19930101")
}

/// A 52 that repeats those; its cycle number is the bundle header's, unless changed.
fn view_of_own_letter() -> Vec<u8> {
    put(put(view_data(b""), 3, "12345-678"), 12, "19930101")
}

/// 01, 10 of N, these records, a 90 and a 99 that state these.
fn in_letter(content: char, records: &[Vec<u8>], debits: Side, views: u64, credits: Side) -> Vec<Vec<u8>> {
    let count = records.len() as u64 + 4;
    let mut whole = vec![file_header(), own_letter(content)];
    whole.extend_from_slice(records);
    whole.push(letter_sums(0, debits, views, credits));
    whole.push(file_sums(1, count, debits.0 + credits.0, debits.1, credits.1));
    whole
}

/// 01, 10, 20, these records, and a 70, 90 and 99 that state these.
fn in_bundle(content: char, records: &[Vec<u8>], debits: Side, views: u64, credits: Side) -> Vec<Vec<u8>> {
    let count = records.len() as u64 + 6;
    let mut whole = vec![file_header(), own_letter(content), bundle_header()];
    whole.extend_from_slice(records);
    whole.push(bundle_sums(debits, NOT_STATED, views, credits));
    whole.push(letter_sums(1, debits, views, credits));
    whole.push(file_sums(1, count, debits.0 + credits.0, debits.1, credits.1));
    whole
}

/// Readings 27 and 29: usage 9 is a debit, any other value and a blank one a credit; clause 35.4 counts both. The same where it stands
/// directly in a cash letter and in a bundle.
#[test]
fn usage_9_is_a_debit_and_all_others_are_credits() {
    for usage in " 12345678".chars() {
        let sound = in_letter('N', &[credit(usage, 70)], (0, 0), 0, (1, 70));
        assert_eq!(listed(&sound), [0, 5, 0, end_of(&sound), 5, 1, 0, 1, 0, 0, 1, 70], "usage '{usage}'");
        let as_debit = in_letter('N', &[credit(usage, 70)], (1, 70), 0, (0, 0));
        assert_eq!(refusal(&as_debit), [9, 4, 3, 256], "usage '{usage}'");
        let sound = in_bundle('E', &[credit(usage, 70)], (0, 0), 0, (1, 70));
        assert_eq!(listed(&sound), [0, 7, 0, end_of(&sound), 7, 1, 1, 1, 0, 0, 1, 70], "usage '{usage}'");
    }
    let sound = in_letter('N', &[credit('9', 70)], (1, 70), 0, (0, 0));
    assert_eq!(listed(&sound), [0, 5, 0, end_of(&sound), 5, 1, 0, 1, 0, 70, 0, 0]);
    let as_credit = in_letter('N', &[credit('9', 70)], (0, 0), 0, (1, 70));
    assert_eq!(refusal(&as_credit), [9, 4, 3, 256]);
    let sound = in_bundle('E', &[credit('9', 70)], (1, 70), 0, (0, 0));
    assert_eq!(listed(&sound), [0, 7, 0, end_of(&sound), 7, 1, 1, 1, 0, 70, 0, 0]);
    for wrong in ['0', 'A', 'a', '-'] {
        let refused = in_letter('N', &[credit(wrong, 70)], (0, 0), 0, (1, 70));
        assert_eq!(refusal(&refused), [7, 3, 2, 168], "usage '{wrong}'");
    }
}

/// What the values of the usage indicator say about its place, and that 5 and 6 exclude each other, is not judged.
#[test]
fn a_usage_indicator_binds_no_place() {
    let all: Vec<Vec<u8>> = "12345678".chars().map(|usage| credit(usage, 1)).collect();
    assert_eq!(listed(&in_letter('N', &all, (0, 0), 0, (8, 8)))[0], 0);
    assert_eq!(listed(&in_bundle('E', &all, (0, 0), 0, (8, 8)))[0], 0);
}

/// Reading 24: 84 bytes; each field's edges.
#[test]
fn the_fields_of_a_61() {
    let with = |position: usize, contents: &str| {
        let record = put(credit('7', 0), position, contents);
        listed(&in_letter('N', &[record], (0, 0), 0, (1, 0)))[..4].to_vec()
    };
    // Position, field, contents that pass, contents that are refused there.
    let cases: [(usize, u64, &[&str], &[&str]); 10] = [
        (4, 3, &["1-2* 3         "], &["1-2/ 3         "]),
        (19, 4, &["*", "7"], &["-", "A"]),
        (20, 5, &["12345-678", "12345678*", " -*      "], &["123456781", "         ", "1234-5678", " 12345678"]),
        (29, 6, &["1/2-3 *             "], &["A/2                 "]),
        (49, 7, &["00000000000000"], &["             0", "0000000000000A", "              "]),
        (63, 8, &["               ", " 1             "], &["1 1            ", "-              "]),
        (78, 9, &["A", "M", "m", " "], &["N", "Z", "0"]),
        (79, 10, &["1", "5", "A", "J", "j", " "], &["0", "6", "K", "k"]),
        (80, 11, &["01", "11", "21", "50", "51", "99", "  "], &["00", "12", "20", " 1", "1 ", "A1"]),
        (82, 12, &["   "], &["0  ", "  0"]),
    ];
    for (position, field, passing, refused) in cases {
        for contents in passing {
            assert_eq!(with(position, contents), [0, 5, 0, 84 * 3 + 88 + 89], "61.{field} '{contents}'");
        }
        for contents in refused {
            assert_eq!(with(position, contents), [7, 3, field, 168], "61.{field} '{contents}'");
        }
    }
    for length in [83, 85] {
        let mut record = credit('7', 0);
        record.resize(length, b' ');
        assert_eq!(refusal(&[file_header(), letter_header('N'), record]), [4, 3, 0, 168]);
    }
}

/// Clause 26, "anywhere", as far as demand 3 leaves it: not before the first cash letter, between two, or behind the last.
#[test]
fn a_61_in_no_cash_letter_is_out_of_place() {
    let letter = || vec![letter_header('N'), letter_control(0, 0, 0, 0)];
    let before = [vec![file_header(), credit('7', 1)], letter()].concat();
    assert_eq!(refusal(&before), [6, 2, 0, 84]);
    let behind = [vec![file_header()], letter(), vec![credit('7', 1)]].concat();
    assert_eq!(refusal(&behind), [6, 4, 0, 257]);
    assert_eq!(refusal(&[credit('7', 1)]), [6, 1, 0, 0]);
}

/// Clause 26: never within a transaction. After a 31 or a 32 the 33 is still due; a 50 calls for its 52.
#[test]
fn a_61_does_not_part_a_transaction() {
    let start = vec![file_header(), letter_header('I'), bundle_header()];
    let followed = |records: &[Vec<u8>]| refusal(&[&start[..], records, &[credit('5', 1)]].concat());
    assert_eq!(followed(&[returned(1, 1)]), [6, 5, 0, 336]);
    assert_eq!(followed(&[returned(1, 2), return_addendum_a(1, DATE)]), [6, 6, 0, 336 + 119]);
    assert_eq!(followed(&[check(1, ' ', 0), view_detail('0')]), [6, 6, 0, 420]);
    assert_eq!(followed(&[credit('5', 1), view_detail('0')]), [6, 6, 0, 424]);
    // Between a check and its addenda, or a return and its views, it ends the item: what is owed is faulted at the 61.
    assert_eq!(followed(&[check(1, ' ', 1)]), [8, 5, 1, 336]);
    assert_eq!(followed(&[check(1, ' ', 2), check_addendum_a(1)]), [8, 6, 1, 336 + 119]);
    assert_eq!(followed(&[returned(1, 2), return_addendum_b()]), [8, 6, 1, 420]);
    // An addendum may not follow a 61, nor a 54.
    for stray in [check_addendum_a(1), check_addendum_c(1), return_addendum_b(), view_analysis(), view_data(b"")] {
        let records = [&start[..], &[credit('5', 1), stray]].concat();
        assert_eq!(refusal(&records), [6, 5, 0, 340]);
        let records = [file_header(), letter_header('N'), credit('5', 1), records[4].clone()];
        assert_eq!(refusal(&records), [6, 4, 0, 256]);
    }
}

/// Reading 25: what may follow a 61, and its 52 and 54, in a bundle and outside.
#[test]
fn what_may_follow_a_61() {
    let direct = vec![file_header(), own_letter('I'), credit('1', 0)];
    let viewed = [&direct[..], &[view_detail('0'), view_of_own_letter()]].concat();
    let analysed = [&viewed[..], &[view_analysis()]].concat();
    for start in [&direct, &viewed, &analysed] {
        let next = |record: Vec<u8>| refusal(&[&start[..], &[record]].concat())[0];
        // 61, 20 and 50 are read (the file then ends: OPEN); the 90 lacks a bundle (LINK).
        assert_eq!([next(credit('1', 0)), next(bundle_header()), next(view_detail('0'))], [10, 10, 10]);
        assert_eq!(next(letter_control(0, 0, 0, 0)), 8);
        for out_of_place in [check(0, ' ', 0), returned(0, 1), bundle_control(0, 0, NOT_STATED, 0), file_header()] {
            assert_eq!(next(out_of_place), 6);
        }
        assert_eq!(next(letter_header('N')), 6);
        assert_eq!(next(file_control(1, 9, 0, 0)), 6);
    }
    let bundled = vec![file_header(), own_letter('I'), bundle_header(), credit('3', 0)];
    let viewed = [&bundled[..], &[view_detail('0'), view_data(b"")]].concat();
    let analysed = [&viewed[..], &[view_analysis()]].concat();
    for start in [&bundled, &viewed, &analysed] {
        let next = |record: Vec<u8>| refusal(&[&start[..], &[record]].concat())[0];
        assert_eq!([next(credit('3', 0)), next(check(0, ' ', 0)), next(returned(0, 1))], [10, 10, 10]);
        assert_eq!(next(view_detail('0')), 10);
        assert_eq!(next(bundle_control(0, 0, NOT_STATED, 0)), 9);
        for out_of_place in [bundle_header(), letter_control(0, 0, 0, 0), letter_header('N'), file_control(1, 9, 0, 0)]
        {
            assert_eq!(next(out_of_place), 6);
        }
    }
    // One 54 to a view.
    let twice = |start: &[Vec<u8>]| refusal(&[start, &[view_analysis()]].concat())[0];
    assert_eq!([twice(&analysed), twice(&[&direct[..], &[view_detail('0')]].concat())], [6, 6]);
}

/// Reading 26: a 61 sets no kind; the first 25 or 31 does, and 61s between do not change it.
#[test]
fn a_bundle_is_of_its_first_items_kind() {
    let start = [file_header(), letter_header('E'), bundle_header()];
    let bundle = |records: &[Vec<u8>]| [&start[..], records].concat();
    let returns = [returned(1, 1), return_addendum_b()];
    let check_first = bundle(&[&[credit('5', 1), check(1, ' ', 0), credit('5', 1)], &returns[..1]].concat());
    assert_eq!(refusal(&check_first), [6, 7, 0, 252 + 88 + 84 + 88]);
    let return_first = bundle(&[&[credit('5', 1)][..], &returns, &[credit('5', 1), check(1, ' ', 0)]].concat());
    assert_eq!(refusal(&return_first), [6, 8, 0, 252 + 88 + 168 + 88]);
    let again = [&[credit('5', 1)][..], &returns, &[credit('5', 1)], &returns].concat();
    assert_eq!(listed(&in_bundle('E', &again, (2, 2), 0, (2, 2)))[..2], [0, 12]);
    let alone = [credit('3', 4), credit('4', 5), credit('9', 6)];
    assert_eq!(listed(&in_bundle('E', &alone, (1, 6), 0, (2, 9)))[4..], [9, 1, 1, 3, 0, 6, 2, 9]);
    // An empty bundle still is none.
    assert_eq!(refusal(&bundle(&[bundle_control(0, 0, NOT_STATED, 0)])), [6, 4, 0, 252]);
}

/// Reading 28: under I and F an item's missing view is faulted at the 61 that follows it in its bundle; a 61 itself owes none.
#[test]
fn a_missing_view_is_faulted_at_a_61() {
    let view = || [view_detail('0'), view_data(b"")];
    for content in ['I', 'F', 'i', 'f'] {
        let missing = in_bundle(content, &[check(1, ' ', 0), credit('6', 1)], (1, 1), 0, (1, 1));
        assert_eq!(refusal(&missing), [8, 5, 1, 336]);
        let returned = in_bundle(content, &[returned(1, 1), return_addendum_b(), credit('6', 1)], (1, 1), 0, (1, 1));
        assert_eq!(refusal(&returned), [8, 6, 1, 420]);
        // The view behind the 61 is the 61's: the item stays without.
        let behind = [&[check(1, ' ', 0), credit('6', 1)][..], &view()].concat();
        assert_eq!(refusal(&in_bundle(content, &behind, (1, 1), 1, (1, 1))), [8, 5, 1, 336]);
        // The item has its view; no 61 has one, before it, behind it, alone in a bundle, or outside.
        let sound = [&[credit('5', 1), check(1, ' ', 0)][..], &view(), &[credit('6', 1), credit('6', 1)]].concat();
        assert_eq!(listed(&in_bundle(content, &sound, (1, 1), 1, (3, 3)))[0], 0);
        assert_eq!(listed(&in_bundle(content, &[credit('5', 1)], (0, 0), 0, (1, 1)))[0], 0);
        // After a 61 the next item's missing view is faulted where it was.
        let later = [&[credit('5', 1), check(1, ' ', 0)][..], &[check(1, ' ', 0)]].concat();
        assert_eq!(refusal(&in_bundle(content, &later, (2, 2), 0, (1, 1))), [8, 6, 1, 252 + 88 + 84]);
    }
}

/// Annex B: E holds no view, a 61's neither; N holds no bundle, but 61s directly, with views; E, I and F hold a bundle, whatever else.
#[test]
fn annex_b_and_61s() {
    let direct = [credit('1', 1), view_detail('0'), view_of_own_letter()];
    assert_eq!(refusal(&in_letter('E', &direct, (0, 0), 1, (1, 1))), [8, 4, 1, 256]);
    let bundled = [credit('1', 1), view_detail('0'), view_data(b"")];
    assert_eq!(refusal(&in_bundle('e', &bundled, (0, 0), 1, (1, 1))), [8, 5, 1, 340]);
    for content in ['N', 'n'] {
        assert_eq!(listed(&in_letter(content, &direct, (0, 0), 1, (1, 1)))[4..], [7, 1, 0, 1, 1, 0, 1, 1]);
        let with_bundle = [file_header(), letter_header(content), credit('1', 1), bundle_header()];
        assert_eq!(refusal(&with_bundle), [8, 4, 1, 256]);
    }
    for content in ['E', 'I', 'F', 'e', 'i', 'f'] {
        assert_eq!(refusal(&in_letter(content, &[credit('1', 1)], (0, 0), 0, (1, 1))), [8, 4, 1, 256]);
    }
    for content in ['I', 'F'] {
        assert_eq!(refusal(&in_letter(content, &direct, (0, 0), 1, (1, 1))), [8, 6, 1, 340 + 143]);
    }
}

/// Outside a bundle a 52 has fields 4 and 5 of the cash letter header in its fields 2 and 3, and anything in its field 4.
#[test]
fn the_view_of_a_61_outside_a_bundle() {
    let answer = |data: Vec<u8>| {
        let head = put(credit('1', 1), 63, OTHER);
        let detail = view_detail('0');
        listed(&in_letter('N', &[head, detail, data], (0, 0), 1, (1, 1)))[..4].to_vec()
    };
    let right = put(view_of_own_letter(), 22, OTHER);
    let end = 84 + 84 + 88 + 84 + 143 + 89 + 84;
    assert_eq!(answer(right.clone()), [0, 7, 0, end]);
    for cycle in ["  ", "AB", "ab", "Z9", " 0"] {
        assert_eq!(answer(put(right.clone(), 20, cycle)), [0, 7, 0, end]);
    }
    for (position, contents, field) in [
        (3, ROUTING, 2),     // the bundle headers' number
        (3, "12345-679", 2), // another
        (12, DATE, 3),       // the bundle headers' day
        (12, "19930102", 3),
        (22, SEQUENCE, 5),
        (22, "22             ", 5), // the same number, elsewhere in the field
    ] {
        assert_eq!(answer(put(right.clone(), position, contents)), [8, 5, field, 340], "'{contents}'");
    }
    // The lowest field answers.
    assert_eq!(answer(view_data(b"")), [8, 5, 2, 340]);
    assert_eq!(answer(put(view_data(b""), 3, "12345-678")), [8, 5, 3, 340]);
    // A cycle number is still held to its type: FIELD.
    assert_eq!(answer(put(right, 20, "-1")), [7, 5, 4, 340]);
}

/// The header of an earlier bundle binds no 52 outside it, and the cash letter's own header binds it behind a bundle too.
#[test]
fn the_view_of_a_61_behind_a_bundle() {
    let answer = |data: Vec<u8>| {
        let mut records = vec![file_header(), own_letter('I'), bundle_header()];
        records.extend([check(1, ' ', 0), view_detail('0'), view_data(b"")]);
        records.extend([bundle_control(1, 1, NOT_STATED, 1), credit('2', 1), view_detail('0'), data]);
        records.extend([letter_sums(1, (1, 1), 2, (1, 1)), file_sums(1, 12, 2, 1, 1)]);
        listed(&records)[..4].to_vec()
    };
    let at = 5 * 84 + 143 + 84 + 88 + 84;
    assert_eq!(answer(view_of_own_letter()), [0, 12, 0, at + 143 + 89 + 84]);
    assert_eq!(answer(put(view_of_own_letter(), 20, "XY")), [0, 12, 0, at + 143 + 89 + 84]);
    assert_eq!(answer(view_data(b"")), [8, 10, 2, at]);
}

/// In a bundle fields 2 to 4 are the bundle header's, as for an item, and field 5 is the 61's own field 8.
#[test]
fn the_view_of_a_61_in_a_bundle() {
    let answer = |data: Vec<u8>| {
        let head = put(credit('3', 1), 63, OTHER);
        let mut records = vec![check(1, ' ', 0), view_detail('0'), view_data(b"")];
        records.extend([head, view_detail('0'), data]);
        listed(&in_bundle('I', &records, (1, 1), 2, (1, 1)))[..4].to_vec()
    };
    let right = put(view_data(b""), 22, OTHER);
    let at = 5 * 84 + 143 + 88 + 84;
    assert_eq!(answer(right.clone()), [0, 12, 0, at + 143 + 84 + 89 + 84]);
    for (position, contents, field) in [
        (3, "12345-678", 2), // the cash letter header's number
        (12, "19930101", 3), // and its day
        (20, "  ", 4),
        (20, "Ab", 4),
        (22, SEQUENCE, 5), // the check's
    ] {
        assert_eq!(answer(put(right.clone(), position, contents)), [8, 9, field, at], "'{contents}'");
    }
}

/// Fields 7 and 8 with field 10 of the 50, as before.
#[test]
fn a_signed_view_of_a_61() {
    let answer = |data: Vec<u8>| {
        let records = [credit('1', 1), view_detail('1'), put(put(data, 3, "12345-678"), 12, "19930101")];
        listed(&in_letter('N', &records, (0, 0), 1, (1, 1)))[..3].to_vec()
    };
    assert_eq!(answer(signed_view_data(b"", b"", b"")), [0, 7, 0]);
    assert_eq!(answer(view_data(b"")), [8, 5, 7]);
    let mut without_key = signed_view_data(b"", b"", b"");
    without_key[68..84].fill(b' ');
    assert_eq!(answer(without_key), [8, 5, 8]);
}

/// Two cash letters with 61s everywhere: the rows of reading 30, the totals of readings 29 and 31.
fn everywhere() -> Vec<Vec<u8>> {
    let mut records = vec![file_header(), own_letter('F'), credit('1', 5_000)];
    records.extend([view_detail('0'), view_of_own_letter(), view_analysis(), credit('9', 40)]);
    records.extend([bundle_header(), credit('3', 300), check(20, '1', 1), check_addendum_a(1)]);
    records.extend([view_detail('0'), view_data(b""), credit('9', 7), view_detail('0'), view_data(b"x")]);
    records.extend([check(1, '1', 0), view_detail('0'), view_data(b"")]);
    // Debits 20, 7 and 1; MICR valid the two checks; three views.
    records.push(bundle_sums((3, 28), "000000000021", 3, (1, 300)));
    records.push(credit(' ', 60_000));
    // Debits 28 and 40; four views; credits 5000, 300 and 60000.
    records.push(letter_sums(1, (4, 68), 4, (3, 65_300)));
    records.extend([letter_header('N'), credit('8', 2), letter_sums(0, (0, 0), 0, (1, 2))]);
    records.push(file_sums(2, 26, 8, 68, 65_302));
    records
}

/// Where each record of `everywhere` begins, and its length.
const PLACES: [(u64, u64, u64); 26] = [
    (1, 0, 80),
    (10, 84, 80),
    (61, 168, 84),
    (50, 256, 80),
    (52, 340, 139),
    (54, 483, 80),
    (61, 567, 84),
    (20, 655, 80),
    (61, 739, 84),
    (25, 827, 80),
    (26, 911, 115),
    (50, 1030, 80),
    (52, 1114, 139),
    (61, 1257, 84),
    (50, 1345, 80),
    (52, 1429, 140),
    (25, 1573, 80),
    (50, 1657, 80),
    (52, 1741, 139),
    (70, 1884, 80),
    (61, 1968, 84),
    (90, 2056, 85),
    (10, 2145, 80),
    (61, 2229, 84),
    (90, 2317, 85),
    (99, 2406, 80),
];

/// Cash letter, bundle, item, amount. In the bundle 61s and checks are counted together; outside all is 0 below the cash letter.
const REST: [[u64; 4]; 26] = [
    [0, 0, 0, 0],
    [1, 0, 0, 0],
    [1, 0, 0, 5_000],
    [1, 0, 0, 0],
    [1, 0, 0, 0],
    [1, 0, 0, 0],
    [1, 0, 0, 40],
    [1, 1, 0, 0],
    [1, 1, 1, 300],
    [1, 1, 2, 20],
    [1, 1, 2, 0],
    [1, 1, 2, 0],
    [1, 1, 2, 0],
    [1, 1, 3, 7],
    [1, 1, 3, 0],
    [1, 1, 3, 0],
    [1, 1, 4, 1],
    [1, 1, 4, 0],
    [1, 1, 4, 0],
    [1, 1, 0, 28],
    [1, 0, 0, 60_000],
    [1, 0, 0, 68],
    [2, 0, 0, 0],
    [2, 0, 0, 2],
    [2, 0, 0, 0],
    [0, 0, 0, 68],
];

#[test]
fn rows_and_totals_of_61s_everywhere() {
    let bytes = file(&everywhere());
    let reading = read(&bytes);
    assert_eq!(reading.answer.listed(), [0, 26, 0, 2490, 26, 2, 1, 8, 4, 68, 4, 65_302]);
    let row = |(place, rest): (&(u64, u64, u64), &[u64; 4])| -> Row {
        [place.0, place.1, place.2, rest[0], rest[1], rest[2], rest[3]]
    };
    let expected: Vec<Row> = PLACES.iter().zip(&REST).map(row).collect();
    assert_eq!(reading.rows, expected);
    let mut table = vec![9; 26 * 7 + 1];
    assert_eq!(read_into(&bytes, &mut table), reading.answer);
    assert_eq!(table[..26 * 7], expected.concat());
    assert_eq!(table[26 * 7], 9);
    let mut short = vec![9; 26 * 7 - 1];
    assert_eq!(read_into(&bytes, &mut short).listed(), [2, 26, 0, 0, 0, 0, 0, 0, 0, 0, 0, 0]);
    assert!(short.iter().all(|number| *number == 9));
}

/// Every control field of that file, one more and one less: TOTAL at that field, and the lowest answers.
#[test]
fn every_control_field_takes_61s_in() {
    // Record, position and size of the field, field.
    let fields: [(usize, usize, usize, u64); 17] = [
        (20, 3, 4, 2),
        (20, 7, 12, 3),
        (20, 19, 12, 4),
        (20, 31, 5, 5),
        (20, 36, 4, 6),
        (20, 40, 12, 7),
        (22, 3, 6, 2),
        (22, 9, 8, 3),
        (22, 17, 14, 4),
        (22, 31, 9, 5),
        (22, 64, 8, 8),
        (22, 72, 14, 9),
        (26, 3, 6, 2),
        (26, 9, 8, 3),
        (26, 17, 8, 4),
        (26, 25, 16, 5),
        (26, 65, 16, 8),
    ];
    for (record, position, size, field) in fields {
        let before = everywhere()[record - 1][position - 1..position - 1 + size].to_vec();
        let right: u64 = String::from_utf8(before).expect("digits").parse().expect("digits");
        for wrong in [right + 1, right - 1] {
            let mut records = everywhere();
            records[record - 1] = put(records[record - 1].clone(), position, &format!("{wrong:0size$}"));
            assert_eq!(refusal(&records), [9, record as u64, field, PLACES[record - 1].1]);
        }
    }
}

/// Reading 32 and "readings that look right": a sum past its field is never stated, and is not cut to it.
#[test]
fn sums_of_61s_are_not_cut_to_a_field() {
    // Twelve digits in the 70: 10^12 cents in one 61, and 999,999,999,999 with one more cent.
    let full = 999_999_999_999;
    assert_eq!(listed(&in_bundle('E', &[credit('3', full)], (0, 0), 0, (1, full)))[11], full);
    for stated in [0, full, 1] {
        let over = [vec![credit('3', full + 1)], vec![credit('3', full), credit('3', 1)]];
        for (count, credits) in over.into_iter().enumerate() {
            let refused = in_bundle('E', &credits, (0, 0), 0, (count as u64 + 1, stated));
            assert_eq!(refusal(&refused)[..3], [9, 5 + count as u64, 7]);
        }
    }
    // Fourteen digits in the 90.
    let full = 99_999_999_999_999;
    assert_eq!(listed(&in_letter('N', &[credit('9', full)], (1, full), 0, (0, 0)))[9], full);
    for stated in [0, full] {
        let refused = in_letter('N', &[credit('9', full), credit('9', 1)], (2, stated), 0, (0, 0));
        assert_eq!(refusal(&refused)[..3], [9, 5, 4]);
    }
    // Sixteen digits in the 99: 101 cash letters of the largest amount come to 10,099,999,999,999,899.
    for stated in [99_999_999_999_899, 9_999_999_999_999_999] {
        let mut records = vec![file_header()];
        for _ in 0..101 {
            records.extend([letter_header('N'), credit('7', full), letter_sums(0, (0, 0), 0, (1, full))]);
        }
        records.push(file_sums(101, 305, 101, 0, stated));
        assert_eq!(refusal(&records)[..3], [9, 305, 8]);
    }
}

/// 184,467 credits of the largest amount and one of 44,073,709,736,083 come to 2^64 exactly: 64 bits leave nothing, and nothing is stated.
#[test]
fn a_sum_does_not_wrap_at_64_bits() {
    let (most, last) = (99_999_999_999_999u64, 44_073_709_736_083u64);
    assert_eq!(184_467 * u128::from(most) + u128::from(last), 1 << 64);
    for (usage, field) in [('7', 9), ('9', 4)] {
        let mut records = vec![file_header(), letter_header('N')];
        records.extend(std::iter::repeat_n(credit(usage, most), 184_467));
        records.push(credit(usage, last));
        let (debits, credits) = if usage == '9' { ((184_468, 0), (0, 0)) } else { ((0, 0), (184_468, 0)) };
        records.push(letter_sums(0, debits, 0, credits));
        records.push(file_sums(1, 184_472, 184_468, 0, 0));
        assert_eq!(refusal(&records), [9, 184_471, field, 168 + 184_468 * 88]);
    }
}
