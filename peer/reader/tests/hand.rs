//! Cases worked out by hand from document 01, made of records spelled out in `plain`.

use peer_reader::descent::{read, read_into, Number, Row};
use peer_reader::line::line;
use peer_reader::picture::picture;
use peer_reader::plain::*;
use peer_reader::samples::samples;

/// Number, record, field, offset.
fn refusal(records: &[Vec<u8>]) -> (u64, u64, u64, u64) {
    let answer = read(&file(records)).answer;
    assert_eq!(answer.listed()[4..], [0; 8], "no totals on a refusal");
    (answer.number as u64, answer.record, answer.field, answer.offset)
}

fn bundle_of(items: &[Vec<u8>], control: Vec<u8>) -> Vec<Vec<u8>> {
    let mut records = vec![file_header(), letter_header('E'), bundle_header()];
    records.extend_from_slice(items);
    records.push(control);
    records
}

#[test]
fn the_three_whole_cases() {
    assert_eq!(line(&[0, 0, 0, 0x50]), "refused 3 record 1 field 0 offset 0");
    assert_eq!(line(&[]), "refused 1 record 0 field 0 offset 0");
    let sound = file(&[file_header(), letter_header('N'), letter_control(0, 0, 0, 0), file_control(1, 4, 0, 0)]);
    assert_eq!(line(&sound), "accepted records 4 letters 1 bundles 0 items 0 views 0 debit 0");
    assert_eq!(line(&vec![b' '; 65_537]), "too long for this program");
    assert_ne!(line(&vec![b' '; 65_536]), "too long for this program");
}

#[test]
fn the_samples_are_as_worked_out() {
    let samples = samples();
    assert_eq!(samples.iter().filter(|sample| sample.line.starts_with("accepted")).count(), 13);
    assert_eq!(samples.iter().filter(|sample| sample.line.starts_with("refused")).count(), 27);
    for sample in samples {
        assert!(sample.bytes.len() < 4096, "{}", sample.name);
        assert_eq!(line(&sample.bytes), sample.line, "{}", sample.name);
    }
}

#[test]
fn the_folder_of_samples_holds_the_same() {
    let folder = std::path::Path::new(env!("CARGO_MANIFEST_DIR")).join("../samples");
    let expected = std::fs::read_to_string(folder.join("expected.txt")).expect("expected.txt");
    let samples = samples();
    assert_eq!(expected.lines().count(), samples.len());
    for (listed, sample) in expected.lines().zip(samples) {
        assert_eq!(listed, format!("{}\t{}", sample.name, sample.line));
        assert_eq!(std::fs::read(folder.join(sample.name)).expect("a sample"), sample.bytes);
    }
}

#[test]
fn p5_p6_p7_lengths() {
    assert_eq!(u32::from_be_bytes([0x00, 0x00, 0x7D, 0x00]), 32_000);
    assert_eq!(view_data(&[7; 1_000]).len(), 1_139);
    assert_eq!(check_addendum_b("ARCHIVE/2005/02/30/000000000000001").len(), 107);
}

#[test]
fn p8_01_99_is_out_of_place_at_2() {
    assert_eq!(refusal(&[file_header(), file_control(0, 2, 0, 0)]), (6, 2, 0, 84));
}

#[test]
fn p9_01_10_20_70_is_out_of_place_at_4() {
    assert_eq!(refusal(&bundle_of(&[], bundle_control(0, 0, NOT_STATED, 0))), (6, 4, 0, 252));
}

#[test]
fn p10_01_10_20_31_34_is_out_of_place_at_5() {
    assert_eq!(refusal(&bundle_of(&[returned(0, 1)], return_addendum_c(""))), (6, 5, 0, 336));
}

#[test]
fn p11_01_10_90_99_is_a_lawful_order() {
    // With E the order still is lawful: the fault is the missing bundle, a LINK at the 90.
    let lawful = |content| {
        refusal(&[file_header(), letter_header(content), letter_control(0, 0, 0, 0), file_control(1, 4, 0, 0)])
    };
    for content in ['E', 'I', 'F', 'e'] {
        assert_eq!(lawful(content), (8, 3, 1, 168));
    }
}

#[test]
fn a_25_with_count_01_followed_by_70_is_a_link_fault_at_the_70() {
    assert_eq!(refusal(&bundle_of(&[check(0, ' ', 1)], bundle_control(1, 0, NOT_STATED, 0))), (8, 5, 1, 336));
    // The total is wrong too: LINK comes first.
    assert_eq!(refusal(&bundle_of(&[check(0, ' ', 1)], bundle_control(9, 0, NOT_STATED, 0))), (8, 5, 1, 336));
}

#[test]
fn a_bundle_holds_9_999_items_and_no_more() {
    let whole = |count: u64, stated: u64| {
        let mut records =
            bundle_of(&vec![check(1, '1', 0); count as usize], bundle_control(stated, count, NOT_STATED, 0));
        records.push(letter_control(1, count, count, 0));
        records.push(file_control(1, count + 6, count, count));
        read(&file(&records))
    };
    let reading = whole(9_999, 9_999);
    assert_eq!(reading.answer.number, Number::Accepted);
    assert_eq!(reading.answer.listed()[4..], [10_005, 1, 1, 9_999, 0, 9_999, 0, 0]);
    let last = reading.rows[3 + 9_998];
    assert_eq!(last, [25, 252 + 9_998 * 84, 80, 1, 1, 9_999, 1]);
    for stated in [0, 9_999] {
        let reading = whole(10_000, stated);
        assert_eq!(reading.answer.listed()[..4], [9, 10_004, 2, 252 + 10_000 * 84]);
    }
}

#[test]
fn rows_of_a_small_file() {
    let records = [
        file_header(),
        letter_header('N'),
        letter_control(0, 0, 0, 0),
        letter_header('I'),
        bundle_header(),
        returned(30, 1),
        return_addendum_b(),
        view_detail('0'),
        view_data(b"abc"),
        view_analysis(),
        bundle_control(1, 30, NOT_STATED, 1),
        bundle_header(),
        check(12, '1', 1),
        check_addendum_a(1),
        view_detail('0'),
        view_data(b""),
        bundle_control(1, 12, "000000000012", 1),
        letter_control(2, 2, 42, 2),
        file_control(2, 19, 2, 42),
    ];
    let expected: [Row; 19] = [
        [1, 0, 80, 0, 0, 0, 0],
        [10, 84, 80, 1, 0, 0, 0],
        [90, 168, 85, 1, 0, 0, 0],
        [10, 257, 80, 2, 0, 0, 0],
        [20, 341, 80, 2, 1, 0, 0],
        [31, 425, 80, 2, 1, 1, 30],
        [33, 509, 80, 2, 1, 1, 0],
        [50, 593, 80, 2, 1, 1, 0],
        [52, 677, 142, 2, 1, 1, 0],
        [54, 823, 80, 2, 1, 1, 0],
        [70, 907, 80, 2, 1, 0, 30],
        [20, 991, 80, 2, 2, 0, 0],
        [25, 1075, 80, 2, 2, 1, 12],
        [26, 1159, 115, 2, 2, 1, 0],
        [50, 1278, 80, 2, 2, 1, 0],
        [52, 1362, 139, 2, 2, 1, 0],
        [70, 1505, 80, 2, 2, 0, 12],
        [90, 1589, 85, 2, 0, 0, 42],
        [99, 1678, 80, 0, 0, 0, 42],
    ];
    let bytes = file(&records);
    let reading = read(&bytes);
    assert_eq!(reading.answer.listed(), [0, 19, 0, 1762, 19, 2, 2, 2, 2, 42, 0, 0]);
    assert_eq!(reading.rows, expected);

    // A table with two numbers to spare: they are left alone. One number short: all are.
    let mut table = vec![9; 19 * 7 + 2];
    assert_eq!(read_into(&bytes, &mut table), reading.answer);
    assert_eq!(table[..19 * 7], expected.concat());
    assert_eq!(table[19 * 7..], [9, 9]);
    let mut table = vec![9; 19 * 7 - 1];
    assert_eq!(read_into(&bytes, &mut table).listed(), [2, 19, 0, 0, 0, 0, 0, 0, 0, 0, 0, 0]);
    assert!(table.iter().all(|number| *number == 9));

    // The image of the first 52 starts after the length field and the fixed part; the second is empty.
    assert_eq!(picture(&bytes, 677).listed(), [0, 0, 677 + 4 + 139, 3]);
    assert_eq!(&bytes[820..823], b"abc");
    assert_eq!(picture(&bytes, 1362).listed(), [0, 0, 1362 + 4 + 139, 0]);
    assert_eq!(picture(&bytes, 593).listed(), [5, 0, 0, 0]);
    assert_eq!(picture(&bytes, 1762).listed(), [3, 0, 0, 0]);
    assert_eq!(picture(&bytes, u64::MAX).listed(), [3, 0, 0, 0]);
    assert_eq!(picture(&[], 0).listed(), [1, 0, 0, 0]);
}

#[test]
fn addenda_count_and_number_from_1_in_each_item() {
    let two = [check(0, ' ', 2), check_addendum_a(1), check_addendum_c(1), check(0, ' ', 2), check_addendum_c(1)];
    let wrong = [&two[..], &[check_addendum_c(3)]].concat();
    // 3 + 6 records; before the ninth: 7 of 84 and a 26 of 119.
    assert_eq!(refusal(&bundle_of(&wrong, bundle_control(2, 0, NOT_STATED, 0))), (8, 9, 2, 7 * 84 + 119));
    // The 33 counts: with count 00 it is one too many, at field 1.
    let returned_only = [returned(0, 0), return_addendum_b()];
    assert_eq!(refusal(&bundle_of(&returned_only, bundle_control(1, 0, NOT_STATED, 0))), (8, 5, 1, 336));
    // Beyond the count (field 1) comes before a wrong number (field 2).
    let both = [check(0, ' ', 0), check_addendum_a(7)];
    assert_eq!(refusal(&bundle_of(&both, bundle_control(1, 0, NOT_STATED, 0))), (8, 5, 1, 336));
}

#[test]
fn the_tenth_26_cannot_be_numbered() {
    for digit in [0, 1, 9] {
        let mut items = vec![check(0, ' ', 10)];
        items.extend((1..=9).map(check_addendum_a));
        items.push(check_addendum_a(digit));
        let refused = refusal(&bundle_of(&items, bundle_control(1, 0, NOT_STATED, 0)));
        assert_eq!(refused, (8, 14, 2, 336 + 9 * 119));
    }
}

#[test]
fn annex_b() {
    let start = |content| vec![file_header(), letter_header(content), bundle_header()];
    // N with a 20, faulted there.
    assert_eq!(refusal(&start('n')), (8, 3, 1, 168));
    // E with a 50, faulted there.
    let e = [start('E'), vec![check(0, ' ', 0), view_detail('0')]].concat();
    assert_eq!(refusal(&e), (8, 5, 1, 336));
    // I and F: a missing view is faulted at the next item or the 70.
    for content in ['I', 'F', 'i', 'f'] {
        let item = [start(content), vec![check(0, ' ', 0), check(0, ' ', 0)]].concat();
        assert_eq!(refusal(&item), (8, 5, 1, 336));
        let control = [start(content), vec![check(0, ' ', 0), bundle_control(7, 0, NOT_STATED, 0)]].concat();
        assert_eq!(refusal(&control), (8, 5, 1, 336));
    }
}

#[test]
fn a_signed_view_names_its_authenticator_and_its_key() {
    let with = |data: Vec<u8>| {
        let start = vec![file_header(), letter_header('I'), bundle_header(), check(0, ' ', 0), view_detail('1')];
        refusal(&[start, vec![data]].concat())
    };
    assert_eq!(with(view_data(b"")), (8, 6, 7, 420));
    let mut data = signed_view_data(b"", b"", b"");
    data[68..84].fill(b' ');
    assert_eq!(with(data), (8, 6, 8, 420));
    // Field 5 is wrong as well: the lowest field answers.
    let mut data = view_data(b"");
    data[21] = b'2';
    assert_eq!(with(data), (8, 6, 5, 420));
}

#[test]
fn clipping_origin_0_asks_four_zero_coordinates() {
    let start = vec![file_header(), letter_header('I'), bundle_header(), check(0, ' ', 0), view_detail('0')];
    for (field, place) in [(10, 88), (11, 92), (12, 96), (13, 100)] {
        let mut data = view_data(b"");
        data[place] = b'1';
        assert_eq!(refusal(&[start.clone(), vec![data.clone()]].concat()), (7, 6, field, 420));
        assert_eq!(picture(&file(&[data]), 0).listed(), [7, field, 0, 0]);
    }
}

#[test]
fn sums_are_not_cut_to_a_field() {
    // 101 x 9,999,999,999 = 1,009,999,999,899: the 70 has twelve digits and states the last twelve.
    let control = bundle_control(101, 9_999_999_899, NOT_STATED, 0);
    let refused = refusal(&bundle_of(&vec![check(9_999_999_999, ' ', 0); 101], control));
    assert_eq!(refused, (9, 105, 3, 252 + 101 * 84));
}

#[test]
fn open_after_cut_and_length_below_two() {
    let first = file(&[file_header()]);
    let answer = |bytes: &[u8]| read(bytes).answer.listed()[..4].to_vec();
    assert_eq!(answer(&first), [10, 2, 0, 84]);
    assert_eq!(answer(&[&first[..], &[0]].concat()), [3, 2, 0, 84]);
    assert_eq!(answer(&[&first[..], &[0, 0, 0, 0]].concat()), [4, 2, 0, 84]);
    assert_eq!(answer(&[&first[..], &[0, 0, 0, 1, b'1']].concat()), [4, 2, 0, 84]);
    assert_eq!(answer(&[&first[..], &[0, 0, 0, 2, b'1', b'0']].concat()), [4, 2, 0, 84]);
    assert_eq!(answer(&[&first[..], &[0, 0, 0, 2, b'9', b'9']].concat()), [6, 2, 0, 84]);
    assert_eq!(answer(&[&first[..], &[0, 0, 0, 2, b'6', b'8']].concat()), [5, 2, 0, 84]);
    assert_eq!(answer(&[&first[..], &[0xFF, 0xFF, 0xFF, 0xFF, b'1', b'0']].concat()), [3, 2, 0, 84]);
}

/// A routing field of the file below: record, field, the field's first position, the offset of the record.
type Place = (usize, u64, usize, u64);

/// Clauses 7.4, 7.5, 8.3, 8.4, 9.3, 9.4, 21.3 and 22.2 list TTTTAAAAC, TTTTT-FFF and NNNNNNNNN; all are mandatory.
const NON_FINANCIAL_TOO: [Place; 8] = [
    (1, 4, 6, 0),
    (1, 5, 15, 0),
    (2, 3, 5, 84),
    (2, 4, 14, 84),
    (3, 3, 5, 168),
    (3, 4, 14, 168),
    (7, 3, 4, 539),
    (8, 2, 3, 623),
];

/// Clauses 9.10, 11.3, 13.3, 15.3 and 18.3 list TTTTAAAAC and TTTTT-FFF; all are conditional.
const FINANCIAL_ALONE: [Place; 5] =
    [(3, 10, 55, 168), (5, 3, 4, 336), (6, 3, 5, 455), (12, 3, 4, 1018), (14, 3, 5, 1221)];

/// Clauses 10.4 and 14.4 list TTTTAAAAC, TTTTT-FFF, TTTT-AAAA and bTTTTAAAA; both are mandatory and of type NBMcd.
const OF_THE_PAYOR: [Place; 2] = [(4, 4, 19, 252), (11, 4, 19, 934)];

/// Every routing field but 61.5, which is tried in `hand_credits.rs`: 01, 10, 20, 25, 26, 28, 50, 52, 70, 20, 31, 32, 33, 35, 50, 52, 70, 90, 99. A 26 and a 32 take 119 bytes,
/// a bare 52 takes 143, the 90 takes 89, all others take 84: 238 + 286 + 89 + 14 x 84 = 1789.
fn with_all_routing_fields() -> Vec<Vec<u8>> {
    vec![
        file_header(),
        letter_header('I'),
        bundle_header(),
        check(100, ' ', 2),
        check_addendum_a(1),
        check_addendum_c(1),
        view_detail('0'),
        view_data(b""),
        bundle_control(1, 100, NOT_STATED, 1),
        bundle_header(),
        returned(42, 3),
        return_addendum_a(1, DATE),
        return_addendum_b(),
        return_addendum_d(1),
        view_detail('0'),
        view_data(b""),
        bundle_control(1, 42, NOT_STATED, 1),
        letter_control(2, 2, 142, 2),
        file_control(1, 19, 2, 142),
    ]
}

/// Puts contents at a position of a record; both count from 1.
fn put_at(records: &mut [Vec<u8>], record: usize, position: usize, contents: &[u8]) {
    records[record - 1][position - 1..position - 1 + contents.len()].copy_from_slice(contents);
}

/// Contents, and whether they pass in the three lists of fields above.
const ROUTING_CASES: [(&[u8], bool, bool, bool); 44] = [
    // Nine digits: judged as TTTTAAAAC, unless the field lists the non-financial number too.
    (b"123456780", true, true, true),
    (b"000000000", true, true, true),
    (b"123456781", true, false, false),
    (b"999999999", true, false, false), // 81 + 189 + 27 = 297
    // TTTTT-FFF, and the dash anywhere else. TTTT-AAAA is the payor bank's.
    (b"12345-678", true, true, true),
    (b"00000-000", true, true, true),
    (b"1234-5678", false, false, true),
    (b"123-45678", false, false, false),
    (b"123456-78", false, false, false),
    (b"-12345678", false, false, false),
    (b"12345678-", false, false, false),
    (b"1234--678", false, false, false),
    (b"---------", false, false, false),
    // bTTTTAAAA, which a non-financial number of eight digits can look like, and other short numbers.
    (b" 12345678", true, false, true),
    (b"12345678 ", true, false, false),
    (b" 1234567 ", true, false, false),
    (b"  1234567", true, false, false),
    (b"1        ", true, false, false),
    (b"    1    ", true, false, false),
    (b"        1", true, false, false),
    (b"000000   ", true, false, false),
    // A blank between digits, a dash in a short number, a Canadian number cut short.
    (b"1 2345678", false, false, false),
    (b"1       2", false, false, false),
    (b"1234567 0", false, false, false),
    (b"   1-1   ", false, false, false),
    (b"1234-567 ", false, false, false),
    (b"12345-67 ", false, false, false),
    (b" 2345-678", false, false, false),
    (b"        -", false, false, false),
    // All blank: conditional fields alone.
    (b"         ", false, true, false),
    // A can't-read mark leaves the type alone to judge, where the type has it. NBMcd has no question mark and no letter.
    (b"12345678*", false, false, true),
    (b"12345*678", false, false, true),
    (b"1 2-3*4 5", false, false, true),
    (b"*********", false, false, true),
    (b"12345678?", false, false, false),
    (b"1234*678?", false, false, false),
    (b"1234*678A", false, false, false),
    // Letters, other dashes, other blanks.
    (b"ttttaaaac", false, false, false),
    (b"12345-67a", false, false, false),
    (b"12345_678", false, false, false),
    (b"1234\x965678", false, false, false),
    ("12345\u{2013}8".as_bytes(), false, false, false),
    (b"\t12345678", false, false, false),
    (b"1234567\0\0", false, false, false),
];

/// Request 1: a field takes the forms that its own Format lines list, the check digit is asked in TTTTAAAAC only, and what is
/// refused is still FIELD at that field. Field 4 of the 20 and field 2 of its 52 change together, for the link.
#[test]
fn each_routing_field_takes_the_forms_that_it_lists() {
    for (contents, non_financial_too, financial_alone, of_the_payor) in ROUTING_CASES {
        let lists = [
            (&NON_FINANCIAL_TOO[..], non_financial_too),
            (&FINANCIAL_ALONE[..], financial_alone),
            (&OF_THE_PAYOR[..], of_the_payor),
        ];
        for (places, passes) in lists {
            for (record, field, position, offset) in places.iter().copied() {
                let mut records = with_all_routing_fields();
                put_at(&mut records, record, position, contents);
                if passes && matches!((record, field), (3, 4) | (8, 2)) {
                    put_at(&mut records, 3, 14, contents);
                    put_at(&mut records, 8, 3, contents);
                }
                let answer = read(&file(&records)).answer.listed();
                let expected = match passes {
                    true => [0, 19, 0, 1789, 19, 1, 2, 2, 2, 142, 0, 0],
                    false => [7, record as u64, field, offset, 0, 0, 0, 0, 0, 0, 0, 0],
                };
                assert_eq!(answer, expected, "record {record} field {field}: '{}'", contents.escape_ascii());
            }
        }
    }
}

/// The links of a 52 stay byte by byte: the same number in another form, or on the other side of its blanks, is another number.
#[test]
fn a_52_repeats_the_routing_number_byte_by_byte() {
    let answer = |of_bundle: &[u8], of_view: &[u8]| {
        let mut records = with_all_routing_fields();
        put_at(&mut records, 3, 14, of_bundle);
        put_at(&mut records, 8, 3, of_view);
        read(&file(&records)).answer.listed()[..4].to_vec()
    };
    for same in [b"12345-678", b"1234     ", b"     1234", b"123456781"] {
        assert_eq!(answer(same, same), [0, 19, 0, 1789]);
    }
    for (of_bundle, of_view) in [
        (b"1234     ", b" 1234    "),
        (b"     1234", b"1234     "),
        (b"000001234", b"     1234"),
        (b"12345-678", b"12345-679"),
        (b"12345-678", b"123456780"),
        (b"123456781", b"123456780"),
        (b"12345678 ", b" 12345678"),
    ] {
        assert_eq!(answer(of_bundle, of_view), [8, 8, 2, 623]);
        assert_eq!(answer(of_view, of_bundle), [8, 8, 2, 623]);
    }
    // A form that the field does not list is FIELD before it is LINK.
    assert_eq!(answer(b"12345-678", b"1234-5678"), [7, 8, 2, 623]);
}

/// The picture call judges the 52 alone, by the same forms.
#[test]
fn the_picture_call_takes_the_same_forms() {
    let answer = |contents: &[u8]| {
        let mut records = vec![view_data(b"R")];
        put_at(&mut records, 1, 3, contents);
        picture(&file(&records), 0).listed()
    };
    for passes in [b"12345-678", b"123456781", b"7        ", b"       77"] {
        assert_eq!(answer(passes), [0, 0, 143, 1]);
    }
    for refused in [b"1234-5678", b"         ", b"7       7", b"12345678*"] {
        assert_eq!(answer(refused), [7, 2, 0, 0]);
    }
}
