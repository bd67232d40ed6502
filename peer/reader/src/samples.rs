//! Small sound files and small damaged ones, made of the records of `plain`, each with the line that document 01 calls for, worked
//! out by hand.
//!
//! With its length a record takes 84 bytes; a 26 or 32 takes 119, a 61 takes 88, a 90 takes 89, a bare 27 or 34 takes 77, a bare 52 143.

use crate::plain::*;

#[derive(Clone)]
pub struct Sample {
    pub name: &'static str,
    pub bytes: Vec<u8>,
    pub line: &'static str,
}

fn sample(name: &'static str, bytes: Vec<u8>, line: &'static str) -> Sample {
    Sample { name, bytes, line }
}

pub fn samples() -> Vec<Sample> {
    let sound = sound_samples().into_iter().chain(sound_credit_samples());
    let damaged = damaged_samples().into_iter().chain(damaged_routing_samples()).chain(damaged_credit_samples());
    sound.chain(damaged).collect()
}

/// 01, 10 with N, 90, 99.
fn no_detail() -> Vec<Vec<u8>> {
    vec![file_header(), letter_header('N'), letter_control(0, 0, 0, 0), file_control(1, 4, 0, 0)]
}

/// 01, 10 with E, 20, two 25s of 1.00 and 2.50, the first with a 26, a 27 and two 28s; only the first is MICR valid.
fn checks(micr_valid: &str) -> Vec<Vec<u8>> {
    vec![
        file_header(),
        letter_header('E'),
        bundle_header(),
        check(100, '1', 4),
        check_addendum_a(1),
        check_addendum_b("ARCHIVE/2005/02/30/000000000000001"),
        check_addendum_c(1),
        check_addendum_c(2),
        check(250, '2', 0),
        bundle_control(2, 350, micr_valid, 0),
        letter_control(1, 2, 350, 0),
        file_control(1, 12, 2, 350),
    ]
}

/// 01, 10 with I, 20, a 25 of 10,000.00, a 50, a 52 with eleven image bytes, a 54, a 50, a 52 without any.
fn check_with_views() -> Vec<Vec<u8>> {
    vec![
        file_header(),
        letter_header('I'),
        bundle_header(),
        check(1_000_000, ' ', 0),
        view_detail('0'),
        view_data(b"\0\xFFimage\n\x80\x7F\0"),
        view_analysis(),
        view_detail('0'),
        view_data(b""),
        bundle_control(1, 1_000_000, NOT_STATED, 2),
        letter_control(1, 1, 1_000_000, 2),
        file_control(1, 12, 1, 1_000_000),
    ]
}

/// 01, 10 with the letter, 20, a 31 of 42 cents with two 32s, the 33, a 34 and a 35: five addenda.
fn returns(content: char, views: u64) -> Vec<Vec<u8>> {
    let mut records = vec![
        file_header(),
        letter_header(content),
        bundle_header(),
        returned(42, 5),
        return_addendum_a(1, DATE),
        return_addendum_a(2, "2005????"),
        return_addendum_b(),
        return_addendum_c("#123456780# 1-2/3*$"),
        return_addendum_d(1),
    ];
    for _ in 0..views {
        records.extend([view_detail('0'), view_data(b"R")]);
    }
    let count = records.len() as u64 + 3;
    records.push(bundle_control(1, 42, "000000000000", views));
    records.push(letter_control(1, 1, 42, views));
    records.push(file_control(1, count, 1, 42));
    records
}

/// A cash letter of N, then one of I with a bundle of one 25 and a bundle of two 31s, a view each.
fn two_letters() -> Vec<Vec<u8>> {
    vec![
        file_header(),
        letter_header('n'),
        letter_control(0, 0, 0, 0),
        letter_header('i'),
        bundle_header(),
        check(9_999_999_999, '1', 0),
        view_detail('0'),
        view_data(b""),
        bundle_control(1, 9_999_999_999, "009999999999", 1),
        bundle_header(),
        returned(1, 1),
        return_addendum_b(),
        view_detail('0'),
        view_data(b"front"),
        returned(0, 1),
        return_addendum_b(),
        view_detail('0'),
        view_data(b"front"),
        bundle_control(2, 1, NOT_STATED, 2),
        letter_control(2, 3, 10_000_000_000, 3),
        file_control(2, 21, 3, 10_000_000_000),
    ]
}

/// A 25 whose routing number holds a can't-read mark, a dash and a blank, and whose sequence number is blank.
fn marks() -> Vec<Vec<u8>> {
    let mut item = check(7, ' ', 0);
    item[18..27].copy_from_slice(b"12-4 678*");
    item[57..72].fill(b' ');
    vec![
        file_header(),
        letter_header('E'),
        bundle_header(),
        item,
        bundle_control(1, 7, "000000000000", 0),
        letter_control(1, 1, 7, 0),
        file_control(1, 7, 1, 7),
    ]
}

/// A signed view: names, clipping, a signature of five bytes, no image, ancillary data of two.
fn signed_view() -> Vec<Vec<u8>> {
    vec![
        file_header(),
        letter_header('F'),
        bundle_header(),
        check(0, '1', 0),
        view_detail('1'),
        signed_view_data(b"\0\x01\x02\x03\x04", b"", b"\xFE\xFF"),
        bundle_control(1, 0, NOT_STATED, 1),
        letter_control(1, 1, 0, 1),
        file_control(1, 9, 1, 0),
    ]
}

/// A check with a 26 and a 28 and a return with a 32, the 33 and a 35, each in a bundle of its own and with a view. Every field
/// that lists TTTTT-FFF has a Canadian number; field 4 of a 20 is repeated by its 52.
fn canadian() -> Vec<Vec<u8>> {
    let header = || put(put(put(bundle_header(), 5, "00002-815"), 14, "10202-006"), 55, "99999-999");
    let view = || [put(view_detail('0'), 4, "00000-000"), put(view_data(b""), 3, "10202-006")];
    let mut records = vec![
        put(put(file_header(), 6, "00002-003"), 15, "10202-006"),
        put(put(letter_header('I'), 5, "00002-003"), 14, "10202-006"),
        header(),
        put(check(100, ' ', 2), 19, "04812-004"),
        put(check_addendum_a(1), 4, "00011-001"),
        put(check_addendum_c(1), 5, "00011-001"),
    ];
    records.extend(view());
    records.extend([bundle_control(1, 100, NOT_STATED, 1), header()]);
    records.push(put(returned(42, 3), 19, "04812-004"));
    records.extend([put(return_addendum_a(1, DATE), 4, "00011-001"), return_addendum_b()]);
    records.push(put(return_addendum_d(1), 5, "00011-001"));
    records.extend(view());
    records.extend([bundle_control(1, 42, NOT_STATED, 1), letter_control(2, 2, 142, 2), file_control(1, 19, 2, 142)]);
    records
}

/// Numbers of non-financial institutions wherever they are listed: one digit, nine that break the check digit, blanks on either
/// side. Two checks, one with TTTT-AAAA and one with bTTTTAAAA, and a view each.
fn other_numbers() -> Vec<Vec<u8>> {
    let view = || [put(view_detail('0'), 4, "        0"), put(view_data(b""), 3, "12345678 ")];
    let mut records = vec![
        put(put(file_header(), 6, "7        "), 15, "123456781"),
        put(put(letter_header('I'), 5, "    77777"), 14, "  12345  "),
        put(put(bundle_header(), 5, " 12345678"), 14, "12345678 "),
        put(check(5, ' ', 0), 19, "1234-5678"),
    ];
    records.extend(view());
    records.push(put(check(6, ' ', 0), 19, " 12345678"));
    records.extend(view());
    records.extend([bundle_control(2, 11, NOT_STATED, 2), letter_control(1, 2, 11, 2), file_control(1, 12, 2, 11)]);
    records
}

/// 61s directly in a cash letter of I, before and behind its bundle, and in the bundle, before and behind its check. The cash letter
/// header has another institution and another day than the bundle header; the 52 of the first 61 repeats these, and its cycle number is
/// nobody's. Usage 9 is a debit, a blank one a credit.
fn credits() -> Vec<Vec<u8>> {
    let of_letter = |record, routing, date| put(put(record, routing, "222222226"), date, "20240115");
    let other_sequence = "77             ";
    vec![
        file_header(),
        of_letter(letter_header('I'), 14, 23),
        credit('1', 100_000),
        view_detail('0'),
        put(of_letter(view_data(b"slip"), 3, 12), 20, "ZZ"),
        bundle_header(),
        put(credit('5', 12_345), 63, other_sequence),
        view_detail('0'),
        put(view_data(b""), 22, other_sequence),
        check(40_000, '1', 0),
        view_detail('0'),
        view_data(b"front"),
        credit('9', 5),
        // Debits: the check and the 61 of usage 9. Of the views the first is not in the bundle. MICR valid: the check alone.
        bundle_sums((2, 40_005), "000000040000", 2, (1, 12_345)),
        credit(' ', 7),
        // 100000 + 12345 + 7 = 112352.
        letter_sums(1, (2, 40_005), 3, (3, 112_352)),
        file_sums(1, 17, 5, 40_005, 112_352),
    ]
}

/// No check at all: 61s directly in a cash letter of N, one of the largest amount, and a bundle of 61s in one of E.
fn credits_alone() -> Vec<Vec<u8>> {
    vec![
        file_header(),
        letter_header('N'),
        credit('7', 99_999_999_999_999),
        credit('9', 1),
        letter_sums(0, (1, 1), 0, (1, 99_999_999_999_999)),
        letter_header('E'),
        bundle_header(),
        credit('3', 10),
        credit('4', 20),
        bundle_sums((0, 0), NOT_STATED, 0, (2, 30)),
        letter_sums(1, (0, 0), 0, (2, 30)),
        file_sums(2, 12, 4, 1, 100_000_000_000_029),
    ]
}

/// 61s between and behind returns, between two bundles, and before a check.
fn credits_among_items() -> Vec<Vec<u8>> {
    vec![
        file_header(),
        letter_header('E'),
        bundle_header(),
        returned(10, 1),
        return_addendum_b(),
        credit('5', 1_000),
        returned(20, 1),
        return_addendum_b(),
        credit('6', 2_000),
        bundle_sums((2, 30), NOT_STATED, 0, (2, 3_000)),
        credit('9', 300),
        credit('8', 400),
        bundle_header(),
        credit(' ', 50),
        check(7, ' ', 0),
        bundle_sums((1, 7), "000000000000", 0, (1, 50)),
        // Debits 30 + 300 + 7, credits 3000 + 400 + 50.
        letter_sums(2, (4, 337), 0, (4, 3_450)),
        file_sums(1, 18, 8, 337, 3_450),
    ]
}

fn sound_credit_samples() -> Vec<Sample> {
    vec![
        sample(
            "sound-11-credits.x9",
            file(&credits()),
            "accepted records 17 letters 1 bundles 1 items 5 views 3 debit 40005",
        ),
        sample(
            "sound-12-credits-alone.x9",
            file(&credits_alone()),
            "accepted records 12 letters 2 bundles 1 items 4 views 0 debit 1",
        ),
        sample(
            "sound-13-credits-among-items.x9",
            file(&credits_among_items()),
            "accepted records 18 letters 1 bundles 2 items 8 views 0 debit 337",
        ),
    ]
}

fn sound_samples() -> Vec<Sample> {
    vec![
        sample(
            "sound-1-no-detail.x9",
            file(&no_detail()),
            "accepted records 4 letters 1 bundles 0 items 0 views 0 debit 0",
        ),
        sample(
            "sound-2-checks.x9",
            file(&checks("000000000100")),
            "accepted records 12 letters 1 bundles 1 items 2 views 0 debit 350",
        ),
        sample(
            "sound-3-check-with-views.x9",
            file(&check_with_views()),
            "accepted records 12 letters 1 bundles 1 items 1 views 2 debit 1000000",
        ),
        sample(
            "sound-4-returns.x9",
            file(&returns('E', 0)),
            "accepted records 12 letters 1 bundles 1 items 1 views 0 debit 42",
        ),
        sample(
            "sound-5-returns-with-views.x9",
            file(&returns('f', 3)),
            "accepted records 18 letters 1 bundles 1 items 1 views 3 debit 42",
        ),
        sample(
            "sound-6-two-letters.x9",
            file(&two_letters()),
            "accepted records 21 letters 2 bundles 2 items 3 views 3 debit 10000000000",
        ),
        sample("sound-7-marks.x9", file(&marks()), "accepted records 7 letters 1 bundles 1 items 1 views 0 debit 7"),
        sample(
            "sound-8-signed-view.x9",
            file(&signed_view()),
            "accepted records 9 letters 1 bundles 1 items 1 views 1 debit 0",
        ),
        sample(
            "sound-9-canadian.x9",
            file(&canadian()),
            "accepted records 19 letters 1 bundles 2 items 2 views 2 debit 142",
        ),
        sample(
            "sound-10-other-numbers.x9",
            file(&other_numbers()),
            "accepted records 12 letters 1 bundles 1 items 2 views 2 debit 11",
        ),
    ]
}

/// Records changed by hand.
fn changed(mut records: Vec<Vec<u8>>, change: impl Fn(&mut Vec<Vec<u8>>)) -> Vec<u8> {
    change(&mut records);
    file(&records)
}

fn damaged_samples() -> Vec<Sample> {
    vec![
        // Four bytes say 80 and nothing follows.
        sample("damaged-01-cut.x9", vec![0, 0, 0, 0x50], "refused 3 record 1 field 0 offset 0"),
        // 25 field 4 at positions 19-27: 123456781 breaks the check digit. The 25 is the fourth record, at 3 x 84 = 252.
        sample(
            "damaged-02-check-digit.x9",
            changed(checks(NOT_STATED), |records| records[3][26] = b'1'),
            "refused 7 record 4 field 4 offset 252",
        ),
        // 01 99: only a 10 may follow the 01. The second record stands at 84.
        sample(
            "damaged-03-place.x9",
            changed(no_detail(), |records| {
                records.drain(1..3);
            }),
            "refused 6 record 2 field 0 offset 84",
        ),
        // A 25 that states one addendum, then the 70, which stands at 4 x 84 = 336.
        sample(
            "damaged-04-owed.x9",
            file(&[
                file_header(),
                letter_header('E'),
                bundle_header(),
                check(5, ' ', 1),
                bundle_control(1, 5, NOT_STATED, 0),
                letter_control(1, 1, 5, 0),
                file_control(1, 7, 1, 5),
            ]),
            "refused 8 record 5 field 1 offset 336",
        ),
        // 10 field 6 at positions 31-38: the year 1992. The 10 stands at 84.
        sample(
            "damaged-05-year.x9",
            changed(no_detail(), |records| records[1][30..38].copy_from_slice(b"19921231")),
            "refused 7 record 2 field 6 offset 84",
        ),
        // 70 field 2 says 3 items of 2. Before the 70: 4 records of 84, the 26 of 119, the 27 of 77 + 34, three of 84:
        // 336 + 119 + 111 + 252 = 818.
        sample(
            "damaged-06-item-count.x9",
            changed(checks(NOT_STATED), |records| records[9][5] = b'3'),
            "refused 9 record 10 field 2 offset 818",
        ),
        // 70 field 4 counts the 25 whose indicator is 2 as well.
        sample("damaged-07-micr-total.x9", file(&checks("000000000350")), "refused 9 record 10 field 4 offset 818"),
        // No 99: it would be the fourth record, at 84 + 84 + 89 = 257.
        sample(
            "damaged-08-open.x9",
            changed(no_detail(), |records| {
                records.pop();
            }),
            "refused 10 record 4 field 0 offset 257",
        ),
        // A line feed after the 99, which ends at 257 + 84 = 341.
        sample(
            "damaged-09-after.x9",
            [file(&no_detail()), vec![b'\n']].concat(),
            "refused 11 record 5 field 0 offset 341",
        ),
        // Type 68 is not carried; it stands where the 90 stood, at 168.
        sample(
            "damaged-10-type-68.x9",
            changed(no_detail(), |records| records[2][..2].copy_from_slice(b"68")),
            "refused 5 record 3 field 0 offset 168",
        ),
        // The 52 states twelve image bytes and holds eleven. It is the sixth record: five of 84 before it.
        sample(
            "damaged-11-image-length.x9",
            changed(check_with_views(), |records| records[5][133] = b'2'),
            "refused 4 record 6 field 0 offset 420",
        ),
        // 52 field 4 at positions 20-21 says "Ab" where the bundle header says "AB": byte by byte.
        sample(
            "damaged-12-cycle-number.x9",
            changed(check_with_views(), |records| records[5][20] = b'b'),
            "refused 8 record 6 field 4 offset 420",
        ),
    ]
}

/// Routing numbers in forms that their fields do not list (request 1), and one that is not repeated as it stands.
fn damaged_routing_samples() -> Vec<Sample> {
    vec![
        // 20 field 10 does not list the form that may be shorter than nine digits. The 20 is the third record.
        sample(
            "damaged-13-short-number.x9",
            changed(checks(NOT_STATED), |records| records[2][54..63].copy_from_slice(b"1234567  ")),
            "refused 7 record 3 field 10 offset 168",
        ),
        // 52 field 2 repeats 20 field 4 byte by byte: "12345678 " there, the same digits on the right here.
        sample(
            "damaged-14-moved-number.x9",
            changed(other_numbers(), |records| records[5][2..11].copy_from_slice(b" 12345678")),
            "refused 8 record 6 field 2 offset 420",
        ),
        // 01 field 4 is mandatory: no form is all blank.
        sample(
            "damaged-15-no-number.x9",
            changed(no_detail(), |records| records[0][5..14].fill(b' ')),
            "refused 7 record 1 field 4 offset 0",
        ),
        // 10 field 4 lists TTTTT-FFF, not TTTT-AAAA.
        sample(
            "damaged-16-moved-dash.x9",
            changed(canadian(), |records| records[1][13..22].copy_from_slice(b"1020-2006")),
            "refused 7 record 2 field 4 offset 84",
        ),
    ]
}

/// Credits (request 2).
fn damaged_credit_samples() -> Vec<Sample> {
    [damaged_credit_places(), damaged_credit_sums()].concat()
}

/// A check that states so many addenda and has none, and a 61 behind it.
fn check_and_credit(content: char, addenda: u64) -> Vec<Vec<u8>> {
    vec![
        file_header(),
        letter_header(content),
        bundle_header(),
        check(5, ' ', addenda),
        credit('4', 5),
        bundle_sums((1, 5), NOT_STATED, 0, (1, 5)),
        letter_sums(1, (1, 5), 0, (1, 5)),
        file_sums(1, 8, 2, 5, 5),
    ]
}

fn damaged_credit_places() -> Vec<Sample> {
    vec![
        // A check without a view in a cash letter of I, then a 61, which is faulted: four records of 84 before it.
        sample(
            "damaged-17-view-missing-at-61.x9",
            file(&check_and_credit('I', 0)),
            "refused 8 record 5 field 1 offset 336",
        ),
        // The 52 of the first 61, outside the bundle, has the routing number of the bundle header. It stands at 84 + 84 + 88 + 84 = 340.
        sample(
            "damaged-18-other-header.x9",
            changed(credits(), |records| records[4][2..11].copy_from_slice(ROUTING.as_bytes())),
            "refused 8 record 5 field 2 offset 340",
        ),
        // A 61 between the 01 and the first 10 lies in no cash letter.
        sample(
            "damaged-19-61-in-no-letter.x9",
            changed(credits_alone(), |records| records.swap(1, 2)),
            "refused 6 record 2 field 0 offset 84",
        ),
        // E without a bundle, though a 61 stands there: faulted at the 90, at 84 + 84 + 88 = 256.
        sample(
            "damaged-20-no-bundle.x9",
            file(&[
                file_header(),
                letter_header('E'),
                credit('1', 9),
                letter_sums(0, (0, 0), 0, (1, 9)),
                file_sums(1, 5, 1, 0, 9),
            ]),
            "refused 8 record 4 field 1 offset 256",
        ),
        // E with a view, of a 61 that stands directly in the cash letter: faulted at the 50.
        sample(
            "damaged-21-view-under-e.x9",
            changed(credits(), |records| records[1][42] = b'E'),
            "refused 8 record 4 field 1 offset 256",
        ),
        // 25 states one addendum, and a 61 follows.
        sample("damaged-22-owed-at-61.x9", file(&check_and_credit('E', 1)), "refused 8 record 5 field 1 offset 336"),
        // 61 field 11 at positions 80-81: 12 is no source of work. The first 61 is the third record.
        sample(
            "damaged-23-source-of-work.x9",
            changed(credits_alone(), |records| records[2][79..81].copy_from_slice(b"12")),
            "refused 7 record 3 field 11 offset 168",
        ),
    ]
}

/// The 70 of `credits_among_items` is the tenth record, with three of 84 before the first item, which takes two of 84, as the second does,
/// each with an 88 behind: 252 + 168 + 88 + 168 + 88 = 764.
fn damaged_credit_sums() -> Vec<Sample> {
    let with_control = |control: Vec<u8>| changed(credits_among_items(), |records| records[9] = control.clone());
    vec![
        // The first 61 taken for a debit: 30 + 1000.
        sample(
            "damaged-24-credit-as-debit.x9",
            with_control(bundle_sums((2, 1_030), NOT_STATED, 0, (2, 2_000))),
            "refused 9 record 10 field 3 offset 764",
        ),
        // The first 61 left out of the credit cents.
        sample(
            "damaged-25-credit-left-out.x9",
            with_control(bundle_sums((2, 30), NOT_STATED, 0, (2, 2_000))),
            "refused 9 record 10 field 7 offset 764",
        ),
        // 90 field 8 without the 61s outside the bundles. Before the 90: 764 + 84 + 88 + 88 + 84 + 88 + 84 + 84 = 1364.
        sample(
            "damaged-26-outside-left-out.x9",
            changed(credits_among_items(), |records| records[16] = letter_sums(2, (4, 337), 0, (3, 3_050))),
            "refused 9 record 17 field 8 offset 1364",
        ),
        // 99 field 4 takes in every 61; here it has the two credits of the bundle alone. Before the 99: 84 + 84 + 88 + 88 + 89, then
        // 84 + 84 + 88 + 88 + 84 + 89: 433 + 517 = 950.
        sample(
            "damaged-27-item-count.x9",
            changed(credits_alone(), |records| records[11] = file_sums(2, 12, 2, 1, 100_000_000_000_029)),
            "refused 9 record 12 field 4 offset 950",
        ),
    ]
}
