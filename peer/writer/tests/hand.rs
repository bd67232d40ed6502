//! Cases worked out by hand from documents 01 and 02, readings 41 to 46 and the tables of the standard.
//! With its length a record takes 84 bytes; a 26 or 32 takes 119, a 61 takes 88, a 90 takes 89, a bare 27 or 34 takes 77, a bare 52 143.

use peer_reader::charset::Set;
use peer_reader::plain::*;
use peer_writer::draft::draft_of;
use peer_writer::write::write;

const ACCEPTED: u64 = 0;
const SIZE: u64 = 1;
const ROOM: u64 = 2;
const PLACE: u64 = 6;
const FIELD: u64 = 7;
const LINK: u64 = 8;
const TOTAL: u64 = 9;

/// What a buffer holds before a call.
const BEFORE: u8 = 0x5A;

/// A draft by hand: bodies one after another in the text, each with its row.
#[derive(Clone, Default)]
struct Hand {
    text: Vec<u8>,
    numbers: Vec<u64>,
}

impl Hand {
    /// A record without parts.
    fn put(self, body: Vec<u8>) -> Hand {
        self.sized(body, &[])
    }

    fn puts(self, bodies: &[Vec<u8>]) -> Hand {
        bodies.iter().fold(self, |hand, body| hand.put(body.clone()))
    }

    /// A record with the sizes of its parts.
    fn sized(mut self, body: Vec<u8>, sizes: &[u64]) -> Hand {
        let code = u64::from(body[0] - b'0') * 10 + u64::from(body[1] - b'0');
        let mut row = [0; 10];
        (row[0], row[1]) = (code, self.text.len() as u64);
        row[3..3 + sizes.len()].copy_from_slice(sizes);
        self.numbers.extend(row);
        self.text.extend(body);
        self
    }

    /// One number of one row, both counted from 0, made another.
    fn number(mut self, row: usize, column: usize, number: u64) -> Hand {
        self.numbers[row * 10 + column] = number;
        self
    }

    /// A text of so many bytes.
    fn cut(mut self, length: usize) -> Hand {
        self.text.truncate(length);
        self
    }

    /// The first four numbers of the answer with a buffer of 200,000 bytes, which a refusal leaves as it was.
    fn answer(&self) -> [u64; 4] {
        let mut out = vec![BEFORE; 200_000];
        let listed = write(&self.text, &self.numbers, &mut out).listed();
        if listed[0] != ACCEPTED {
            assert!(out.iter().all(|byte| *byte == BEFORE), "the buffer is untouched");
            assert_eq!(listed[4..], [0; 8], "totals are zero");
        }
        [listed[0], listed[1], listed[2], listed[3]]
    }

    /// The file that is written, and its eight totals.
    fn written(&self) -> (Vec<u8>, [u64; 8]) {
        let mut out = vec![BEFORE; 200_000];
        let listed = write(&self.text, &self.numbers, &mut out).listed();
        let (number, bytes) = (listed[0], listed[3] as usize);
        assert_eq!([number, listed[1], listed[2]], [ACCEPTED, listed[4], 0]);
        assert!(out[bytes..].iter().all(|byte| *byte == BEFORE), "bytes after the file are as they were");
        out.truncate(bytes);
        (out, listed[4..].try_into().expect("eight totals"))
    }

    fn refused(&self, number: u64, record: u64, field: u64, offset: u64) {
        assert_eq!(self.answer(), [number, record, field, offset]);
    }
}

/// 01 and 10.
fn letter(content: char) -> Hand {
    Hand::default().put(file_header()).put(letter_header(content))
}

/// 01, 10, 20.
fn bundle(content: char) -> Hand {
    letter(content).put(bundle_header())
}

/// Controls with nines in every place that is worked out.
fn bundle_nines() -> Vec<u8> {
    bundle_sums((9999, 999_999_999_999), "999999999999", 99999, (9999, 999_999_999_999))
}

fn letter_nines() -> Vec<u8> {
    letter_sums(999_999, (99_999_999, 99_999_999_999_999), 999_999_999, (99_999_999, 99_999_999_999_999))
}

fn file_nines() -> Vec<u8> {
    file_sums(999_999, 99_999_999, 99_999_999, 9_999_999_999_999_999, 9_999_999_999_999_999)
}

/// 90 and 99 behind a letter's records.
fn closed(hand: Hand) -> Hand {
    hand.put(letter_nines()).put(file_nines())
}

/// 70, 90, 99 behind a bundle's.
fn closed_bundle(hand: Hand) -> Hand {
    closed(hand.put(bundle_nines()))
}

// ---- the shortest file, and the buffer ----

#[test]
fn the_shortest_file_is_made_of_nines() {
    let (file, totals) = closed(letter('N')).written();
    assert_eq!(file.len(), 84 + 84 + 89 + 84);
    let records = [file_header(), letter_header('N'), letter_control(0, 0, 0, 0), file_control(1, 4, 0, 0)];
    assert_eq!(file, plain_file(&records));
    assert_eq!(totals, [4, 1, 0, 0, 0, 0, 0, 0]);
}

fn plain_file(records: &[Vec<u8>]) -> Vec<u8> {
    peer_reader::plain::file(records)
}

#[test]
fn room_is_given_with_the_bytes_needed() {
    let hand = closed(letter('N'));
    for (room, expected) in [(340, [ROOM, 341, 0, 0]), (0, [ROOM, 341, 0, 0]), (341, [ACCEPTED, 4, 0, 341])] {
        let mut out = vec![BEFORE; room];
        let listed = write(&hand.text, &hand.numbers, &mut out).listed();
        assert_eq!(listed[..4], expected);
        assert_eq!(out.iter().all(|byte| *byte == BEFORE), room < 341);
    }
    let mut out = vec![BEFORE; 350];
    write(&hand.text, &hand.numbers, &mut out);
    assert_eq!(out[340..], [b'0', BEFORE, BEFORE, BEFORE, BEFORE, BEFORE, BEFORE, BEFORE, BEFORE, BEFORE]);
}

#[test]
fn a_fault_comes_before_room() {
    let hand = letter('N').put(letter_nines());
    assert_eq!(write(&hand.text, &hand.numbers, &mut []).listed()[..4], [PLACE, 4, 0, 257]);
}

/// One view of 9,999,999 bytes 27 times: 27 x (84 + 143 + 9,999,999) = 270,006,102, over the limit by itself.
#[test]
fn size_comes_before_room_and_after_every_record() {
    let mut hand = bundle('I').put(check(1, ' ', 0));
    for _ in 0..27 {
        hand = hand.put(view_detail('0')).sized(view_data(b""), &[0, 0, 0, 0, 0, 9_999_999, 0]);
    }
    let mut hand = closed_bundle(hand);
    hand.text.resize(11_000_000, BEFORE);
    hand.refused(SIZE, 0, 0, 0);
    assert_eq!(write(&hand.text, &hand.numbers, &mut []).listed()[..4], [SIZE, 0, 0, 0]);
    // The same with another record behind the 99: 4 + 27 x 2 + 3 records before it, at an offset past the limit.
    let hand = hand.put(file_header());
    hand.refused(PLACE, 62, 0, 84 * 4 + 27 * 10_000_226 + 84 + 89 + 84);
}

// ---- PLACE ----

#[test]
fn no_rows_are_a_missing_first_record() {
    Hand::default().refused(PLACE, 1, 0, 0);
    let nine = Hand { text: file_header(), numbers: vec![1, 0, 0, 0, 0, 0, 0, 0, 0] };
    nine.refused(PLACE, 1, 0, 0);
}

#[test]
fn numbers_behind_the_last_row_are_not_looked_at() {
    let mut hand = closed(letter('N'));
    hand.numbers.extend([7, 7, 7, 7, 7, 7, 7, 7, 7]);
    assert_eq!(hand.answer(), [ACCEPTED, 4, 0, 341]);
    hand.numbers.push(7);
    hand.refused(PLACE, 5, 0, 341);
}

#[test]
fn types_where_they_may_not_stand() {
    Hand::default().put(file_nines()).refused(PLACE, 1, 0, 0);
    Hand::default().put(file_header()).put(file_nines()).refused(PLACE, 2, 0, 84); // P8
    bundle('E').put(bundle_nines()).refused(PLACE, 4, 0, 252); // P9
    let return_first = bundle('E').put(returned(1, 0)).put(return_addendum_c(""));
    return_first.refused(PLACE, 5, 0, 336); // P10
    letter('N').put(letter_nines()).put(credit(' ', 1)).refused(PLACE, 4, 0, 257);
    bundle('E').put(check(1, ' ', 0)).put(returned(1, 0)).refused(PLACE, 5, 0, 336);
    letter('N').put(credit(' ', 1)).put(check(1, ' ', 0)).refused(PLACE, 4, 0, 256);
}

#[test]
fn rows_that_end_before_a_99() {
    Hand::default().put(file_header()).refused(PLACE, 2, 0, 84);
    letter('N').put(letter_nines()).refused(PLACE, 4, 0, 257);
    bundle('E').put(check(1, ' ', 0)).refused(PLACE, 5, 0, 336);
}

#[test]
fn anything_behind_a_99() {
    closed(letter('N')).put(file_header()).refused(PLACE, 5, 0, 341);
    closed(letter('N')).put(file_nines()).refused(PLACE, 5, 0, 341);
    closed(letter('N')).put(file_nines()).number(4, 0, 40).refused(PLACE, 5, 0, 341);
}

#[test]
fn types_that_are_not_carried() {
    for strange in [0, 2, 40, 41, 55, 68, 85, 100, 266, 10 + (1 << 32), u64::MAX] {
        closed(letter('N')).number(1, 0, strange).refused(PLACE, 2, 0, 84);
    }
    closed(letter('N')).number(0, 0, 257).refused(PLACE, 1, 0, 0);
}

// ---- what is worked out ----

/// A 25 with a 26, a 27 and two 28s, all counts and numbers wrong in the text.
#[test]
fn counts_and_record_numbers_are_worked_out() {
    let locator = "ARCHIVE/2005/02/30/000000000000001";
    let addendum_b = put(check_addendum_b(locator), 52, "99999999999999999");
    let hand = bundle('E')
        .put(check(100, '1', 77))
        .put(check_addendum_a(7))
        .sized(addendum_b, &[34, 0, 0, 0, 0, 0])
        .put(check_addendum_c(66))
        .put(check_addendum_c(66))
        .put(check(250, '2', 99));
    let (file, totals) = closed_bundle(hand).written();
    let expected = [
        file_header(),
        letter_header('E'),
        bundle_header(),
        check(100, '1', 4),
        check_addendum_a(1),
        check_addendum_b(locator),
        check_addendum_c(1),
        check_addendum_c(2),
        check(250, '2', 0),
        bundle_control(2, 350, "000000000100", 0),
        letter_control(1, 2, 350, 0),
        file_control(1, 12, 2, 350),
    ];
    assert_eq!(file, plain_file(&expected));
    assert_eq!(totals, [12, 1, 1, 2, 0, 350, 0, 0]);
}

/// Two items each with 32, 33, 34, 35: their numbers begin anew, and a 33 counts among the addenda.
#[test]
fn record_numbers_begin_anew_in_each_item() {
    let item = [
        returned(42, 0),
        return_addendum_a(5, DATE),
        return_addendum_a(5, DATE),
        return_addendum_b(),
        return_addendum_d(50),
    ];
    let (file, _) = closed_bundle(bundle('E').puts(&item).puts(&item)).written();
    let right = [
        returned(42, 4),
        return_addendum_a(1, DATE),
        return_addendum_a(2, DATE),
        return_addendum_b(),
        return_addendum_d(1),
    ];
    let one = plain_file(&right);
    assert_eq!(file[252..252 + 2 * one.len()], [one.clone(), one].concat());
}

#[test]
fn the_length_before_a_record_and_the_lengths_of_parts() {
    // P6: a 52 with 1,000 image bytes and no other part is 1,139 long: 00 00 04 73. P7: a 27 with a 34-byte locator is 107: 00 00 00 6B.
    let view = put(view_data(&[BEFORE; 1000]), 104, "999999999999999999999999999999999999");
    let hand = bundle('I').put(check(1, ' ', 0)).put(view_detail('0')).sized(view, &[0, 0, 0, 0, 0, 1000, 0]);
    let (file, totals) = closed_bundle(hand).written();
    assert_eq!(file[420..424], [0x00, 0x00, 0x04, 0x73]);
    assert_eq!(file[424 + 103..424 + 139], *b"000000000000000000000000000100000000");
    assert_eq!(file[424 + 139..424 + 1139], [BEFORE; 1000]);
    assert_eq!(totals, [9, 1, 1, 1, 1, 1, 0, 0]);
    let locator = check_addendum_b("0123456789012345678901234567890123");
    let hand = bundle('E').put(check(1, ' ', 0)).sized(locator, &[34, 0, 0, 0, 0, 0]);
    assert_eq!(closed_bundle(hand).written().0[336..340], [0x00, 0x00, 0x00, 0x6B]);
}

/// A debit of usage 9 and a credit directly in the letter, a check, a return's bundle, a credit in it, and a view of each.
#[test]
fn debits_credits_and_views_are_added_up_level_by_level() {
    let view = |hand: Hand| hand.put(view_detail('0')).sized(view_data(b"R"), &[0, 0, 0, 0, 0, 1, 0]);
    let first = view(letter('I').put(credit('9', 1000)).put(credit(' ', 20)));
    let second = view(first.put(bundle_header()).put(check(300, '1', 0)));
    let third = view(second.put(credit('3', 4000))).put(bundle_nines());
    let fourth = view(third.put(bundle_header()).put(returned(5, 0)).put(return_addendum_b()));
    let hand = fourth.put(bundle_nines()).put(letter_nines()).put(letter_header('n')).put(letter_nines());
    let (file, totals) = hand.put(file_nines()).written();
    // 01 10 61 61 50 52 20 25 50 52 61 50 52 70 20 31 33 50 52 70 90 10 90 99
    assert_eq!(totals, [24, 2, 2, 5, 4, 1305, 2, 4020]);
    let tail = [
        letter_sums(2, (3, 1305), 4, (2, 4020)),
        letter_header('n'),
        letter_control(0, 0, 0, 0),
        file_sums(2, 24, 5, 1305, 4020),
    ];
    assert!(file.ends_with(&plain_file(&tail)));
    let first_70 = plain_file(&[bundle_sums((1, 300), "000000000300", 2, (1, 4000))]);
    let second_70 = plain_file(&[bundle_sums((1, 5), "000000000000", 1, (0, 0))]);
    let holds = |part: &[u8]| file.windows(part.len()).any(|window| window == part);
    assert!(holds(&first_70) && holds(&second_70));
}

#[test]
fn the_flag_asks_for_a_blank_micr_total() {
    // The 70 is row 4 and begins at 336 in the file; its field 4 is at positions 19 to 30.
    let hand = closed_bundle(bundle('E').put(check(700, '1', 0)));
    let stated = |hand: Hand| hand.written().0[340 + 18..340 + 30].to_vec();
    assert_eq!(stated(hand.clone()), *b"000000000700");
    assert_eq!(stated(hand.clone().number(4, 2, 1)), *b"            ");
    for other in [2, 257, (1 << 32) + 1, u64::MAX] {
        assert_eq!(stated(hand.clone().number(4, 2, other)), *b"000000000700");
    }
    assert_eq!(stated(hand.clone().number(3, 2, 1).number(5, 2, 1)), *b"000000000700");
}

#[test]
fn numbers_that_are_not_looked_at() {
    let mut hand = closed_bundle(bundle('E').put(check(700, '1', 0)));
    let before = hand.written();
    for row in 0..7 {
        (3..10).for_each(|column| hand.numbers[row * 10 + column] = u64::MAX);
    }
    assert_eq!(hand.written(), before);
    // A 27 has six parts: its tenth number is not looked at.
    let hand = bundle('E').put(check(1, ' ', 0)).sized(check_addendum_b(""), &[0, 0, 0, 0, 0, 0]);
    let hand = closed_bundle(hand);
    assert_eq!(hand.clone().number(4, 9, u64::MAX).written(), hand.written());
}

#[test]
fn items_may_share_their_text() {
    let hand = bundle('E').put(check(5, '1', 0)).put(check(7, '2', 0)).number(4, 1, 240);
    let (file, totals) = closed_bundle(hand).written();
    assert_eq!(totals, [8, 1, 1, 2, 0, 10, 0, 0]);
    assert_eq!(file[252..336], file[336..420]);
}

// ---- FIELD ----

#[test]
fn a_value_that_breaks_its_rule() {
    let hand = |position, contents: &str| closed(letter('N')).replace_header(position, contents);
    hand(3, "04").refused(FIELD, 1, 2, 0);
    hand(24, "19921231").refused(FIELD, 1, 6, 0); // P4
    hand(80, "X").refused(FIELD, 1, 14, 0);
    hand(1, "77").written(); // field 1 is worked out
    let day = put(letter_header('N'), 23, "20050132");
    closed(Hand::default().put(file_header()).put(day)).refused(FIELD, 2, 5, 84);
    let bad_user = put(bundle_nines(), 61, "X");
    closed(bundle('E').put(check(1, ' ', 0)).put(bad_user)).refused(FIELD, 5, 9, 336);
    let settled = put(letter_nines(), 56, "20059999");
    letter('N').put(settled).put(file_nines()).refused(FIELD, 3, 7, 168);
    letter('N').put(letter_nines()).put(put(file_nines(), 55, "A")).refused(FIELD, 4, 7, 257);
}

impl Hand {
    fn replace_header(mut self, position: usize, contents: &str) -> Hand {
        self.text[position - 1..position - 1 + contents.len()].copy_from_slice(contents.as_bytes());
        self
    }
}

#[test]
fn a_value_that_lies_outside_the_text() {
    let alone = Hand::default().put(file_header());
    alone.clone().cut(79).refused(FIELD, 1, 14, 0);
    alone.clone().cut(78).refused(FIELD, 1, 13, 0);
    alone.clone().cut(3).refused(FIELD, 1, 2, 0);
    alone.clone().cut(0).refused(FIELD, 1, 2, 0);
    alone.clone().number(0, 1, 1).refused(FIELD, 1, 2, 0); // "12" is no standard level
    for start in [80, 1 << 32, u64::MAX, u64::MAX - 1, u64::MAX - 79] {
        alone.clone().number(0, 1, start).refused(FIELD, 1, 2, 0);
        closed(letter('N')).number(1, 1, start.max(1000)).refused(FIELD, 2, 2, 84);
    }
}

#[test]
fn the_lower_of_two_fields_answers() {
    // 01.2 is wrong and 01.14 outside the text; then 01.13 outside and 01.9 wrong.
    Hand::default().put(put(file_header(), 3, "99")).cut(79).refused(FIELD, 1, 2, 0);
    let control = Hand::default().put(put(file_header(), 37, "\u{1}")).cut(78);
    control.refused(FIELD, 1, 9, 0);
}

#[test]
fn what_is_worked_out_may_lie_outside_the_text() {
    let shortest = closed(letter('N')); // 80 + 80 + 85 + 80 bytes of text
    let whole = shortest.written();
    assert_eq!(shortest.clone().cut(245 + 64).written(), whole); // 99.8 is at 65 to 80
    shortest.clone().cut(245 + 63).refused(FIELD, 4, 7, 257);
    // The 90 last in the text: its fields 8 and 9 are at 64 to 85.
    let mut text = [file_header(), letter_header('N'), file_nines(), letter_nines()].concat();
    text.truncate(240 + 63);
    let hand = Hand { text, ..shortest }.number(2, 1, 240).number(3, 1, 160);
    assert_eq!(hand.written(), whole);
    hand.cut(240 + 62).refused(FIELD, 3, 7, 168);
}

#[test]
fn a_bare_52_needs_no_more_than_field_14_of_the_text() {
    let mut hand = bundle('I').put(check(1, ' ', 0)).put(view_detail('0')).put(bundle_nines());
    hand = closed(hand).sized(view_data(b""), &[]);
    let last = hand.numbers.split_off(80);
    hand.numbers.splice(50..50, last);
    let length = hand.text.len();
    let whole = hand.written();
    assert_eq!(hand.clone().cut(length - 36).written(), whole);
    hand.clone().cut(length - 37).refused(FIELD, 6, 14, 420);
    // One byte of ancillary data would have to lie there.
    hand.clone().number(5, 9, 1).refused(FIELD, 6, 28, 420);
    hand.cut(length - 36).number(5, 9, 1).refused(FIELD, 6, 28, 420);
}

/// 01, 10, 20, 25 and a 27 with these sizes; so many digits behind its fixed part.
fn with_27(sizes: &[u64], digits: usize) -> Hand {
    let mut body = check_addendum_b("");
    body.extend(vec![b'7'; digits]);
    closed_bundle(bundle('E').put(check(1, ' ', 0)).sized(body, sizes))
}

#[test]
fn parts_that_outgrow_their_lengths() {
    with_27(&[10_000, 0, 0, 0, 0, 0], 10_000).refused(FIELD, 5, 6, 336);
    assert_eq!(with_27(&[9_999, 0, 0, 0, 0, 0], 9_999).answer()[0], ACCEPTED);
    with_27(&[0, 100, 0, 0, 0, 0], 100).refused(FIELD, 5, 7, 336);
    with_27(&[0, 0, 0, 0, 100, 0], 100).refused(FIELD, 5, 10, 336);
    with_27(&[0, 0, 0, 0, 0, 100_000], 100_000).refused(FIELD, 5, 11, 336);
    assert_eq!(with_27(&[0, 99, 99, 99, 99, 99_999], 99_999 + 4 * 99).answer()[0], ACCEPTED);
    with_27(&[0, 0, 100, u64::MAX, 0, 0], 0).refused(FIELD, 5, 8, 336);
    with_27(&[u64::MAX, 1, 0, 0, 0, 0], 1).refused(FIELD, 5, 6, 336);
}

#[test]
fn parts_outside_the_text_or_of_wrong_characters() {
    // The 27's parts run on over the 70, 90 and 99 behind them: 80 + 85 + 80 bytes.
    with_27(&[0, 0, 0, 0, 0, 300], 3).refused(FIELD, 5, 18, 336);
    // The text behind four digits is that of the 70, "709999": parts may lie over other records.
    let (file, _) = with_27(&[5, 3, 0, 0, 0, 0], 4).written();
    assert_eq!(file[340 + 51..340 + 81], *b"00050300000000000     77777099");
    let mut hand = with_27(&[3, 0, 0, 0, 0, 0], 3);
    hand.text[320 + 73] = 0x7F;
    hand.refused(FIELD, 5, 13, 336);
    // A length comes before the field behind it, field 12, and both before any part.
    let mut hand = with_27(&[10_000, 0, 0, 0, 0, 0], 3);
    hand.text[320 + 68] = b'X';
    hand.refused(FIELD, 5, 6, 336);
    let mut hand = with_27(&[3_000, 0, 0, 0, 0, 0], 3);
    hand.text[320 + 68] = b'X';
    hand.refused(FIELD, 5, 12, 336);
}

/// 01, 10, 20, 25, 50 and a 52 with these sizes, the last in the text.
fn with_52(sizes: &[u64], behind: usize) -> Hand {
    let mut body = view_data(b"");
    body.extend(vec![b'5'; behind]);
    bundle('I').put(check(1, ' ', 0)).put(view_detail('0')).sized(body, sizes)
}

#[test]
fn sizes_of_a_52_near_2_64() {
    with_52(&[0, 0, 0, 0, 0, 10_000_000, 0], 5).refused(FIELD, 6, 20, 420);
    with_52(&[0, 0, 0, 0, 0, u64::MAX, 0], 5).refused(FIELD, 6, 20, 420);
    with_52(&[0, 0, 0, 0, 0, 9_999_999, 0], 5).refused(FIELD, 6, 27, 420);
    with_52(&[u64::MAX, u64::MAX, 0, 0, 0, 5, 2], 5).refused(FIELD, 6, 15, 420);
    with_52(&[0, u64::MAX, 1, 0, 0, 5, 0], 5).refused(FIELD, 6, 16, 420);
    with_52(&[1 << 63, 1 << 63, 0, 0, 0, 5, 0], 5).refused(FIELD, 6, 15, 420);
    with_52(&[0, 0, 0, 0, 0, 6, 0], 5).refused(FIELD, 6, 27, 420);
    with_52(&[0, 0, 0, 0, 0, 5, 1], 5).refused(FIELD, 6, 28, 420);
    with_52(&[1, 1, 1, 1, 1, 0, 0], 4).refused(FIELD, 6, 26, 420);
    with_52(&[1, 1, 1, 1, 1, 0, 0], 5).refused(PLACE, 7, 0, 420 + 143 + 5);
}

#[test]
fn addenda_that_outgrow_their_count() {
    let checks = |first: usize, second: usize| {
        let hand = bundle('E').put(check(1, ' ', 0)).puts(&vec![check_addendum_a(0); first]);
        closed_bundle(hand.puts(&vec![check_addendum_c(0); second]))
    };
    assert_eq!(checks(0, 99).answer(), [ACCEPTED, 106, 0, 84 * 4 + 99 * 84 + 84 + 89 + 84]);
    checks(0, 100).refused(FIELD, 4, 12, 252);
    checks(10, 90).refused(FIELD, 4, 12, 252); // before the tenth 26
    assert_eq!(checks(9, 90).answer()[0], ACCEPTED);
    // Nine 26s of 119 bytes stand before the tenth, which is record 14.
    checks(10, 0).refused(LINK, 14, 2, 336 + 9 * 119);
    checks(10, 89).refused(LINK, 14, 2, 336 + 9 * 119);
    let returns = |last: usize| {
        let hand = bundle('E').put(returned(1, 0)).put(return_addendum_b());
        closed_bundle(hand.puts(&vec![return_addendum_d(0); last]))
    };
    assert_eq!(returns(98).answer()[0], ACCEPTED);
    returns(99).refused(FIELD, 4, 8, 252);
    let tenth = bundle('E').put(returned(1, 0)).puts(&vec![return_addendum_a(0, DATE); 10]);
    closed_bundle(tenth.put(return_addendum_b())).refused(LINK, 14, 2, 336 + 9 * 119);
}

/// The addenda are the run of rows behind the item, whatever their order: the count comes before the PLACE of one among them.
#[test]
fn an_unlawful_run_still_counts() {
    let hand = bundle('E').put(check(1, ' ', 0)).puts(&vec![check_addendum_c(0); 99]);
    closed_bundle(hand.clone().put(check_addendum_a(0))).refused(FIELD, 4, 12, 252);
    let hand = bundle('E').put(check(1, ' ', 0)).puts(&vec![check_addendum_c(0); 98]).put(check_addendum_a(0));
    closed_bundle(hand).refused(PLACE, 103, 0, 336 + 98 * 84);
    // A 33 is no addendum of a 25: it ends the run.
    let hand = bundle('E').put(check(1, ' ', 0)).puts(&vec![check_addendum_c(0); 99]).put(return_addendum_b());
    closed_bundle(hand).refused(PLACE, 104, 0, 336 + 99 * 84);
}

// ---- LINK ----

#[test]
fn the_key_of_a_52_is_judged_and_not_made_up() {
    let with = |position, contents: &str| {
        let view = put(view_data(b""), position, contents);
        closed_bundle(bundle('I').put(check(1, ' ', 0)).put(view_detail('0')).put(view))
    };
    with(3, "123456781").refused(LINK, 6, 2, 420);
    with(12, "20050229").refused(LINK, 6, 3, 420);
    with(20, "ab").refused(LINK, 6, 4, 420); // byte by byte
    with(22, " 1").refused(LINK, 6, 5, 420);
    with(12, "20050229 X").refused(LINK, 6, 3, 420);
    with(12, "20050199").refused(FIELD, 6, 3, 420);
    // FIELD comes before LINK: a coordinate under clipping origin 0.
    let both = put(put(view_data(b""), 3, "123456781"), 86, "0001");
    let hand = bundle('I').put(check(1, ' ', 0)).put(view_detail('0')).put(both);
    closed_bundle(hand).refused(FIELD, 6, 10, 420);
}

#[test]
fn names_under_a_signature() {
    let hand = |view: Vec<u8>| closed_bundle(bundle('F').put(check(1, ' ', 0)).put(view_detail('1')).put(view));
    hand(view_data(b"")).refused(LINK, 6, 7, 420);
    hand(put(view_data(b""), 53, "A")).refused(LINK, 6, 8, 420);
    assert_eq!(hand(put(put(view_data(b""), 53, "A"), 84, "K")).answer()[0], ACCEPTED);
}

#[test]
fn what_the_cash_letter_holds() {
    bundle('N').refused(LINK, 3, 1, 168);
    bundle('n').refused(LINK, 3, 1, 168);
    closed(letter('E')).refused(LINK, 3, 1, 168);
    closed(letter('I').put(credit(' ', 1))).refused(LINK, 4, 1, 256);
    closed_bundle(bundle('E').put(check(1, ' ', 0)).put(view_detail('0'))).refused(LINK, 5, 1, 336);
    letter('e').put(credit(' ', 1)).put(view_detail('0')).refused(LINK, 4, 1, 256);
    closed_bundle(bundle('I').put(check(1, ' ', 0))).refused(LINK, 5, 1, 336);
    bundle('f').put(check(1, ' ', 0)).put(check(1, ' ', 0)).refused(LINK, 5, 1, 336);
    bundle('F').put(check(1, ' ', 0)).put(credit(' ', 1)).refused(LINK, 5, 1, 336);
    assert_eq!(closed_bundle(bundle('I').put(credit(' ', 1))).answer()[0], ACCEPTED);
}

/// Outside a bundle fields 2 and 3 of a 52 are the cash letter's 4 and 5, and field 4 is not compared.
#[test]
fn a_52_directly_in_a_cash_letter() {
    let other = put(put(letter_header('N'), 14, "99999    "), 23, "20051231");
    let hand = |view: Vec<u8>| {
        let letter = Hand::default().put(file_header()).put(other.clone());
        closed(letter.put(credit('2', 7)).put(view_detail('0')).put(view))
    };
    hand(view_data(b"")).refused(LINK, 5, 2, 84 + 84 + 88 + 84);
    hand(put(view_data(b""), 3, "99999    ")).refused(LINK, 5, 3, 340);
    let right = put(view_data(b""), 3, "99999    20051231ZZ");
    assert_eq!(hand(right).written().1, [7, 1, 0, 1, 1, 0, 1, 7]);
}

// ---- TOTAL ----

#[test]
fn sums_too_long_for_a_bundle() {
    let most = |count: usize| bundle('E').puts(&vec![check(9_999_999_999, '1', 0); count]);
    // 101 items: 1,009,999,999,899 has thirteen digits. The 70 is record 105.
    closed_bundle(most(101)).refused(TOTAL, 105, 3, 84 * 104);
    closed_bundle(most(101)).number(104, 2, 1).refused(TOTAL, 105, 3, 84 * 104);
    // 100 of them are 999,999,999,900: 99 cents more fill the field, a dollar passes it.
    let (file, totals) = closed_bundle(most(100).put(check(99, '1', 0))).written();
    assert_eq!(totals[5], 999_999_999_999);
    assert_eq!(file[84 * 104 + 4 + 6..84 * 104 + 4 + 30], *b"999999999999999999999999");
    closed_bundle(most(100).put(check(100, ' ', 0))).refused(TOTAL, 105, 3, 84 * 104);
    // A credit of thirteen digits.
    closed_bundle(bundle('E').put(credit('1', 1_000_000_000_000))).refused(TOTAL, 5, 7, 340);
    closed_bundle(bundle('E').put(credit('9', 1_000_000_000_000))).refused(TOTAL, 5, 3, 340);
    assert_eq!(closed_bundle(bundle('E').put(credit('1', 999_999_999_999))).answer()[0], ACCEPTED);
}

#[test]
fn more_items_than_a_bundle_can_state() {
    // Ten thousand times the same text; record 10,004 is the 70, at 84 x 3 + 10,000 x 84. Credits take 88 bytes each.
    let many = |body: Vec<u8>, count: usize| {
        let mut hand = bundle('E').put(body);
        let row = hand.numbers[30..40].to_vec();
        hand.numbers.extend(row.repeat(count - 1));
        closed_bundle(hand)
    };
    many(check(1, ' ', 0), 10_000).refused(TOTAL, 10_004, 2, 84 * 10_003);
    many(credit(' ', 1), 10_000).refused(TOTAL, 10_004, 6, 84 * 3 + 88 * 10_000);
    many(check(1, ' ', 0), 9_999).refused(ROOM, 84 * (3 + 9_999) + 84 + 89 + 84, 0, 0);
}

#[test]
fn sums_too_long_for_a_letter_and_a_file() {
    let most = 99_999_999_999_999;
    let two = |usage| letter('N').put(credit(usage, most)).put(credit(usage, 1));
    closed(two('9')).refused(TOTAL, 5, 4, 84 * 2 + 88 * 2);
    closed(two(' ')).refused(TOTAL, 5, 9, 84 * 2 + 88 * 2);
    closed(letter('N').put(credit('9', most)).put(credit(' ', most))).written();
    // A hundred letters of 99,999,999,999,999 are 9,999,999,999,999,900; 84 + 88 + 89 = 261 bytes each.
    let letters = |usage, last| {
        let one = [letter_header('N'), credit(usage, most), letter_nines()];
        let all = (0..100).fold(Hand::default().put(file_header()), |hand, _| hand.puts(&one));
        all.put(letter_header('N')).put(credit(usage, last)).put(letter_nines()).put(file_nines())
    };
    letters('9', 100).refused(TOTAL, 305, 5, 84 + 261 * 101);
    letters('1', 100).refused(TOTAL, 305, 8, 84 + 261 * 101);
    assert_eq!(letters('9', 99).written().1[5], 9_999_999_999_999_999);
    assert_eq!(letters('1', 99).written().1[7], 9_999_999_999_999_999);
}

#[test]
fn link_comes_before_total_and_field_before_both() {
    let item = || bundle('I').puts(&vec![check(9_999_999_999, '1', 0); 1]).put(credit('1', 9_999_999_999_999));
    let credit_first = bundle('I').put(credit('1', 9_999_999_999_999)).put(check(1, ' ', 0));
    item().refused(LINK, 5, 1, 336);
    closed(credit_first.clone().put(bundle_nines())).refused(LINK, 6, 1, 424);
    closed(credit_first.put(put(bundle_nines(), 80, "X"))).refused(FIELD, 6, 9, 424);
}

// ---- the sets ----

fn in_ebcdic(hand: &Hand) -> Hand {
    Hand { text: Set::Ebcdic.bytes(&hand.text), numbers: hand.numbers.clone() }
}

#[test]
fn ascii_is_written_from_ebcdic() {
    let hand = closed_bundle(bundle('e').put(put(check(5, '1', 0), 73, "m")));
    assert_eq!(in_ebcdic(&hand).written(), hand.written());
    closed(letter('N')).refused_alike(PLACE, 5, 341);
}

impl Hand {
    /// Another 01 behind the file: the same refusal in both sets.
    fn refused_alike(self, number: u64, record: u64, offset: u64) {
        let hand = self.put(file_header());
        hand.refused(number, record, 0, offset);
        in_ebcdic(&hand).refused(number, record, 0, offset);
    }
}

#[test]
fn the_first_rows_place_tells_the_set() {
    let ascii = closed(letter('N'));
    let ebcdic = in_ebcdic(&ascii);
    // The other set's type in the first place: every value is then read in the wrong set, and 01.2 is the first.
    for (hand, bytes) in [(&ascii, [0xF0, 0xF1]), (&ebcdic, *b"01")] {
        let mut other = hand.clone();
        other.text[..2].copy_from_slice(&bytes);
        other.refused(FIELD, 1, 2, 0);
    }
    // F0 alone, F1 F0, and types of other records tell nothing.
    for bytes in [[0xF0, 0x31], [0xF1, 0xF0], [0x00, 0x00]] {
        let mut other = ascii.clone();
        other.text[..2].copy_from_slice(&bytes);
        other.text[80..82].copy_from_slice(&[0xF0, 0xF1]);
        assert_eq!(other.written(), ascii.written());
    }
}

#[test]
fn binary_parts_are_kept_and_others_translated() {
    // Parts of two bytes each: fields 22, 24 and 25 are characters, 23, 26, 27 and 28 Binary.
    let ascii = |parts: &[u8]| {
        let view = [view_data(b""), parts.to_vec()].concat();
        closed_bundle(bundle('I').put(check(1, ' ', 0)).put(view_detail('0')).sized(view, &[2, 2, 2, 2, 2, 2, 2]))
    };
    let (file, _) = ascii(b"1A1A1A1A1A1A1A").written();
    assert_eq!(file[424 + 139..424 + 153], *b"1A1A1A1A1A1A1A");
    let mut hand = in_ebcdic(&ascii(b"1A1A1A1A1A1A1A"));
    let begin = 80 * 5 + 139;
    for (place, bytes) in [(2, b"\xF1\x00"), (8, b"1A"), (10, b"\x40\x41"), (12, b"\xFF\xF0")] {
        hand.text[begin + place..begin + place + 2].copy_from_slice(bytes);
    }
    let (file, _) = hand.written();
    assert_eq!(file[424 + 139..424 + 153], *b"1A\xF1\x001A1A1A\x40\x41\xFF\xF0");
    // A byte without a counterpart in a part of characters.
    hand.text[begin + 4] = 0x41;
    hand.refused(FIELD, 6, 24, 420);
}

// ---- the draft of a file ----

#[test]
fn the_draft_of_the_shortest_file() {
    let records = [file_header(), letter_header('N'), letter_control(0, 0, 0, 0), file_control(1, 4, 0, 0)];
    let file = plain_file(&records);
    let mut draft = [77; 45];
    let listed = draft_of(&file, &mut draft).listed();
    assert_eq!(listed, [ACCEPTED, 4, 0, 341, 4, 1, 0, 0, 0, 0, 0, 0]);
    let rows = [(1, 4), (10, 88), (90, 172), (99, 261)];
    for (place, (code, begin)) in rows.into_iter().enumerate() {
        assert_eq!(draft[place * 10..place * 10 + 10], [code, begin, 0, 0, 0, 0, 0, 0, 0, 0]);
    }
    assert_eq!(draft[40..], [77; 5]);
    let mut short = [77; 39];
    assert_eq!(draft_of(&file, &mut short).listed()[..4], [ROOM, 4, 0, 0]);
    assert_eq!(short, [77; 39]);
    let mut draft = [77; 40];
    assert_eq!(draft_of(&file[..340], &mut draft).listed()[..4], [3, 4, 0, 257]);
    assert_eq!(draft_of(&[], &mut draft).listed()[..4], [SIZE, 0, 0, 0]);
    assert_eq!(draft, [77; 40]);
}

#[test]
fn the_draft_has_flags_and_sizes() {
    let view = signed_view_data(b"SIG", b"image", b"");
    let records = |micr: &str| {
        vec![
            file_header(),
            letter_header('I'),
            bundle_header(),
            check(8, '1', 1),
            check_addendum_b("LOCATOR"),
            view_detail('1'),
            view.clone(),
            bundle_control(1, 8, micr, 1),
            letter_control(1, 1, 8, 1),
            file_control(1, 10, 1, 8),
        ]
    };
    for (micr, flag) in [(NOT_STATED, 1), ("000000000008", 0)] {
        let file = plain_file(&records(micr));
        let mut draft = vec![0; 100];
        assert_eq!(draft_of(&file, &mut draft).listed()[..4], [ACCEPTED, 10, 0, file.len() as u64]);
        assert_eq!(draft[40..50], [27, 340, 0, 7, 0, 0, 0, 0, 0, 0]);
        assert_eq!(draft[60..70], [52, 336 + 84 + 84 + 4, 0, 0, 3, 0, 0, 0, 5, 0]);
        assert_eq!(draft[70..73], [70, 336 + 84 + 84 + 151 + 4, flag]);
        let mut out = vec![0; file.len()];
        assert_eq!(write(&file, &draft, &mut out).listed()[0], ACCEPTED);
        assert_eq!(out, file);
    }
}

// ---- what an earlier record must not decide ----

/// 184,468 times 99,999,999,999,999 is 18,446,799,999,999,815,532; 64 bits would leave 55,926,290,263,916 of it, which fourteen digits state.
#[test]
fn a_sum_past_64_bits_is_too_long() {
    for (usage, field) in [('9', 4), (' ', 9)] {
        let mut hand = letter('N').put(credit(usage, 99_999_999_999_999));
        let row = hand.numbers[20..30].to_vec();
        hand.numbers.extend(row.repeat(184_467));
        closed(hand).refused(TOTAL, 184_471, field, 84 * 2 + 88 * 184_468);
    }
}

/// A bundle of checks, and one of a 61 and a return: the kind is the bundle's own.
#[test]
fn a_bundle_behind_another_has_a_kind_of_its_own() {
    let first = bundle('E').put(check(1, ' ', 0)).put(bundle_nines());
    let second = first.put(bundle_header()).put(credit('1', 2)).put(returned(3, 0)).put(return_addendum_b());
    assert_eq!(closed_bundle(second.clone()).written().1, [12, 1, 2, 3, 0, 4, 1, 2]);
    second.put(check(1, ' ', 0)).refused(PLACE, 10, 0, 84 * 8 + 88);
}

/// The first record's text stands behind the others', and it is the first row that tells the set.
#[test]
fn the_first_row_may_begin_anywhere_in_the_text() {
    let hand = closed(letter('N'));
    for (set, before) in [(Set::Ascii, b"\xF0\xF1"), (Set::Ebcdic, b"01")] {
        let mut moved = Hand { text: set.bytes(&hand.text), numbers: hand.numbers.clone() };
        moved.text[..2].copy_from_slice(before);
        moved.text.extend(set.bytes(&file_header()));
        assert_eq!(moved.number(0, 1, 325).written(), hand.written());
    }
}
