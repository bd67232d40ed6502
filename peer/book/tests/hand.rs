//! Cases worked out by hand from documents 01 and 02, readings 52 to 59 and the layout of the book. Each is put to the book over a table and to the
//! second opinion, and what they leave of book, list and row table is looked at number by number. A case of owner 1 is put for owner 2 as well, on the
//! table with the two owners exchanged.
//! With its length a record takes 84 bytes; a 61 takes 88, a 90 takes 89, a 52 without an image 143.

use peer_book::paper::Paper;
use peer_book::{opinion, table};
use peer_reader::copy::to_ebcdic;
use peer_reader::plain::*;

const SIZE: u64 = 1;
const ROOM: u64 = 2;
const CUT: u64 = 3;
const TOTAL: u64 = 9;
const OPEN: u64 = 10;
const AFTER: u64 = 11;
const DUPLICATE: u64 = 12;
const FULL: u64 = 13;
const NOENTRY: u64 = 15;
const RANGE: u64 = 16;
const BOOK: u64 = 20;

const MOST: u64 = u64::MAX;

/// The bound of a net position, in cents.
const BOUND: i64 = 1_000_000_000_000_000_000;

/// A net position as a table and an answer have it.
fn held(net: i64) -> u64 {
    net as u64
}

/// What a row table holds before a call.
const BEFORE: u64 = 0x5A;

// ---- the files ----

/// Two letters, 17 records, 1,572 bytes.
/// The first: a check of 1.50 with a view and a credit of 70.00 in a bundle, and behind it a debit of 0.30 (61, usage 9) directly in the letter:
/// 1 bundle, 2 debit items, 1 credit item, 1 view, 180 debit cents, 7,000 credit cents.
/// The second: a credit of 5.00 with a view and one of 0.40 directly in the letter: 0, 0, 2, 1, 0, 540.
fn two_letters() -> Vec<u8> {
    file(&[
        file_header(),
        letter_header('I'),
        bundle_header(),
        check(150, ' ', 0),
        view_detail('0'),
        view_data(b""),
        credit('1', 7_000),
        bundle_sums((1, 150), NOT_STATED, 1, (1, 7_000)),
        credit('9', 30),
        letter_sums(1, (2, 180), 1, (1, 7_000)),
        letter_header('N'),
        credit(' ', 500),
        view_detail('0'),
        view_data(b""),
        credit('8', 40),
        letter_sums(0, (0, 0), 1, (2, 540)),
        file_sums(2, 17, 5, 180, 7_540),
    ])
}

/// What x9_read answers to it: records, letters, bundles, items, views, debit cents, credits, credit cents behind the first four.
const READ_TWO: [u64; 12] = [0, 17, 0, 1_572, 17, 2, 1, 5, 2, 180, 3, 7_540];

/// Its rows: type, offset, length, cash letter, bundle, item, amount.
#[rustfmt::skip]
const ROWS_OF_TWO: [u64; 119] = [
     1,     0,  80, 0, 0, 0,     0,
    10,    84,  80, 1, 0, 0,     0,
    20,   168,  80, 1, 1, 0,     0,
    25,   252,  80, 1, 1, 1,   150,
    50,   336,  80, 1, 1, 1,     0,
    52,   420, 139, 1, 1, 1,     0,
    61,   563,  84, 1, 1, 2, 7_000,
    70,   651,  80, 1, 1, 0,   150,
    61,   735,  84, 1, 0, 0,    30,
    90,   823,  85, 1, 0, 0,   180,
    10,   912,  80, 2, 0, 0,     0,
    61,   996,  84, 2, 0, 0,   500,
    50, 1_084,  80, 2, 0, 0,     0,
    52, 1_168, 139, 2, 0, 0,     0,
    61, 1_311,  84, 2, 0, 0,    40,
    90, 1_399,  85, 2, 0, 0,     0,
    99, 1_488,  80, 0, 0, 0,   180,
];

/// One letter with nothing in it, 4 records, 341 bytes (document 01's whole case).
fn one_letter() -> Vec<u8> {
    file(&[file_header(), letter_header('N'), letter_control(0, 0, 0, 0), file_control(1, 4, 0, 0)])
}

const READ_ONE: [u64; 12] = [0, 4, 0, 341, 4, 1, 0, 0, 0, 0, 0, 0];

// ---- tables ----

/// A book of three rows in which the two letters were entered under the number 7. Its last two numbers are behind the last row.
#[rustfmt::skip]
const TWO_ENTERED: [u64; 46] = [
    2, 2, 1, 2, 3, 2, 180, 7_540, 7_360, 0, 0, 0, 0, 0, 0, 0, 0,
    1, 1, 7, 1, 2, 1, 1, 180, 7_000,
    1, 2, 7, 0, 0, 2, 1, 0, 540,
    0, 0, 0, 0, 0, 0, 0, 0, 0,
    0, 0,
];

/// A sound book that no calls have made: four rows, three claimed, all owner 1's; entry numbers 5, 9 and 5; file numbers 30, 31, 31; the last number
/// is 9. The figures add up to 6, 60, 600, 3, 2^64 - 1, 2^64 - 11, so that the net position is -10, or 2^64 - 10 in two's complement. Owner 2's last
/// number, the fourth row and the number behind it are anything.
#[rustfmt::skip]
const STRANGE: [u64; 54] = [
    3, 9, 6, 60, 600, 3, MOST, MOST - 10, MOST - 9, 92, 0, 0, 0, 0, 0, 0, 0,
    1, 5, 30, 1, 10, 100, 1, MOST - 30, MOST - 40,
    1, 9, 31, 2, 20, 200, 1, 10, 10,
    1, 5, 31, 3, 30, 300, 1, 20, 20,
    8, 7, 32, 4, 40, 400, 1, 1, 1,
    77,
];

/// Both owners' books in one table of five rows: owner 1 entered the two letters under 7 around a letter without anything that owner 2 entered under
/// 7 too; then a row of neither, with figures, which is a gap; the fifth row is not claimed.
#[rustfmt::skip]
const BOTH: [u64; 62] = [
    4, 2, 1, 2, 3, 2, 180, 7_540, 7_360, 1, 0, 0, 0, 0, 0, 0, 0,
    1, 1, 7, 1, 2, 1, 1, 180, 7_000,
    2, 1, 7, 0, 0, 0, 0, 0, 0,
    1, 2, 7, 0, 0, 2, 1, 0, 540,
    3, 3, 8, 9, 9, 9, 9, 9, 9,
    0, 0, 0, 0, 0, 0, 0, 0, 0,
];

/// A table with other numbers at some places.
fn with<const LENGTH: usize>(table: [u64; LENGTH], places: &[(usize, u64)]) -> Vec<u64> {
    let mut changed = table.to_vec();
    places.iter().for_each(|(place, number)| changed[*place] = *number);
    changed
}

/// Zeros behind a number.
fn alone<const LENGTH: usize>(number: u64) -> [u64; LENGTH] {
    let mut answer = [0; LENGTH];
    answer[0] = number;
    answer
}

/// The table with the owners exchanged: their parts of the head, and their rows. A table without a whole head is left as it is.
fn exchanged(book: &[u64]) -> Vec<u64> {
    let mut turned = book.to_vec();
    if book.len() >= 17 {
        turned[1..17].rotate_left(8);
        for row in turned[17..].chunks_exact_mut(9) {
            row[0] = [0, 2, 1].get(row[0] as usize).copied().unwrap_or(row[0]);
        }
    }
    turned
}

/// A list of file numbers taken beside a book: those of its claimed rows with their owners, each once, and nine free places.
fn list_beside(book: &[u64]) -> Vec<u64> {
    let mut places: Vec<[u64; 2]> = Vec::new();
    let claimed = book.first().copied().unwrap_or(0).min(9) as usize;
    for row in book.get(17..).unwrap_or_default().chunks_exact(9).take(claimed) {
        let place = [row[0], row[2]];
        if [1, 2].contains(&row[0]) && !places.contains(&place) {
            places.push(place);
        }
    }
    [vec![places.len() as u64], places.concat(), vec![0; 18]].concat()
}

/// The list with one more place claimed, if there is one.
fn with_place(taken: &[u64], owner: u64, file_number: u64) -> Vec<u64> {
    let mut longer = taken.to_vec();
    let start = 1 + 2 * taken[0] as usize;
    (longer[0], longer[start], longer[start + 1]) = (taken[0] + 1, owner, file_number);
    longer
}

// ---- both sides ----

/// Enters a file for an owner on both sides with a row table of this length, beside a list: the answer, the row table and the book that both give.
/// The list has one place more where the file was entered, and is else as it was.
#[track_caller]
fn entering_beside(
    taken: &[u64],
    owner: u64,
    file: &[u8],
    number: u64,
    rows: usize,
    book: &[u64],
) -> ([u64; 13], Vec<u64>, Vec<u64>) {
    let paper = Paper::new(file.to_vec());
    let (mut rows_left, mut book_left, mut list_left) = (vec![BEFORE; rows], book.to_vec(), taken.to_vec());
    let answer = table::enter(&paper, number, owner, &mut rows_left, &mut book_left, &mut list_left);
    let (mut rows_other, mut book_other, mut list_other) = (vec![BEFORE; rows], book.to_vec(), taken.to_vec());
    let second = opinion::enter(&paper, number, owner, &mut rows_other, &mut book_other, &mut list_other);
    assert_eq!(second, answer, "the second opinion");
    assert_eq!((rows_other, book_other), (rows_left.clone(), book_left.clone()), "the second opinion");
    let list = if answer[0] == 0 { with_place(taken, owner, number) } else { taken.to_vec() };
    assert_eq!((&list_left, &list_other), (&list, &list), "the list");
    (answer, rows_left, book_left)
}

/// The same beside the list that the book's own rows make.
#[track_caller]
fn entering_for(owner: u64, file: &[u8], number: u64, rows: usize, book: &[u64]) -> ([u64; 13], Vec<u64>, Vec<u64>) {
    entering_beside(&list_beside(book), owner, file, number, rows, book)
}

/// Withdraws on both sides: the number, and the book that is left.
#[track_caller]
fn withdrawing_beside(taken: &[u64], owner: u64, entry_number: u64, book: &[u64]) -> (u64, Vec<u64>) {
    let (mut left, mut other) = (book.to_vec(), book.to_vec());
    let number = table::withdraw(&mut left, taken, owner, entry_number);
    assert_eq!(opinion::withdraw(&mut other, taken, owner, entry_number), number, "the second opinion");
    assert_eq!(other, left, "the second opinion");
    (number, left)
}

/// Withdraws for owner 1, and for owner 2 with the owners exchanged, beside the list that the book's own rows make.
#[track_caller]
fn withdrawing(entry_number: u64, book: &[u64]) -> (u64, Vec<u64>) {
    let (number, left) = withdrawing_beside(&list_beside(book), 1, entry_number, book);
    let turned = exchanged(book);
    let as_two = withdrawing_beside(&list_beside(&turned), 2, entry_number, &turned);
    assert_eq!(as_two, (number, exchanged(&left)), "owner 2");
    (number, left)
}

/// A withdrawal that is answered with 0 and leaves this book.
#[track_caller]
fn withdraws(entry_number: u64, book: &[u64], left: &[u64]) {
    assert_eq!(withdrawing(entry_number, book), (0, left.to_vec()));
}

/// A withdrawal that is refused, and changes nothing.
#[track_caller]
fn does_not_withdraw(entry_number: u64, book: &[u64], refusal: u64) {
    assert_eq!(withdrawing(entry_number, book), (refusal, book.to_vec()));
}

/// A tidy-up on both sides, beside a list: the number, and the book that is left.
#[track_caller]
fn tidying_beside(taken: &[u64], book: &[u64]) -> (u64, Vec<u64>) {
    let (mut left, mut other) = (book.to_vec(), book.to_vec());
    let number = table::tidy(&mut left, taken);
    assert_eq!(opinion::tidy(&mut other, taken), number, "the second opinion");
    assert_eq!(other, left, "the second opinion");
    (number, left)
}

/// A tidy-up that leaves this book, and the same once more.
#[track_caller]
fn tidies(book: &[u64], left: &[u64]) {
    assert_eq!(tidying_beside(&list_beside(book), book), (0, left.to_vec()));
    assert_eq!(tidying_beside(&[], left), (0, left.to_vec()), "once more");
}

/// The same for owner 1, and for owner 2 with the owners exchanged.
#[track_caller]
fn entering(file: &[u8], number: u64, rows: usize, book: &[u64]) -> ([u64; 13], Vec<u64>, Vec<u64>) {
    let (answer, rows_left, book_left) = entering_for(1, file, number, rows, book);
    let as_two = entering_for(2, file, number, rows, &exchanged(book));
    assert_eq!(as_two, (answer, rows_left.clone(), exchanged(&book_left)), "owner 2");
    (answer, rows_left, book_left)
}

/// Entering is refused with this answer, and book and row table are as they were.
#[track_caller]
fn refuses_with(file: &[u8], number: u64, rows: usize, book: &[u64], refusal: [u64; 13]) {
    let (answer, rows_left, book_left) = entering(file, number, rows, book);
    assert_eq!(answer, refusal);
    assert_eq!(rows_left, vec![BEFORE; rows], "the row table");
    assert_eq!(book_left, book, "the book");
}

/// The same for the book's own refusals: 0 in all behind the number.
#[track_caller]
fn refuses(file: &[u8], number: u64, rows: usize, book: &[u64], refusal: u64) {
    refuses_with(file, number, rows, book, alone(refusal));
}

/// The two letters are entered under this number: the first entry number, and the book as it is left.
#[track_caller]
fn enters_two(number: u64, book: &[u64], first: u64, left: &[u64]) {
    let (answer, rows, book_left) = entering(&two_letters(), number, 119, book);
    assert_eq!(answer[..12], READ_TWO);
    assert_eq!(answer[12], first);
    assert_eq!(rows, ROWS_OF_TWO);
    assert_eq!(book_left, left);
}

#[track_caller]
fn finds_for(owner: u64, book: &[u64], number: u64, found: [u64; 9]) {
    assert_eq!(table::find(book, owner, number), found);
    assert_eq!(opinion::find(book, owner, number), found, "the second opinion");
}

#[track_caller]
fn finds(book: &[u64], number: u64, found: [u64; 9]) {
    finds_for(1, book, number, found);
    finds_for(2, &exchanged(book), number, found);
}

#[track_caller]
fn finds_none(book: &[u64], number: u64) {
    finds(book, number, alone(NOENTRY));
}

#[track_caller]
fn totals_for(owner: u64, book: &[u64], totals: [u64; 9]) {
    assert_eq!(table::totals(book, owner), totals);
    assert_eq!(opinion::totals(book, owner), totals, "the second opinion");
}

#[track_caller]
fn totals(book: &[u64], totals: [u64; 9]) {
    totals_for(1, book, totals);
    totals_for(2, &exchanged(book), totals);
}

/// All five calls refuse with BOOK, whatever they are asked, and whoever asks.
#[track_caller]
fn no_book(book: &[u64]) {
    for number in [0, 1, 5, 7, MOST] {
        finds(book, number, alone(BOOK));
        does_not_withdraw(number, book, BOOK);
        refuses(&one_letter(), number, 28, book, BOOK);
    }
    assert_eq!(tidying_beside(&list_beside(book), book), (BOOK, book.to_vec()));
    totals(book, alone(BOOK));
    refuses(&two_letters(), 7, 119, book, BOOK);
    refuses(&[], 8, 0, book, BOOK);
    for owner in [0, 2, 3, MOST] {
        finds_for(owner, book, 1, alone(BOOK));
        totals_for(owner, book, alone(BOOK));
        assert_eq!(withdrawing_beside(&[], owner, 1, book), (BOOK, book.to_vec()));
        assert_eq!(entering_for(owner, &one_letter(), 8, 28, book).0, alone(BOOK));
    }
}

/// No call refuses with BOOK.
#[track_caller]
fn a_book(book: &[u64]) {
    assert_ne!(table::totals(book, 1)[0], BOOK);
    assert_ne!(table::find(book, 1, 1)[0], BOOK);
    assert_ne!(withdrawing(1, book).0, BOOK);
    assert_eq!(tidying_beside(&[], book).0, 0);
    assert_ne!(entering(&one_letter(), 4_000, 28, book).0[0], BOOK);
    totals(book, opinion::totals(book, 1));
    finds(book, 1, opinion::find(book, 1, 1));
}

// ---- a book from its beginning ----

#[test]
fn a_table_of_zeros_is_an_empty_book() {
    let empty = [0; 46];
    totals(&empty, [0, 0, 0, 0, 0, 0, 0, 0, 0]);
    [0, 1, 2, MOST].into_iter().for_each(|number| finds_none(&empty, number));
}

#[test]
fn two_letters_are_entered() {
    enters_two(7, &[0; 46], 1, &TWO_ENTERED);
    finds(&TWO_ENTERED, 1, [0, 1, 7, 1, 2, 1, 1, 180, 7_000]);
    finds(&TWO_ENTERED, 2, [0, 2, 7, 0, 0, 2, 1, 0, 540]);
    [0, 3, 7, MOST, 1 << 32 | 1].into_iter().for_each(|number| finds_none(&TWO_ENTERED, number));
    totals(&TWO_ENTERED, [0, 2, 1, 2, 3, 2, 180, 7_540, 7_360]);
}

#[test]
fn an_ebcdic_file_is_entered_as_its_copy() {
    let (answer, rows, book) = entering(&to_ebcdic(&two_letters()), 7, 119, &[0; 46]);
    assert_eq!((&answer[..12], answer[12]), (&READ_TWO[..], 1));
    assert_eq!(rows, ROWS_OF_TWO);
    assert_eq!(book, TWO_ENTERED);
}

/// A day: two letters, one, a number taken, no row left, and what was entered is as it was.
#[test]
fn a_day() {
    let mut book = TWO_ENTERED.to_vec();
    // One free row, and two letters.
    refuses(&two_letters(), 8, 119, &book, FULL);
    refuses(&two_letters(), 7, 119, &book, DUPLICATE);
    refuses(&one_letter(), 7, 28, &book, DUPLICATE);
    // The number that was refused as FULL is not taken.
    let (answer, rows, left) = entering(&one_letter(), 8, 30, &book);
    assert_eq!((&answer[..12], answer[12]), (&READ_ONE[..], 3));
    assert_eq!(rows[28..], [BEFORE; 2]);
    book = with(TWO_ENTERED, &[(0, 3), (1, 3), (35, 1), (36, 3), (37, 8)]);
    assert_eq!(left, book);
    finds(&book, 1, [0, 1, 7, 1, 2, 1, 1, 180, 7_000]);
    finds(&book, 3, [0, 3, 8, 0, 0, 0, 0, 0, 0]);
    totals(&book, [0, 3, 1, 2, 3, 2, 180, 7_540, 7_360]);
    refuses(&one_letter(), 9, 28, &book, FULL);
    refuses(&one_letter(), 8, 28, &book, DUPLICATE);
    finds_none(&book, 4);
}

#[test]
fn any_number_is_a_file_number() {
    for number in [0, 1, 1 << 32, MOST] {
        let (answer, _, book) = entering(&one_letter(), number, 28, &[0; 44]);
        assert_eq!((answer[0], answer[12]), (0, 1));
        assert_eq!(book[17..26], [1, 1, number, 0, 0, 0, 0, 0, 0]);
        refuses(&one_letter(), number, 28, &book, DUPLICATE);
        assert_eq!(entering(&one_letter(), number ^ 1 << 32, 28, &book).0[12], 2);
    }
}

// ---- the reader's refusals ----

#[test]
fn the_readers_refusals_keep_record_field_and_offset() {
    let book = TWO_ENTERED;
    let answer = |number, record, field, offset| {
        let mut answer = [0; 13];
        answer[..4].copy_from_slice(&[number, record, field, offset]);
        answer
    };
    refuses_with(&[], 8, 28, &book, answer(SIZE, 0, 0, 0));
    refuses_with(&[0, 0, 0, 80], 8, 28, &book, answer(CUT, 1, 0, 0));
    // A row table of 118 numbers has 16 rows, and 17 are needed.
    refuses_with(&two_letters(), 8, 118, &book, answer(ROOM, 17, 0, 0));
    refuses_with(&one_letter(), 8, 27, &book, answer(ROOM, 4, 0, 0));
    refuses_with(&one_letter(), 8, 0, &book, answer(ROOM, 4, 0, 0));
    // The 90, record 4 at 84 + 84 + 88: field 4 is to state 180.
    let cents = file(&[
        file_header(),
        letter_header('N'),
        credit('9', 180),
        letter_sums(0, (1, 179), 0, (0, 0)),
        file_sums(1, 5, 1, 180, 0),
    ]);
    refuses_with(&cents, 8, 28, &book, answer(TOTAL, 4, 4, 256));
    refuses_with(&one_letter()[..257], 8, 28, &book, answer(OPEN, 4, 0, 257));
    refuses_with(&[one_letter(), vec![0]].concat(), 8, 28, &book, answer(AFTER, 5, 0, 341));
}

// ---- the order ----

#[test]
fn book_comes_before_the_reader_and_the_reader_before_the_rest() {
    let claims = with(TWO_ENTERED, &[(0, 4)]);
    refuses(&[], 7, 0, &claims, BOOK);
    refuses(&two_letters(), 7, 0, &claims, BOOK);
    refuses(&two_letters(), 7, 119, &claims, BOOK);
    // 7 is taken, and there is no room for two letters: the reader's own first.
    assert_eq!(entering(&[], 7, 0, &TWO_ENTERED).0, alone(SIZE));
    assert_eq!(entering(&two_letters(), 7, 118, &TWO_ENTERED).0[..2], [ROOM, 17]);
    assert_eq!(entering(&two_letters(), 8, 118, &TWO_ENTERED).0[..2], [ROOM, 17]);
    refuses(&two_letters(), 7, 119, &TWO_ENTERED, DUPLICATE);
    refuses(&two_letters(), 8, 119, &TWO_ENTERED, FULL);
    // DUPLICATE before FULL for the last number and for a running total too.
    refuses(&one_letter(), 7, 28, &with(TWO_ENTERED, &[(1, MOST)]), DUPLICATE);
    refuses(&two_letters(), 31, 119, &STRANGE, DUPLICATE);
}

// ---- BOOK ----

#[test]
fn more_rows_claimed_than_there_are() {
    // Three whole rows stand in 46 numbers, and 44 would do; 43 have two.
    a_book(&TWO_ENTERED[..44]);
    a_book(&TWO_ENTERED[..43]);
    a_book(&TWO_ENTERED[..35]);
    no_book(&TWO_ENTERED[..34]);
    no_book(&TWO_ENTERED[..17]);
    let zeros = [0u64; 46];
    [1, 2, 3].into_iter().for_each(|claimed| a_book(&with(zeros, &[(0, claimed)])));
    [4, 5, MOST, 1 << 63, 1 << 32, 1 << 32 | 2].into_iter().for_each(|claimed| no_book(&with(zeros, &[(0, claimed)])));
    // 9 * 0x8E38E38E38E38E39 = 5 * 2^64 + 1: nine times it, and seventeen, are eighteen but for 2^64.
    no_book(&with(zeros, &[(0, 0x8E38_E38E_38E3_8E39)]));
    // 9 * 0x1C71C71C71C71C72 = 2^64 + 2.
    no_book(&with(zeros, &[(0, 0x1C71_C71C_71C7_1C72)]));
    no_book(&with(TWO_ENTERED, &[(0, 1 << 32 | 2)]));
    no_book(&with(TWO_ENTERED, &[(0, 1 << 63 | 2)]));
}

#[test]
fn a_running_total_that_is_not_the_sum() {
    a_book(&STRANGE);
    for place in 2..8 {
        let (entered, strange) = (TWO_ENTERED[place], STRANGE[place]);
        for number in [entered + 1, entered.wrapping_sub(1), entered ^ 1 << 32, MOST] {
            no_book(&with(TWO_ENTERED, &[(place, number)]));
        }
        no_book(&with(STRANGE, &[(place, strange.wrapping_add(1))]));
        no_book(&with(STRANGE, &[(place, strange.wrapping_sub(1))]));
        no_book(&with([0; 46], &[(place, 1)]));
    }
    // Fewer rows claimed: the totals are more than their sums. A row more: the third row of zeros adds nothing.
    no_book(&with(TWO_ENTERED, &[(0, 1)]));
    no_book(&with(TWO_ENTERED, &[(0, 0)]));
    a_book(&with(TWO_ENTERED, &[(0, 3)]));
    // The fourth row is of neither owner; were it one's, its figures would count.
    a_book(&with(STRANGE, &[(0, 4)]));
    no_book(&with(STRANGE, &[(0, 4), (44, 1)]));
    no_book(&with(STRANGE, &[(0, 4), (44, 2)]));
}

#[test]
fn a_figure_of_a_row_that_is_another() {
    for row in 0..2 {
        for column in 3..9 {
            let place = 17 + 9 * row + column;
            no_book(&with(TWO_ENTERED, &[(place, TWO_ENTERED[place] + 1)]));
        }
        for column in 1..3 {
            a_book(&with(TWO_ENTERED, &[(17 + 9 * row + column, 4_711)]));
        }
    }
    // A row that is not claimed, and what is behind the last row.
    (35..46).for_each(|place| a_book(&with(TWO_ENTERED, &[(place, 4_711)])));
}

#[test]
fn a_sum_past_64_bits_is_no_running_total() {
    // The debit cents of STRANGE are 2^64 - 1: a cent more in any row, and 64 bits leave 0, or what is stated stays 2^64 - 1.
    for place in [17 + 7, 26 + 7, 35 + 7] {
        let more = with(STRANGE, &[(place, STRANGE[place] + 1)]);
        no_book(&more);
        let mut wrapped = more;
        wrapped[6] = 0;
        no_book(&wrapped);
    }
    // Two rows of 2^63 are 2^64; and 2^63 and 2^63 - 1 are a running total. Cents stand in both columns, so that the net position is 0.
    for places in [vec![3], vec![4], vec![5], vec![6], vec![7, 8]] {
        let half = 1 << 63;
        let mut two = with([0; 35], &[(0, 2), (17, 1), (26, 1)]);
        places.iter().for_each(|place| (two[17 + place], two[26 + place]) = (half, half));
        no_book(&two);
        let mut sums = [0, 2, 0, 0, 0, 0, 0, 0, 0];
        places.iter().for_each(|place| (two[place - 1], two[26 + place], sums[place - 1]) = (MOST, half - 1, MOST));
        a_book(&two);
        totals(&two, sums);
    }
}

// ---- what is not looked at ----

#[test]
fn the_last_numbers_are_not_judged() {
    for place in [1, 9] {
        [1, 4_711, MOST].into_iter().for_each(|number| a_book(&with(TWO_ENTERED, &[(place, number)])));
    }
    let odd = with(TWO_ENTERED, &[(9, 5)]);
    finds(&odd, 1, [0, 1, 7, 1, 2, 1, 1, 180, 7_000]);
    totals(&odd, [0, 2, 1, 2, 3, 2, 180, 7_540, 7_360]);
    refuses(&one_letter(), 7, 28, &odd, DUPLICATE);
    // Entering leaves the other owner's as it is.
    let (answer, _, left) = entering(&one_letter(), 9, 28, &odd);
    assert_eq!(answer[12], 3);
    let places = [(9, 5), (0, 3), (1, 3), (35, 1), (36, 3), (37, 9)];
    assert_eq!(left, with(TWO_ENTERED, &places));
}

#[test]
fn rows_behind_those_claimed_are_not_there() {
    // A third row as if it were an entry: number 3 is not found, file number 9 not taken, and entering writes over all of it.
    let row = [(35, 1), (36, 3), (37, 9), (38, 1), (39, 1), (40, 1), (41, 1), (42, 1), (43, 1), (44, 50), (45, 51)];
    let book = with(TWO_ENTERED, &row);
    finds_none(&book, 3);
    totals(&book, [0, 2, 1, 2, 3, 2, 180, 7_540, 7_360]);
    let (answer, _, left) = entering(&one_letter(), 9, 28, &book);
    assert_eq!(answer[12], 3);
    let entered = [(0, 3), (1, 3), (35, 1), (36, 3), (37, 9), (44, 50), (45, 51)];
    assert_eq!(left, with(TWO_ENTERED, &entered));
    // In an empty book nothing is found in rows of zeros, and the file number 0 is not taken.
    finds_none(&[0; 44], 0);
    assert_eq!(entering(&one_letter(), 0, 28, &[0; 44]).0[12], 1);
}

// ---- short tables ----

#[test]
fn a_table_without_a_whole_row_is_a_full_book() {
    for length in 0..26 {
        let zeros = vec![0; length];
        totals(&zeros, [0; 9]);
        [0, 1, MOST].into_iter().for_each(|number| finds_none(&zeros, number));
        refuses(&one_letter(), 0, 28, &zeros, FULL);
        refuses(&two_letters(), 1, 119, &zeros, FULL);
        // The reader comes first.
        assert_eq!(entering(&[], 0, 28, &zeros).0, alone(SIZE));
        assert_eq!(entering(&one_letter(), 0, 27, &zeros).0[..2], [ROOM, 4]);
    }
    assert_eq!(entering(&one_letter(), 0, 28, &[0; 26]).0[12], 1);
    refuses(&two_letters(), 0, 119, &[0; 34], FULL);
    assert_eq!(entering(&two_letters(), 0, 119, &[0; 35]).0[12], 1);
}

/// A number that is there is judged, one that is lacking counts as 0: a table that ends with it, and one number shorter.
#[test]
fn numbers_that_a_short_table_lacks_count_as_0() {
    for place in [0].into_iter().chain(2..9).chain(10..17) {
        for length in place + 1..26 {
            let mut book = vec![0; length];
            book[place] = 1;
            no_book(&book);
        }
        a_book(&vec![0; place]);
    }
    for place in [1, 9].into_iter().chain(17..26) {
        for length in place + 1..30 {
            let mut book = vec![0; length];
            book[place] = MOST;
            a_book(&book);
        }
    }
    // A claim of one with a whole row behind the head, and not.
    a_book(&with([0; 26], &[(0, 1)]));
    no_book(&with([0; 25], &[(0, 1)]));
    finds(&with([0; 26], &[(0, 1), (17, 1), (18, 6)]), 6, [0, 6, 0, 0, 0, 0, 0, 0, 0]);
}

// ---- finding ----

#[test]
fn the_first_row_with_the_number_is_found() {
    finds(&STRANGE, 5, [0, 5, 30, 1, 10, 100, 1, MOST - 30, MOST - 40]);
    finds(&STRANGE, 9, [0, 9, 31, 2, 20, 200, 1, 10, 10]);
    // 7 stands in the row that is not claimed.
    [0, 1, 6, 7, 10, 30, 1 << 32 | 5].into_iter().for_each(|number| finds_none(&STRANGE, number));
    totals(&STRANGE, [0, 3, 6, 60, 600, 3, MOST, MOST - 10, MOST - 9]);
    // With other numbers in the rows: 0 and 2^64 - 1 are numbers like any other.
    let others = with(STRANGE, &[(18, 8), (27, 0), (36, MOST)]);
    finds(&others, 0, [0, 0, 31, 2, 20, 200, 1, 10, 10]);
    finds(&others, MOST, [0, MOST, 31, 3, 30, 300, 1, 20, 20]);
    finds_none(&others, 5);
    let doubled = with(STRANGE, &[(18, 0), (27, 5), (36, 5)]);
    finds(&doubled, 5, [0, 5, 31, 2, 20, 200, 1, 10, 10]);
    finds_none(&doubled, 9);
}

// ---- DUPLICATE ----

#[test]
fn a_file_number_that_the_list_has_is_taken() {
    // The list beside it has 30 and 31; 32 stands in the row behind those claimed.
    for number in [30, 31] {
        refuses(&one_letter(), number, 28, &STRANGE, DUPLICATE);
    }
    // One letter without anything in it enters, though the debit cents are at the brim.
    for number in [32, 5, 9, 0, 1 << 32 | 30, MOST] {
        assert_eq!(entering(&one_letter(), number, 28, &STRANGE).0[12], 10);
    }
    let last = with(STRANGE, &[(37, 99)]);
    refuses(&one_letter(), 99, 28, &last, DUPLICATE);
    refuses(&one_letter(), 31, 28, &last, DUPLICATE);
    refuses(&one_letter(), MOST, 28, &with(STRANGE, &[(19, MOST)]), DUPLICATE);
    refuses(&one_letter(), 0, 28, &with(STRANGE, &[(28, 0)]), DUPLICATE);
}

// ---- FULL ----

#[test]
fn more_letters_than_free_rows() {
    // 46 numbers have three rows, 35 two, 34 one.
    refuses(&two_letters(), 7, 119, &[0; 34], FULL);
    enters_two(7, &[0; 35], 1, &TWO_ENTERED[..35]);
    refuses(&two_letters(), 8, 119, &TWO_ENTERED, FULL);
    refuses(&one_letter(), 8, 28, &TWO_ENTERED[..43], FULL);
    assert_eq!(entering(&one_letter(), 8, 28, &TWO_ENTERED[..44]).0[12], 3);
}

/// How far apart debit and credit cents stand in a book at the brim.
const APART: u64 = 100_000;

/// A book of one row with a figure, and room for two more. Of cents, the others stand a little below, so that the net position is small.
fn brimming(figure: usize, total: u64) -> [u64; 44] {
    let mut book = [0; 44];
    (book[0], book[1], book[2 + figure]) = (1, 1, total);
    (book[17], book[18], book[19], book[20 + figure]) = (1, 1, 6, total);
    match figure {
        4 => (book[7], book[25], book[8]) = (total - APART, total - APART, held(-100_000)),
        5 => (book[6], book[24], book[8]) = (total - APART, total - APART, APART),
        _ => {}
    }
    book
}

#[test]
fn a_running_total_beyond_64_bits() {
    // What the two letters come to: 1 bundle, 2 debit items, 3 credit items, 2 views, 180 and 7,540 cents.
    for (figure, sum) in [1, 2, 3, 2, 180, 7_540].into_iter().enumerate() {
        refuses(&two_letters(), 7, 119, &brimming(figure, MOST), FULL);
        refuses(&two_letters(), 7, 119, &brimming(figure, MOST - sum + 1), FULL);
        let book = brimming(figure, MOST - sum);
        let (answer, _, left) = entering(&two_letters(), 7, 119, &book);
        assert_eq!((answer[0], answer[12]), (0, 2));
        let mut head = [3, 3, 1, 2, 3, 2, 180, 7_540, 7_360, 0, 0, 0, 0, 0, 0, 0, 0];
        head[2 + figure] = MOST;
        match figure {
            4 => (head[7], head[8]) = (MOST - 180 - APART + 7_540, held(-100_000 + 7_360)),
            5 => (head[6], head[8]) = (MOST - 7_540 - APART + 180, APART + 7_360),
            _ => {}
        }
        assert_eq!(left[..17], head);
        assert_eq!(left[17..26], book[17..26]);
        assert_eq!(left[26..], [1, 2, 7, 1, 2, 1, 1, 180, 7_000, 1, 3, 7, 0, 0, 2, 1, 0, 540]);
        // Nothing of the kind enters now, and a letter with nothing in it does not for want of rows alone.
        refuses(&one_letter(), 8, 28, &left, FULL);
    }
    // The first letter alone would fit: 7,000 of 7,540 credit cents, 1 of 3 credits, 1 of 2 views.
    refuses(&two_letters(), 7, 119, &brimming(5, MOST - 7_000), FULL);
    refuses(&two_letters(), 7, 119, &brimming(2, MOST - 1), FULL);
    refuses(&two_letters(), 7, 119, &brimming(3, MOST - 1), FULL);
    // A letter with nothing in it enters at the brim.
    (0..6).for_each(|figure| assert_eq!(entering(&one_letter(), 7, 28, &brimming(figure, MOST)).0[12], 2));
}

#[test]
fn an_entry_number_beyond_64_bits() {
    let last = |last| with([0; 46], &[(1, last)]);
    refuses(&one_letter(), 7, 28, &last(MOST), FULL);
    refuses(&two_letters(), 7, 119, &last(MOST), FULL);
    refuses(&two_letters(), 7, 119, &last(MOST - 1), FULL);
    // The last numbers of all.
    let left = with(TWO_ENTERED, &[(1, MOST), (18, MOST - 1), (27, MOST)]);
    enters_two(7, &last(MOST - 2), MOST - 1, &left);
    finds(&left, MOST, [0, MOST, 7, 0, 0, 2, 1, 0, 540]);
    finds_none(&left, 0);
    refuses(&one_letter(), 8, 28, &left, FULL);
    assert_eq!(entering(&one_letter(), 7, 28, &last(MOST - 1)).0[12], MOST);
}

// ---- two owners ----

/// What owner 1 did is in BOTH; now both go on in what is free.
#[test]
fn two_bureaus_in_one_book() {
    a_book(&BOTH);
    totals_for(1, &BOTH, [0, 2, 1, 2, 3, 2, 180, 7_540, 7_360]);
    totals_for(2, &BOTH, [0, 1, 0, 0, 0, 0, 0, 0, 0]);
    // Both have an entry 1, each its own; the other's 2 is none of owner 2's.
    finds_for(1, &BOTH, 1, [0, 1, 7, 1, 2, 1, 1, 180, 7_000]);
    finds_for(2, &BOTH, 1, [0, 1, 7, 0, 0, 0, 0, 0, 0]);
    finds_for(1, &BOTH, 2, [0, 2, 7, 0, 0, 2, 1, 0, 540]);
    finds_for(2, &BOTH, 2, alone(NOENTRY));
    // Two rows are free, for both: the gap, which is written over whole and used first, and the one behind.
    let gap_used = |owner, number| [&BOTH[..44], &[owner, number, 9, 0, 0, 0, 0, 0, 0], &BOTH[53..]].concat();
    let (answer, _, left) = entering_for(2, &one_letter(), 9, 28, &BOTH);
    assert_eq!((answer[0], answer[12]), (0, 2));
    let mut wanted = gap_used(2, 2);
    wanted[9] = 2;
    assert_eq!(left, wanted);
    assert_eq!(entering_for(1, &two_letters(), 8, 119, &left).0, alone(FULL));
    assert_eq!(entering_for(2, &two_letters(), 8, 119, &left).0, alone(FULL));
    let (answer, _, left) = entering_for(1, &one_letter(), 8, 28, &left);
    assert_eq!((answer[0], answer[12]), (0, 3));
    (wanted[0], wanted[1], wanted[53], wanted[54], wanted[55]) = (5, 3, 1, 3, 8);
    assert_eq!(left, wanted);
    assert_eq!(entering_for(1, &one_letter(), 10, 28, &left).0, alone(FULL));
    assert_eq!(entering_for(2, &one_letter(), 10, 28, &left).0, alone(FULL));
    let (answer, _, left) = entering_for(1, &one_letter(), 9, 28, &BOTH);
    assert_eq!((answer[0], answer[12]), (0, 3));
    let mut wanted = gap_used(1, 3);
    wanted[1] = 3;
    assert_eq!(left, wanted);
}

/// The same file under the same number for both owners: numbers, totals and entries are alike.
#[test]
fn the_same_file_for_both() {
    let longer = [&TWO_ENTERED[..35], &[0; 18]].concat();
    let (answer, rows, left) = entering_for(2, &two_letters(), 7, 119, &longer);
    assert_eq!((&answer[..12], answer[12]), (&READ_TWO[..], 1));
    assert_eq!(rows, ROWS_OF_TWO);
    let head = [4, 2, 1, 2, 3, 2, 180, 7_540, 7_360, 2, 1, 2, 3, 2, 180, 7_540, 7_360];
    let second = [2, 1, 7, 1, 2, 1, 1, 180, 7_000, 2, 2, 7, 0, 0, 2, 1, 0, 540];
    assert_eq!(left, [&head[..], &TWO_ENTERED[17..35], &second].concat());
    for owner in [1, 2] {
        totals_for(owner, &left, [0, 2, 1, 2, 3, 2, 180, 7_540, 7_360]);
        finds_for(owner, &left, 2, [0, 2, 7, 0, 0, 2, 1, 0, 540]);
        finds_for(owner, &left, 3, alone(NOENTRY));
        assert_eq!(entering_for(owner, &one_letter(), 7, 28, &left).0, alone(DUPLICATE));
    }
}

#[test]
fn file_numbers_are_compared_within_the_owner() {
    // 7 is both owners', 8 stands in the row of neither.
    assert_eq!(entering_for(1, &one_letter(), 7, 28, &BOTH).0, alone(DUPLICATE));
    assert_eq!(entering_for(2, &one_letter(), 7, 28, &BOTH).0, alone(DUPLICATE));
    assert_eq!(entering_for(1, &one_letter(), 8, 28, &BOTH).0[12], 3);
    assert_eq!(entering_for(2, &one_letter(), 8, 28, &BOTH).0[12], 2);
    let others = with(BOTH, &[(28, 9)]);
    assert_eq!(entering_for(1, &one_letter(), 9, 28, &others).0[12], 3);
    assert_eq!(entering_for(2, &one_letter(), 7, 28, &others).0[12], 2);
}

#[test]
fn an_owner_other_than_1_or_2_is_noentry_straight_after_book() {
    for owner in [0, 3, 4, MOST, 1 << 32 | 1, 1 << 63 | 2] {
        // A row that has it for an owner is nobody's all the same: entry 3, file number 8.
        let book = with(BOTH, &[(44, owner)]);
        finds_for(owner, &book, 3, alone(NOENTRY));
        totals_for(owner, &book, alone(NOENTRY));
        for (file, number, rows) in
            [(two_letters(), 9, 119), (two_letters(), 8, 0), (vec![], 8, 0), (one_letter(), 8, 28)]
        {
            let (answer, rows_left, left) = entering_for(owner, &file, number, rows, &book);
            assert_eq!((answer, left), (alone(NOENTRY), book.clone()));
            assert_eq!(rows_left, vec![BEFORE; rows]);
        }
        finds_for(owner, &with(BOTH, &[(0, 6)]), 3, alone(BOOK));
        assert_eq!(entering_for(owner, &[], 8, 0, &with(BOTH, &[(12, 1)])).0, alone(BOOK));
        totals_for(owner, &[0; 3], alone(NOENTRY));
        finds_for(owner, &[], 0, alone(NOENTRY));
    }
}

#[test]
fn either_owners_running_totals_are_judged_in_every_call() {
    for place in (2..9).chain(10..17) {
        no_book(&with(BOTH, &[(place, BOTH[place] + 1)]));
        no_book(&with(BOTH, &[(place, BOTH[place] ^ 1 << 63)]));
    }
    // The sums of both, or with the nines of the row of neither.
    no_book(&with(BOTH, &[(10, 1), (11, 2), (12, 3), (13, 2), (14, 180), (15, 7_540)]));
    no_book(&with(BOTH, &[(2, 10), (3, 11), (4, 12), (5, 11), (6, 189), (7, 7_549)]));
    // A figure of a row of neither may be anything, and so may its numbers.
    (45..53).for_each(|place| a_book(&with(BOTH, &[(place, MOST)])));
}

#[test]
fn a_row_that_is_anothers() {
    // With figures, a row counts for whom its [0] names: owner 1's first row, owner 2's, neither's.
    for owner in [0, 2, 3, MOST, 1 << 32 | 1] {
        no_book(&with(BOTH, &[(17, owner)]));
    }
    for owner in [1, 2] {
        no_book(&with(BOTH, &[(44, owner)]));
    }
    // Owner 2's letter has nothing in it, so that it may change hands.
    for owner in [0, 3, MOST] {
        let book = with(BOTH, &[(26, owner)]);
        totals_for(2, &book, [0, 0, 0, 0, 0, 0, 0, 0, 0]);
        finds_for(2, &book, 1, alone(NOENTRY));
        assert_eq!(entering_for(2, &one_letter(), 7, 28, &book).0[12], 2);
    }
    let book = with(BOTH, &[(26, 1), (18, 5)]);
    totals_for(1, &book, [0, 3, 1, 2, 3, 2, 180, 7_540, 7_360]);
    finds_for(1, &book, 1, [0, 1, 7, 0, 0, 0, 0, 0, 0]);
}

/// A running total or a last number at the brim keeps its own owner from entering, and not the other.
#[test]
fn the_brim_is_each_owners_own() {
    for (figure, sum) in [1, 2, 3, 2, 180, 7_540].into_iter().enumerate() {
        let book = brimming(figure, MOST);
        refuses(&two_letters(), 7, 119, &book, FULL);
        let (answer, _, left) = entering_for(2, &two_letters(), 7, 119, &book);
        assert_eq!((answer[0], answer[12]), (0, 1));
        assert_eq!((left[2 + figure], left[10 + figure]), (MOST, sum));
        assert_eq!(left[10..16], [1, 2, 3, 2, 180, 7_540]);
    }
    let last = with([0; 46], &[(1, MOST)]);
    refuses(&one_letter(), 7, 28, &last, FULL);
    assert_eq!(entering_for(2, &one_letter(), 7, 28, &last).0[12], 1);
}

/// Claimed rows of neither owner are no entries, and are free.
#[test]
fn rows_of_neither_are_gaps() {
    let zeros = with([0; 35], &[(0, 2)]);
    totals(&zeros, [0; 9]);
    [0, 1].into_iter().for_each(|number| finds_none(&zeros, number));
    // Two gaps and no row behind them: two letters enter, and the rows claimed are still two.
    enters_two(7, &zeros, 1, &TWO_ENTERED[..35]);
    assert_eq!(entering(&one_letter(), 0, 28, &with([0; 35], &[(0, 1)])).2[0], 1);
    for owner in [0, 3, MOST, 1 << 32 | 1] {
        let gaps = with([0; 35], &[(0, 2), (17, owner), (20, 9), (26, owner), (34, MOST)]);
        enters_two(7, &gaps, 1, &TWO_ENTERED[..35]);
    }
}

// ---- withdrawals ----

/// TWO_ENTERED without its first letter: 0 bundles, 0 debit items, 2 credit items, 1 view, 0 and 540 cents; the gap is zeros.
#[rustfmt::skip]
const FIRST_WITHDRAWN: [u64; 46] = [
    2, 2, 0, 0, 2, 1, 0, 540, 540, 0, 0, 0, 0, 0, 0, 0, 0,
    0, 0, 0, 0, 0, 0, 0, 0, 0,
    1, 2, 7, 0, 0, 2, 1, 0, 540,
    0, 0, 0, 0, 0, 0, 0, 0, 0,
    0, 0,
];

/// The list of that book: 7 is owner 1's; there is room for three more.
const SEVEN: [u64; 9] = [1, 1, 7, 0, 0, 0, 0, 0, 0];

#[test]
fn a_letter_is_withdrawn() {
    withdraws(1, &TWO_ENTERED, &FIRST_WITHDRAWN);
    finds_none(&FIRST_WITHDRAWN, 1);
    finds(&FIRST_WITHDRAWN, 2, [0, 2, 7, 0, 0, 2, 1, 0, 540]);
    totals(&FIRST_WITHDRAWN, [0, 1, 0, 0, 2, 1, 0, 540, 540]);
    // Not a second time, and not what was never given, or is a file number, or 0.
    [1, 0, 3, 7, MOST, 1 << 32 | 2].into_iter().for_each(|number| does_not_withdraw(number, &FIRST_WITHDRAWN, NOENTRY));
    // The other letter too: nothing is left but the last number and the rows claimed.
    let none = with([0; 46], &[(0, 2), (1, 2)]);
    withdraws(2, &FIRST_WITHDRAWN, &none);
    totals(&none, [0; 9]);
    [0, 1, 2].into_iter().for_each(|number| does_not_withdraw(number, &none, NOENTRY));
    // The second first.
    let second = with(
        TWO_ENTERED,
        &[(4, 1), (5, 1), (7, 7_000), (8, 6_820), (26, 0), (27, 0), (28, 0), (31, 0), (32, 0), (34, 0)],
    );
    withdraws(2, &TWO_ENTERED, &second);
    withdraws(1, &second, &none);
}

#[test]
fn its_row_is_used_again_its_number_is_not_and_its_file_number_stays_taken() {
    let enter = |file: &[u8], number, rows, book: &[u64]| entering_beside(&SEVEN, 1, file, number, rows, book);
    assert_eq!(enter(&one_letter(), 7, 28, &FIRST_WITHDRAWN).0, alone(DUPLICATE));
    let none = with([0; 46], &[(0, 2), (1, 2)]);
    assert_eq!(enter(&one_letter(), 7, 28, &none).0, alone(DUPLICATE));
    // One gap and one row behind: two letters enter as 3 and 4, the first of them in the gap.
    let (answer, _, left) = enter(&two_letters(), 8, 119, &FIRST_WITHDRAWN);
    assert_eq!((&answer[..12], answer[12]), (&READ_TWO[..], 3));
    let head = [3, 4, 1, 2, 5, 3, 180, 8_080, 7_900, 0, 0, 0, 0, 0, 0, 0, 0];
    let rows = [1, 3, 8, 1, 2, 1, 1, 180, 7_000, 1, 2, 7, 0, 0, 2, 1, 0, 540, 1, 4, 8, 0, 0, 2, 1, 0, 540];
    assert_eq!(left, [&head[..], &rows, &[0, 0]].concat());
    assert_eq!(entering_beside(&SEVEN, 1, &one_letter(), 9, 28, &left).0, alone(FULL));
    // In an emptied book the rows claimed stay, and numbering goes on.
    let (answer, _, left) = enter(&one_letter(), 8, 28, &none);
    assert_eq!(answer[12], 3);
    assert_eq!(left, with([0; 46], &[(0, 2), (1, 3), (17, 1), (18, 3), (19, 8)]));
    // A book that is full, one that was full: 35 numbers have two rows.
    assert_eq!(enter(&one_letter(), 8, 28, &TWO_ENTERED[..35]).0, alone(FULL));
    let (answer, _, left) = enter(&one_letter(), 8, 28, &FIRST_WITHDRAWN[..35]);
    assert_eq!((answer[12], left[0]), (3, 2));
    assert_eq!(left[17..26], [1, 3, 8, 0, 0, 0, 0, 0, 0]);
}

#[test]
fn withdrawals_are_each_owners_own() {
    let list = list_beside(&BOTH);
    // Both have an entry 1; only owner 1 has a 2.
    let (number, left) = withdrawing_beside(&list, 2, 1, &BOTH);
    assert_eq!((number, left), (0, with(BOTH, &[(26, 0), (27, 0), (28, 0)])));
    assert_eq!(withdrawing_beside(&list, 2, 2, &BOTH), (NOENTRY, BOTH.to_vec()));
    let (number, left) = withdrawing_beside(&list, 1, 2, &BOTH);
    assert_eq!(number, 0);
    let places = [(4, 1), (5, 1), (7, 7_000), (8, 6_820), (35, 0), (36, 0), (37, 0), (40, 0), (41, 0), (43, 0)];
    assert_eq!(left, with(BOTH, &places));
    // Row 4 is neither's, entry 3: nobody withdraws it, not even under the number that it has for an owner.
    for owner in [0, 1, 2, 3, MOST, 1 << 32 | 1] {
        assert_eq!(withdrawing_beside(&list, owner, 3, &BOTH), (NOENTRY, BOTH.to_vec()));
    }
}

#[test]
fn the_first_row_with_the_number_is_withdrawn() {
    // 5 stands in the first and the third row of STRANGE: -10 cents net in the first, and 20 less 20 in the third.
    let first = with(STRANGE, &[(2, 5), (3, 50), (4, 500), (5, 2), (6, 30), (7, 30), (8, 0)]);
    let first = [&first[..17], &[0; 9], &first[26..]].concat();
    withdraws(5, &STRANGE, &first);
    finds(&first, 5, [0, 5, 31, 3, 30, 300, 1, 20, 20]);
    let both = [&[3, 9, 2, 20, 200, 1, 10, 10, 0][..], &first[9..35], &[0; 9], &first[44..]].concat();
    withdraws(5, &first, &both);
    does_not_withdraw(5, &both, NOENTRY);
    // 7 stands in the row that is not claimed.
    does_not_withdraw(7, &STRANGE, NOENTRY);
    // 0 and 2^64 - 1 are numbers like any other; in rows of zeros 0 is nobody's.
    let others = with(STRANGE, &[(27, 0), (36, MOST)]);
    assert_eq!(withdrawing(0, &others).1[26..35], [0; 9]);
    assert_eq!(withdrawing(MOST, &others).1[35..44], [0; 9]);
    does_not_withdraw(0, &FIRST_WITHDRAWN, NOENTRY);
}

#[test]
fn short_tables_have_nothing_to_withdraw() {
    for length in 0..26 {
        let zeros = vec![0; length];
        [0, 1, MOST].into_iter().for_each(|number| does_not_withdraw(number, &zeros, NOENTRY));
        tidies(&zeros, &zeros);
    }
    for place in [1, 9, 17, 25] {
        let odd = with([0; 30], &[(place, MOST)]);
        (place + 1..26).for_each(|length| tidies(&odd[..length], &odd[..length]));
    }
}

/// A book of three rows, two claimed: owner 1's entry 1 and its entry 2, each with these debit and credit cents; 2^63 and more may pass an i64.
fn two_of((debit, credit): (u64, u64), (debit_too, credit_too): (u64, u64)) -> [u64; 44] {
    let mut book = [0; 44];
    (book[0], book[1], book[6], book[7]) = (2, 2, debit + debit_too, credit + credit_too);
    book[8] = book[7].wrapping_sub(book[6]);
    (book[17], book[18], book[24], book[25]) = (1, 1, debit, credit);
    (book[26], book[27], book[33], book[34]) = (1, 2, debit_too, credit_too);
    book
}

#[test]
fn a_withdrawal_may_carry_the_net_position_to_its_bound_and_no_further() {
    const TO: u64 = BOUND as u64;
    // Without entry 1 the net is what entry 2 has.
    for (first, second) in
        [((1, 0), (0, TO)), ((0, 1), (TO, 0)), ((0, 5), (0, TO)), ((5, 0), (TO, 0)), ((0, 0), (0, TO))]
    {
        let (number, left) = withdrawing(1, &two_of(first, second));
        assert_eq!(number, 0);
        assert_eq!((left[6], left[7], left[8]), (second.0, second.1, second.1.wrapping_sub(second.0)));
        assert_eq!(left[17..26], [0; 9]);
    }
    for (first, second) in [
        ((1, 0), (0, TO + 1)),
        ((0, 1), (TO + 1, 0)),
        ((0, 5), (0, TO + 1)),
        ((5, 0), (TO + 1, 0)),
        ((0, 0), (0, TO + 1)),
    ] {
        does_not_withdraw(1, &two_of(first, second), RANGE);
    }
    // From the ends of an i64, and past them.
    does_not_withdraw(1, &two_of((5, 0), (0, (1 << 63) + 4)), RANGE);
    does_not_withdraw(1, &two_of((0, 5), ((1 << 63) + 5, 0)), RANGE);
    // Without entry 1 it would be -(2^64 - 1), or 2^64 - 1, of which 64 bits leave 1 and -1.
    does_not_withdraw(1, &two_of((0, MOST), (MOST, 0)), RANGE);
    does_not_withdraw(1, &two_of((MOST, 0), (0, MOST)), RANGE);
    // Credits and debits near 2^64 on both sides, and a small net.
    let (number, left) = withdrawing(1, &two_of((1, 2), (MOST - 1, MOST - 2)));
    assert_eq!((number, left[6], left[7], left[8]), (0, MOST - 1, MOST - 2, MOST));
    // The other owner's does not matter.
    let mut other = [&two_of((0, 1), (0, 2))[..35], &[2, 1, 8, 0, 0, 0, 0, 0, TO + 1]].concat();
    (other[0], other[15], other[16]) = (3, TO + 1, TO + 1);
    assert_eq!(withdrawing_beside(&[], 1, 1, &other).0, 0);
    assert_eq!(withdrawing_beside(&[], 2, 1, &other).0, 0);
}

#[test]
fn noentry_comes_before_range_and_book_before_both() {
    let beyond = with_net(BOUND + 1);
    // Whatever is asked for, the net would be beyond, but for entry 1.
    [0, 2, 7, MOST].into_iter().for_each(|number| does_not_withdraw(number, &beyond, NOENTRY));
    let (number, left) = withdrawing(1, &beyond);
    assert_eq!((number, left[8]), (0, 0));
    let out = two_of((0, 0), (0, BOUND as u64 + 1));
    does_not_withdraw(1, &out, RANGE);
    does_not_withdraw(3, &out, NOENTRY);
    assert_eq!(withdrawing_beside(&[], 3, 1, &out), (NOENTRY, out.to_vec()));
    assert_eq!(withdrawing_beside(&[], 2, 1, &out), (NOENTRY, out.to_vec()));
    for list in [vec![1], vec![1, 5], vec![2, 1, 7, 0], vec![MOST, 1, 7]] {
        for (owner, number) in [(1, 1), (1, 3), (2, 1), (3, 1), (0, 0)] {
            assert_eq!(withdrawing_beside(&list, owner, number, &out), (BOOK, out.to_vec()));
        }
    }
    no_book(&with(out, &[(8, 1)]));
}

// ---- tidy-ups ----

#[test]
fn a_tidy_up_closes_gaps() {
    tidies(&[0; 46], &[0; 46]);
    tidies(&TWO_ENTERED, &TWO_ENTERED);
    // Owner 1's second entry moves up, zeros stand where it was, and one row is claimed.
    let left = [&[1], &FIRST_WITHDRAWN[1..17], &FIRST_WITHDRAWN[26..35], &[0; 20]].concat();
    tidies(&FIRST_WITHDRAWN, &left);
    finds(&left, 2, [0, 2, 7, 0, 0, 2, 1, 0, 540]);
    totals(&left, [0, 1, 0, 0, 2, 1, 0, 540, 540]);
    assert_eq!(entering_beside(&SEVEN, 1, &one_letter(), 8, 28, &left).0[12], 3);
    // The gap of BOTH is behind its entries, with anything in it: zeros afterwards.
    tidies(&BOTH, &[&[3], &BOTH[1..44], &[0; 18]].concat());
    // A book of nothing but gaps.
    tidies(&[&[2][..], &[0; 16], &[3, 9, 9, 9, 9, 9, 9, 9, 9], &[0, 1, 1, 1, 1, 1, 1, 1, 1]].concat(), &[0; 35]);
    tidies(&with([0; 46], &[(0, 2), (1, 2)]), &with([0; 46], &[(1, 2)]));
}

/// Six rows, five claimed: a gap with anything in it, owner 2's 4, a gap of zeros, owner 1's 9, owner 2's 1; the sixth row and the numbers behind it are
/// anything, and stay so.
#[test]
fn order_numbers_and_figures_survive() {
    let gap = [3, 9, 9, 9, 9, 9, 9, 9, 9];
    let (one, two, three) = ([2, 4, 70, 1, 2, 3, 4, 5, 6], [1, 9, 71, 0, 1, 0, 1, 8, 0], [2, 1, 72, 6, 5, 4, 3, 2, 1]);
    let behind = [1, 5, 5, 5, 5, 5, 5, 5, 5, 66, 67];
    let parts = [9, 0, 1, 0, 1, 8, 0, held(-8), 4, 7, 7, 7, 7, 7, 7, 0];
    let book = [&[5][..], &parts, &gap, &one, &[0; 9], &two, &three, &behind].concat();
    let left = [&[3][..], &parts, &one, &two, &three, &[0; 18], &behind].concat();
    assert_eq!(tidying_beside(&SEVEN, &book), (0, left.clone()));
    for owner in [1, 2] {
        for number in [1, 4, 5, 9] {
            finds_for(owner, &left, number, table::find(&book, owner, number));
        }
        totals_for(owner, &left, table::totals(&book, owner));
    }
    // Without a tidy-up a file goes into the gaps, first the lower; after it, behind the entries.
    let (answer, _, entered) = entering_beside(&SEVEN, 1, &two_letters(), 8, 119, &book);
    assert_eq!((answer[12], entered[0]), (10, 5));
    assert_eq!(entered[17..26], [1, 10, 8, 1, 2, 1, 1, 180, 7_000]);
    assert_eq!(entered[35..44], [1, 11, 8, 0, 0, 2, 1, 0, 540]);
    assert_eq!((&entered[26..35], &entered[44..]), (&book[26..35], &book[44..]));
    let (answer, _, entered) = entering_beside(&SEVEN, 1, &two_letters(), 8, 119, &left);
    assert_eq!((answer[12], entered[0]), (10, 5));
    assert_eq!(entered[44..62], [1, 10, 8, 1, 2, 1, 1, 180, 7_000, 1, 11, 8, 0, 0, 2, 1, 0, 540]);
    assert_eq!((&entered[17..44], &entered[62..]), (&left[17..44], &left[62..]));
    assert_eq!(tidying_beside(&[2, 0, 0], &book), (BOOK, book));
}

// ---- the list of file numbers taken ----

#[test]
fn the_list_alone_decides_duplicate() {
    let enter = |list: &[u64], owner, number| entering_beside(list, owner, &one_letter(), number, 28, &TWO_ENTERED).0;
    // The rows have 7 for owner 1, and the list has nothing: 7 is free.
    assert_eq!(enter(&[0, 0, 0], 1, 7)[12], 3);
    // The list has 6 for owner 1, and no row has it.
    assert_eq!(enter(&[1, 1, 6, 0, 0], 1, 6), alone(DUPLICATE));
    assert_eq!(enter(&[1, 1, 6, 0, 0], 1, 7)[12], 3);
    assert_eq!(enter(&[1, 1, 6, 0, 0], 2, 6)[12], 1);
    // First, second, third of three; 0 and 2^64 - 1 are numbers like any other; nothing behind those claimed is looked at.
    let three = [3, 1, 0, 2, MOST, 1, MOST, 1, 50, 2, 51];
    for (owner, number, first) in [(1, 0, 0), (2, MOST, 0), (1, MOST, 0), (2, 0, 1), (1, 50, 3), (2, 51, 1), (1, 51, 3)]
    {
        let answer = enter(&three, owner, number);
        assert_eq!((answer[0], answer[12]), (if first == 0 { DUPLICATE } else { 0 }, first));
    }
    // A place of neither owner takes nothing, for either; nor do numbers turned round, or a claim.
    for nobody in [0, 3, MOST, 1 << 32 | 1, 1 << 63 | 2] {
        let list = [2, nobody, 7, 6, 1, 0, 0];
        assert_eq!(enter(&list, 1, 7)[12], 3);
        assert_eq!(enter(&list, 2, 7)[12], 1);
        assert_eq!((enter(&list, 1, 6)[12], enter(&list, 1, 2)[12]), (3, 3));
    }
}

#[test]
fn a_file_takes_one_place_however_many_letters_it_has() {
    let (answer, _, _) = entering_beside(&[0, 9, 9], 1, &two_letters(), 7, 119, &[0; 46]);
    assert_eq!(answer[12], 1);
    for list in [vec![], vec![0], vec![0, 9], vec![1, 1, 8], vec![1, 2, 7, 9], vec![1, 0, 0], vec![2, 3, 7, MOST, MOST]]
    {
        assert_eq!(entering_beside(&list, 1, &two_letters(), 7, 119, &[0; 46]).0, alone(FULL));
        assert_eq!(entering_beside(&list, 2, &one_letter(), 6, 28, &[0; 46]).0, alone(FULL));
    }
    // DUPLICATE and RANGE come first, and the reader.
    assert_eq!(entering_beside(&[1, 1, 8], 1, &two_letters(), 8, 119, &[0; 46]).0, alone(DUPLICATE));
    assert_eq!(entering_beside(&[], 1, &file_of(&[('1', 1)]), 7, 700, &with_net(BOUND)).0, alone(RANGE));
    assert_eq!(entering_beside(&[1, 1, 8], 1, &[], 8, 0, &[0; 46]).0, alone(SIZE));
    assert_eq!(entering_beside(&[1, 1, 8], 1, &two_letters(), 8, 118, &[0; 46]).0[..2], [ROOM, 17]);
    assert_eq!(entering_beside(&[1, 1, 8], 0, &two_letters(), 8, 118, &[0; 46]).0, alone(NOENTRY));
}

#[test]
fn more_places_claimed_than_there_are() {
    let book = TWO_ENTERED;
    let calls = |list: &[u64], refusal: bool| {
        for owner in [0, 1, 2, 3, MOST] {
            for (file, rows) in [(one_letter(), 28), (two_letters(), 0), (vec![], 0)] {
                let answer = entering_beside(list, owner, &file, 7, rows, &book).0;
                assert_eq!(answer == alone(BOOK), refusal, "{list:?}");
            }
            let (number, left) = withdrawing_beside(list, owner, 1, &book);
            assert_eq!((number == BOOK, left == book), (refusal, number > 0));
        }
        assert_eq!(tidying_beside(list, &book), (if refusal { BOOK } else { 0 }, book.to_vec()));
    };
    // A list without its first number claims nothing. Places are whole pairs behind it.
    for list in [vec![], vec![0], vec![0, 5], vec![1, 5, 5], vec![1, 5, 5, 5], vec![2, 5, 5, 5, 5], vec![0, MOST, MOST]]
    {
        calls(&list, false);
    }
    for list in [vec![1], vec![MOST], vec![1, 5], vec![2, 5, 5], vec![2, 5, 5, 5], vec![3, 5, 5, 5, 5]] {
        calls(&list, true);
    }
    // Twice 2^63 is 0 but for 2^64; the low half fits; the sign.
    for claimed in [1 << 63, 1 << 63 | 1, 1 << 32, 1 << 32 | 1, MOST, MOST - 1] {
        calls(&[claimed, 5, 5, 5, 5], true);
    }
}

// ---- the net position ----

/// Three rows, one claimed: owner 1's, of entry 1 and file number 6, with these debit and credit cents.
fn with_cents(debit: u64, credit: u64) -> [u64; 44] {
    let mut book = [0; 44];
    (book[0], book[1], book[6], book[7], book[8]) = (1, 1, debit, credit, credit.wrapping_sub(debit));
    (book[17], book[18], book[19], book[24], book[25]) = (1, 1, 6, debit, credit);
    book
}

/// The same with this net position.
fn with_net(net: i64) -> [u64; 44] {
    if net < 0 {
        with_cents(net.unsigned_abs(), 0)
    } else {
        with_cents(0, net.unsigned_abs())
    }
}

/// A file of letters with nothing but one 61 each directly in them: usage and cents. Usage 9 is a debit, 1 a credit.
fn file_of(letters: &[(char, u64)]) -> Vec<u8> {
    let mut records = vec![file_header()];
    let (mut debits, mut credits) = (0, 0);
    for (usage, cents) in letters {
        records.extend([letter_header('N'), credit(*usage, *cents)]);
        match usage {
            '9' => {
                debits += cents;
                records.push(letter_sums(0, (1, *cents), 0, (0, 0)));
            }
            _ => {
                credits += cents;
                records.push(letter_sums(0, (0, 0), 0, (1, *cents)));
            }
        }
    }
    let count = letters.len() as u64;
    records.push(file_sums(count, 3 * count + 2, count, debits, credits));
    file(&records)
}

/// Entering such a file ends with this net position.
#[track_caller]
fn carries(letters: &[(char, u64)], from: i64, to: i64) {
    let (answer, _, left) = entering(&file_of(letters), 7, 700, &with_net(from));
    assert_eq!((answer[0], answer[12]), (0, 2));
    assert_eq!(left[8], held(to));
    assert_eq!(table::totals(&left, 1)[8], held(to));
}

/// Entering such a file is RANGE.
#[track_caller]
fn carries_too_far(letters: &[(char, u64)], from: i64) {
    refuses(&file_of(letters), 7, 700, &with_net(from), RANGE);
}

#[test]
fn the_net_position_is_credits_less_debits() {
    totals(&with_net(5), [0, 1, 0, 0, 0, 0, 0, 5, 5]);
    totals(&with_net(-5), [0, 1, 0, 0, 0, 0, 5, 0, MOST - 4]);
    totals(&with_cents(MOST, MOST), [0, 1, 0, 0, 0, 0, MOST, MOST, 0]);
    totals(&with_cents(MOST, MOST - 1), [0, 1, 0, 0, 0, 0, MOST, MOST - 1, MOST]);
    // From above 0 to below, and back.
    carries(&[('9', 180)], 100, -80);
    carries(&[('1', 180)], -100, 80);
    carries(&[('9', 100)], 100, 0);
    // It is each owner's own.
    let book = with(TWO_ENTERED, &[]);
    let (answer, _, left) = entering_for(2, &file_of(&[('9', 30)]), 7, 700, &book);
    assert_eq!(answer[12], 1);
    assert_eq!((left[8], left[16]), (7_360, held(-30)));
    totals_for(2, &left, [0, 1, 0, 1, 0, 0, 30, 0, held(-30)]);
    totals_for(1, &left, [0, 2, 1, 2, 3, 2, 180, 7_540, 7_360]);
}

#[test]
fn exactly_the_bound_is_allowed_and_a_cent_more_is_not() {
    carries(&[('1', 180)], BOUND - 180, BOUND);
    carries_too_far(&[('1', 180)], BOUND - 179);
    carries_too_far(&[('1', 1)], BOUND);
    carries(&[('9', 180)], 180 - BOUND, -BOUND);
    carries_too_far(&[('9', 180)], 179 - BOUND);
    carries_too_far(&[('9', 1)], -BOUND);
    // The letters together: 180 less 80.
    carries(&[('1', 180), ('9', 80)], BOUND - 100, BOUND);
    // Two letters of which the second is one too many.
    carries(&[('1', 100), ('1', 80)], BOUND - 180, BOUND);
    carries_too_far(&[('1', 100), ('1', 80)], BOUND - 179);
    // A letter without anything is entered at the bound.
    assert_eq!(entering(&one_letter(), 7, 28, &with_net(BOUND)).0[12], 2);
    assert_eq!(entering(&one_letter(), 7, 28, &with_net(-BOUND)).0[12], 2);
}

#[test]
fn out_on_the_way_and_back_within_one_file() {
    carries(&[('1', 500), ('9', 500)], BOUND, BOUND);
    carries(&[('1', 500), ('9', 501)], BOUND, BOUND - 1);
    carries(&[('9', 500), ('1', 500)], -BOUND, -BOUND);
    carries_too_far(&[('1', 501), ('9', 500)], BOUND);
    carries_too_far(&[('9', 501), ('1', 500)], -BOUND);
}

/// Whatever it was before: from beyond the bound a file is judged by where it ends.
#[test]
fn a_net_position_beyond_the_bound() {
    a_book(&with_net(BOUND + 1));
    totals(&with_net(BOUND + 1), [0, 1, 0, 0, 0, 0, 0, held(BOUND + 1), held(BOUND + 1)]);
    refuses(&one_letter(), 7, 28, &with_net(BOUND + 1), RANGE);
    refuses(&one_letter(), 7, 28, &with_net(-BOUND - 1), RANGE);
    carries(&[('9', 1)], BOUND + 1, BOUND);
    carries_too_far(&[('9', 1)], BOUND + 2);
    carries(&[('1', 1)], -BOUND - 1, -BOUND);
    carries_too_far(&[('1', 1)], -BOUND - 2);
    for net in [i64::MAX, i64::MIN] {
        a_book(&with_net(net));
        assert_eq!(table::totals(&with_net(net), 1)[8], held(net));
        carries_too_far(&[('1', 99)], net);
        carries_too_far(&[('9', 99)], net);
    }
    // The other owner is not kept from entering.
    assert_eq!(entering_for(2, &one_letter(), 7, 28, &with_net(i64::MIN)).0[12], 1);
}

#[test]
fn a_net_position_that_is_not_the_sum_is_no_book() {
    for place in [8, 16] {
        for number in [1, 7_359, 7_361, held(-7_360), 7_540, 180, held(-180), MOST, 1 << 63] {
            no_book(&with(TWO_ENTERED, &[(place, number)]));
        }
    }
    no_book(&with(TWO_ENTERED, &[(8, 0)]));
    // A sum that no i64 holds is none, whatever stands there: 2^63, 2^64 - 1, -2^63 - 1.
    for (debit, credit) in [(0, 1 << 63), (0, MOST), (1, 1 << 63 | 2), (1 << 63 | 1, 0), (MOST, 0), (MOST, 3)] {
        let book = with_cents(debit, credit);
        no_book(&book);
        for number in [0, held(i64::MAX), held(i64::MIN), credit, debit] {
            no_book(&with(book, &[(8, number)]));
        }
    }
    // And these an i64 holds: 2^63 - 1 and -2^63.
    a_book(&with_cents(1, 1 << 63));
    a_book(&with_cents(1 << 63, 0));
    a_book(&with_cents(MOST, 1 << 63));
    no_book(&with_cents(MOST, (1 << 63) - 2));
}

#[test]
fn range_comes_after_duplicate_and_before_full() {
    let beyond = with_net(BOUND);
    let more = file_of(&[('1', 1)]);
    refuses(&more, 6, 700, &beyond, DUPLICATE);
    refuses(&more, 7, 700, &beyond, RANGE);
    assert_eq!(entering(&more, 7, 1, &beyond).0[..2], [ROOM, 5]);
    // No row is free, the last number is the last of all, a running total passes 64 bits.
    refuses(&more, 7, 700, &beyond[..26], RANGE);
    refuses(&file_of(&[('9', 0)]), 7, 700, &beyond[..26], FULL);
    refuses(&more, 7, 700, &with(beyond, &[(1, MOST)]), RANGE);
    let both = with_cents(MOST - BOUND as u64 - 1, MOST);
    refuses(&more, 7, 700, &both, RANGE);
    refuses(&file_of(&[('9', 1), ('1', 1)]), 7, 700, &both, RANGE);
    refuses(&file_of(&[('9', 2), ('1', 1)]), 7, 700, &both, FULL);
    refuses(&more, 7, 700, &with(beyond, &[(0, 4)]), BOOK);
    assert_eq!(entering_for(3, &more, 7, 700, &beyond).0, alone(NOENTRY));
}

// ---- numbering ----

#[test]
fn numbers_go_on_from_the_last_one_given() {
    // The rows' own numbers do not matter: 41 was given last, and the row has 3.
    let book = with(TWO_ENTERED, &[(1, 41), (18, 3)]);
    let (answer, _, left) = entering(&one_letter(), 8, 28, &book);
    assert_eq!((answer[0], answer[12]), (0, 42));
    assert_eq!(left, with(TWO_ENTERED, &[(0, 3), (1, 42), (18, 3), (35, 1), (36, 42), (37, 8)]));
    // Nor that a row already has the next number: its first row is found, as before.
    let again = with(TWO_ENTERED, &[(1, 0)]);
    let (answer, _, left) = entering(&one_letter(), 8, 28, &again);
    assert_eq!((answer[0], answer[12]), (0, 1));
    finds(&left, 1, [0, 1, 7, 1, 2, 1, 1, 180, 7_000]);
    totals(&left, [0, 3, 1, 2, 3, 2, 180, 7_540, 7_360]);
    // A book without an entry whose last number is 9: nothing is found, and 10 is next.
    let none = with([0; 46], &[(1, 9)]);
    finds_none(&none, 9);
    let (answer, _, left) = entering(&two_letters(), 7, 119, &none);
    assert_eq!(answer[12], 10);
    assert_eq!(left, with(TWO_ENTERED, &[(1, 11), (18, 10), (27, 11)]));
}

/// The row table is filled as far as the file goes, and the rest is as it was.
#[test]
fn the_row_table_behind_the_file_is_as_it_was() {
    let (_, rows, _) = entering(&two_letters(), 7, 130, &[0; 46]);
    assert_eq!(rows[..119], ROWS_OF_TWO);
    assert_eq!(rows[119..], [BEFORE; 11]);
}
