//! The independent day book behind C calls. Every answer, and what it leaves, is held against the second opinion.

use std::slice::from_raw_parts_mut;

use peer_book::layout::{ENTER_ANSWER, FIND_ANSWER, TOTALS_ANSWER};
use peer_book::paper::Paper;
use peer_book::{opinion, table};

use crate::writing::lent;

/// # Safety
/// `to` points to as many numbers as the answer has.
unsafe fn give(answer: &[u64], to: *mut u64) -> u64 {
    from_raw_parts_mut(to, answer.len()).copy_from_slice(answer);
    answer[0]
}

/// Reads a file once; the paper is then entered any number of times.
///
/// # Safety
/// `file` points to `len` bytes.
#[no_mangle]
pub unsafe extern "C" fn peer_paper(file: *const u8, len: usize) -> *mut Paper {
    Box::into_raw(Box::new(Paper::new(lent(file, len).to_vec())))
}

/// # Safety
/// `paper` came from `peer_paper` and is not used again.
#[no_mangle]
pub unsafe extern "C" fn peer_drop_paper(paper: *mut Paper) {
    drop(Box::from_raw(paper));
}

/// Enters a paper for an owner.
///
/// # Safety
/// `paper` came from `peer_paper`; `rows` points to `rows_len` numbers, `book` to `book_len`, `taken` to `taken_len`, `answer` to thirteen.
#[no_mangle]
pub unsafe extern "C" fn peer_enter(
    paper: *const Paper,
    file_number: u64,
    owner: u64,
    rows: *mut u64,
    rows_len: usize,
    book: *mut u64,
    book_len: usize,
    taken: *mut u64,
    taken_len: usize,
    answer: *mut u64,
) -> u64 {
    let (rows, book) = (from_raw_parts_mut(rows, rows_len), from_raw_parts_mut(book, book_len));
    let taken = from_raw_parts_mut(taken, taken_len);
    let (mut other_rows, mut other_book, mut other_taken) = (rows.to_vec(), book.to_vec(), taken.to_vec());
    let given: [u64; ENTER_ANSWER] = table::enter(&*paper, file_number, owner, rows, book, taken);
    let other = opinion::enter(&*paper, file_number, owner, &mut other_rows, &mut other_book, &mut other_taken);
    assert_eq!(other, given, "the second opinion is another");
    let alike = rows == other_rows && book == other_book && taken == other_taken;
    assert!(alike, "the second opinion leaves something else");
    give(&given, answer)
}

/// Withdraws an owner's entry.
///
/// # Safety
/// `book` points to `book_len` numbers, `taken` to `taken_len`.
#[no_mangle]
pub unsafe extern "C" fn peer_withdraw(
    book: *mut u64,
    book_len: usize,
    taken: *const u64,
    taken_len: usize,
    owner: u64,
    entry_number: u64,
) -> u64 {
    let (book, taken) = (from_raw_parts_mut(book, book_len), lent(taken, taken_len));
    let mut other_book = book.to_vec();
    let given = table::withdraw(book, taken, owner, entry_number);
    let other = opinion::withdraw(&mut other_book, taken, owner, entry_number);
    assert!(given == other && book == other_book, "the second opinion is another");
    given
}

/// Closes the gaps.
///
/// # Safety
/// `book` points to `book_len` numbers, `taken` to `taken_len`.
#[no_mangle]
pub unsafe extern "C" fn peer_tidy(book: *mut u64, book_len: usize, taken: *const u64, taken_len: usize) -> u64 {
    let (book, taken) = (from_raw_parts_mut(book, book_len), lent(taken, taken_len));
    let mut other_book = book.to_vec();
    let (given, other) = (table::tidy(book, taken), opinion::tidy(&mut other_book, taken));
    assert!(given == other && book == other_book, "the second opinion is another");
    given
}

/// Looks an owner's entry up.
///
/// # Safety
/// `book` points to `book_len` numbers, `found` to nine.
#[no_mangle]
pub unsafe extern "C" fn peer_find(
    book: *const u64,
    book_len: usize,
    owner: u64,
    entry_number: u64,
    found: *mut u64,
) -> u64 {
    let book = lent(book, book_len);
    let given: [u64; FIND_ANSWER] = table::find(book, owner, entry_number);
    assert_eq!(opinion::find(book, owner, entry_number), given, "the second opinion is another");
    give(&given, found)
}

/// The running totals and the net position of an owner.
///
/// # Safety
/// `book` points to `book_len` numbers, `totals` to nine.
#[no_mangle]
pub unsafe extern "C" fn peer_totals(book: *const u64, book_len: usize, owner: u64, totals: *mut u64) -> u64 {
    let book = lent(book, book_len);
    let given: [u64; TOTALS_ANSWER] = table::totals(book, owner);
    assert_eq!(opinion::totals(book, owner), given, "the second opinion is another");
    give(&given, totals)
}
