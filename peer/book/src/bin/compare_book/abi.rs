//! The proved library's calls of requests 6 and 8 to 10 (readings 55 and 57 to 59), as a side that answers.

use peer_book::call::{Lent, Outcome, Side};
use peer_book::layout::{ENTER_ANSWER, FIND_ANSWER, TOTALS_ANSWER};
use peer_book::paper::Paper;

extern "C" {
    fn x9_book_enter(
        file: *const u8,
        file_len: usize,
        file_number: u64,
        owner: u64,
        table: *mut u64,
        table_len: usize,
        book: *mut u64,
        book_len: usize,
        taken: *mut u64,
        taken_len: usize,
        answer: *mut u64,
    ) -> u64;
    fn x9_book_find(book: *const u64, book_len: usize, owner: u64, entry_number: u64, found: *mut u64) -> u64;
    fn x9_book_totals(book: *const u64, book_len: usize, owner: u64, totals: *mut u64) -> u64;
    fn x9_book_withdraw(
        book: *mut u64,
        book_len: usize,
        taken: *const u64,
        taken_len: usize,
        owner: u64,
        entry_number: u64,
    ) -> u64;
    fn x9_book_tidy(book: *mut u64, book_len: usize, taken: *const u64, taken_len: usize) -> u64;
}

/// What an answer holds before a call.
const UNTOUCHED: u64 = 0xA5A5_A5A5_A5A5_A5A5;

/// Numbers on either side of an answer that no call may touch.
const GUARD: usize = 4;

/// Room for the longest answer with its guards.
const MOST: usize = GUARD + ENTER_ANSWER + GUARD;

/// The answer of a call that fills so many numbers, from the one that it is lent on.
fn outcome(length: usize, call: impl FnOnce(*mut u64) -> u64) -> Result<Outcome, String> {
    let mut answer = [UNTOUCHED; MOST];
    let returned = call(answer[GUARD..].as_mut_ptr());
    let (before, rest) = answer.split_at(GUARD);
    let (answer, behind) = rest.split_at(length);
    match before.iter().chain(behind).all(|number| *number == UNTOUCHED) {
        true => Ok(Outcome { returned, answer: answer.to_vec() }),
        false => Err("numbers beside the answer were touched".to_string()),
    }
}

/// The proved library.
pub struct Library;

impl Side for Library {
    fn enter(&self, paper: &Paper, file_number: u64, owner: u64, lent: Lent) -> Result<Outcome, String> {
        let (file, rows, book, taken) = (&paper.bytes, lent.rows, lent.book, lent.taken);
        // SAFETY: each pointer goes with its slice's own length, and the answer holds more than the numbers the call fills.
        outcome(ENTER_ANSWER, |answer| unsafe {
            let (file_at, rows_at) = (file.as_ptr(), rows.as_mut_ptr());
            let (book_at, taken_at) = (book.as_mut_ptr(), taken.as_mut_ptr());
            let (book_len, taken_len) = (book.len(), taken.len());
            x9_book_enter(
                file_at,
                file.len(),
                file_number,
                owner,
                rows_at,
                rows.len(),
                book_at,
                book_len,
                taken_at,
                taken_len,
                answer,
            )
        })
    }

    fn find(&self, owner: u64, entry_number: u64, lent: Lent) -> Result<Outcome, String> {
        let book = lent.book;
        // SAFETY: as above. The pointer is one that may be written through, so that a call that does is told as a difference.
        outcome(FIND_ANSWER, |found| unsafe { x9_book_find(book.as_mut_ptr(), book.len(), owner, entry_number, found) })
    }

    fn totals(&self, owner: u64, lent: Lent) -> Result<Outcome, String> {
        let book = lent.book;
        // SAFETY: as above.
        outcome(TOTALS_ANSWER, |totals| unsafe { x9_book_totals(book.as_mut_ptr(), book.len(), owner, totals) })
    }

    fn withdraw(&self, owner: u64, entry_number: u64, lent: Lent) -> Result<Outcome, String> {
        let (book, taken) = (lent.book, lent.taken);
        // SAFETY: as above; the list's pointer too is one that may be written through.
        Ok(Outcome::bare(unsafe {
            let taken_at = taken.as_mut_ptr();
            x9_book_withdraw(book.as_mut_ptr(), book.len(), taken_at, taken.len(), owner, entry_number)
        }))
    }

    fn tidy(&self, lent: Lent) -> Result<Outcome, String> {
        let (book, taken) = (lent.book, lent.taken);
        // SAFETY: as above.
        Ok(Outcome::bare(unsafe { x9_book_tidy(book.as_mut_ptr(), book.len(), taken.as_mut_ptr(), taken.len()) }))
    }
}
