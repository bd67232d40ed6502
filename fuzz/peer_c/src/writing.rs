//! The independent writer behind C calls.

use std::slice::{from_raw_parts, from_raw_parts_mut};

use peer_reader::descent::{Answer, Number, LISTED};
use peer_writer::draft::draft_of;
use peer_writer::promises::{as_the_reader_would, written_is_accepted};
use peer_writer::write::{judge, write};

/// # Safety
/// `answer` points to twelve numbers.
unsafe fn give(given: Answer, answer: *mut u64) -> u64 {
    from_raw_parts_mut(answer, LISTED).copy_from_slice(&given.listed());
    given.number as u64
}

/// A slice of C, whose pointer may be null where it has no element.
///
/// # Safety
/// `at` points to `len` elements.
pub unsafe fn lent<'a, T>(at: *const T, len: usize) -> &'a [T] {
    match len {
        0 => &[],
        _ => from_raw_parts(at, len),
    }
}

/// Writes a draft into a buffer.
///
/// # Safety
/// `text` points to `text_len` bytes, `draft` to `draft_len` numbers, `out` to `out_len` bytes, `answer` to twelve numbers.
#[no_mangle]
pub unsafe extern "C" fn peer_write(
    text: *const u8,
    text_len: usize,
    draft: *const u64,
    draft_len: usize,
    out: *mut u8,
    out_len: usize,
    answer: *mut u64,
) -> u64 {
    give(write(lent(text, text_len), lent(draft, draft_len), from_raw_parts_mut(out, out_len)), answer)
}

/// The draft of a file.
///
/// # Safety
/// `file` points to `len` bytes, `draft` to `draft_len` numbers, `answer` to twelve numbers.
#[no_mangle]
pub unsafe extern "C" fn peer_draft(
    file: *const u8,
    len: usize,
    draft: *mut u64,
    draft_len: usize,
    answer: *mut u64,
) -> u64 {
    give(draft_of(lent(file, len), from_raw_parts_mut(draft, draft_len)), answer)
}

/// Whether the promises of reading 44 and the statement of reading 43 hold of a draft: of the answer that both sides give, and, where it is written,
/// of what is. What does not hold is told on standard error.
///
/// # Safety
/// `text` points to `text_len` bytes, `draft` to `draft_len` numbers, `file` to `len` bytes.
#[no_mangle]
pub unsafe extern "C" fn peer_keeps_promises(
    text: *const u8,
    text_len: usize,
    draft: *const u64,
    draft_len: usize,
    file: *const u8,
    len: usize,
) -> i32 {
    let (text, numbers) = (lent(text, text_len), lent(draft, draft_len));
    let answer = judge(text, numbers).answer;
    let kept = as_the_reader_would(text, numbers, &answer).and_then(|_| match answer.number {
        Number::Accepted => written_is_accepted(text, numbers, &answer, lent(file, len)),
        _ => Ok(()),
    });
    if let Err(words) = &kept {
        eprintln!("  {words}");
    }
    i32::from(kept.is_ok())
}
