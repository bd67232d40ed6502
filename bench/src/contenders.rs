//! What is timed: the proved library, the independent reader and writer, a plain walk of memory, a plain copy.

use std::alloc::{GlobalAlloc, Layout, System};
use std::sync::atomic::{AtomicU64, Ordering::Relaxed};

use peer_reader::charset::{Set, Text};
use peer_reader::descent::{self, LISTED};
use peer_reader::judge::number_in;
use peer_writer::draft::draft_of;
use peer_writer::write::write;

/// The numbers of an answer.
pub type Answer = [u64; LISTED];

extern "C" {
    fn x9_read(file: *const u8, file_len: usize, table: *mut u64, table_len: usize, answer: *mut Answer) -> u64;
    fn x9_write(
        text: *const u8,
        text_len: usize,
        draft: *const u64,
        draft_len: usize,
        out: *mut u8,
        out_len: usize,
        answer: *mut Answer,
    ) -> u64;
    fn x9_draft(file: *const u8, file_len: usize, draft: *mut u64, draft_len: usize, answer: *mut Answer) -> u64;
    fn x9_salvage(
        file: *const u8,
        file_len: usize,
        out: *mut u8,
        out_len: usize,
        list: *mut u64,
        list_len: usize,
        answer: *mut Answer,
    ) -> u64;
}

/// The proved library.
pub fn proved(file: &[u8], table: &mut [u64]) -> Answer {
    let mut answer = [u64::MAX; LISTED];
    // SAFETY: each pointer goes with its slice's own length, and the answer holds the twelve numbers the call fills.
    let number = unsafe { x9_read(file.as_ptr(), file.len(), table.as_mut_ptr(), table.len(), &mut answer) };
    assert_eq!(number, answer[0]);
    answer
}

/// The independent reader, which fills the lent table from rows it has allocated.
pub fn independent(file: &[u8], table: &mut [u64]) -> Answer {
    descent::read_into(file, table).listed()
}

/// The proved library writes a draft into a buffer.
pub fn proved_writing(text: &[u8], draft: &[u64], out: &mut [u8]) -> Answer {
    let mut answer = [u64::MAX; LISTED];
    // SAFETY: each pointer goes with its slice's own length, and the answer holds the twelve numbers the call fills.
    let number = unsafe {
        let (text_at, draft_at, out_at) = (text.as_ptr(), draft.as_ptr(), out.as_mut_ptr());
        x9_write(text_at, text.len(), draft_at, draft.len(), out_at, out.len(), &mut answer)
    };
    assert_eq!(number, answer[0]);
    answer
}

/// The independent writer.
pub fn independent_writing(text: &[u8], draft: &[u64], out: &mut [u8]) -> Answer {
    write(text, draft, out).listed()
}

/// The bytes of the text into the buffer, which is as long, and nothing else.
pub fn copying(text: &[u8], _: &[u64], out: &mut [u8]) -> Answer {
    out.copy_from_slice(text);
    [0; LISTED]
}

/// The proved library makes the draft of a file.
pub fn proved_draft(file: &[u8], draft: &mut [u64]) -> Answer {
    let mut answer = [u64::MAX; LISTED];
    // SAFETY: each pointer goes with its slice's own length, and the answer holds the twelve numbers the call fills.
    let number = unsafe { x9_draft(file.as_ptr(), file.len(), draft.as_mut_ptr(), draft.len(), &mut answer) };
    assert_eq!(number, answer[0]);
    answer
}

/// The independent one, from rows it has allocated.
pub fn independent_draft(file: &[u8], draft: &mut [u64]) -> Answer {
    draft_of(file, draft).listed()
}

/// The proved library salvages a file into a buffer and a list.
pub fn proved_salvage(file: &[u8], out: &mut [u8], list: &mut [u64]) -> Answer {
    let mut answer = [u64::MAX; LISTED];
    // SAFETY: each pointer goes with its slice's own length, and the answer holds the twelve numbers the call fills.
    let number = unsafe {
        let (file_at, out_at, list_at) = (file.as_ptr(), out.as_mut_ptr(), list.as_mut_ptr());
        x9_salvage(file_at, file.len(), out_at, out.len(), list_at, list.len(), &mut answer)
    };
    assert_eq!(number, answer[0]);
    answer
}

/// Walks the lengths and adds up every byte of the records but the Image Data of the 52s. Nothing is judged.
pub fn walk(file: &[u8], _: &mut [u64]) -> Answer {
    let add = |bytes: &[u8]| bytes.iter().fold(0, |sum: u64, byte| sum.wrapping_add(u64::from(*byte)));
    let (mut left, mut sum, mut records) = (file, 0u64, 0);
    let set = Set::by_library(file);
    let name = [set.byte(b'5'), set.byte(b'2')];
    while let Some((length, rest)) = left.split_first_chunk() {
        let (body, rest) = rest.split_at(u32::from_be_bytes(*length) as usize);
        left = rest;
        records += 1;
        let picture = if body.starts_with(&name) { image_data(set, body) } else { body.len()..body.len() };
        sum = sum.wrapping_add(add(&body[..picture.start])).wrapping_add(add(&body[picture.end..]));
    }
    let mut answer = [0; LISTED];
    (answer[0], answer[1]) = (sum, records);
    answer
}

/// Clause 22: fields 15 to 19, at positions 104 to 127, size the parts before the picture; field 20, 128 to 134, sizes it.
fn image_data(set: Set, body: &[u8]) -> std::ops::Range<usize> {
    let number = |first: usize, last: usize| number_in(Text::new(set, &body[first - 1..last])) as usize;
    let before = number(104, 107) + number(108, 112) + number(113, 117) + number(118, 122) + number(123, 127);
    let start = 139 + before;
    start..start + number(128, 134)
}

/// The system's allocator, counted.
pub struct Counted;

static CALLS: AtomicU64 = AtomicU64::new(0);
static BYTES: AtomicU64 = AtomicU64::new(0);

fn count(bytes: usize) {
    CALLS.fetch_add(1, Relaxed);
    BYTES.fetch_add(bytes as u64, Relaxed);
}

// SAFETY: every call is handed on unchanged.
unsafe impl GlobalAlloc for Counted {
    unsafe fn alloc(&self, layout: Layout) -> *mut u8 {
        count(layout.size());
        System.alloc(layout)
    }
    unsafe fn dealloc(&self, at: *mut u8, layout: Layout) {
        System.dealloc(at, layout)
    }
    unsafe fn realloc(&self, at: *mut u8, layout: Layout, size: usize) -> *mut u8 {
        count(size);
        System.realloc(at, layout, size)
    }
}

/// The allocations, and their bytes, that a piece of work asks for.
pub fn allocations(work: impl FnOnce()) -> (u64, u64) {
    let before = (CALLS.load(Relaxed), BYTES.load(Relaxed));
    work();
    (CALLS.load(Relaxed) - before.0, BYTES.load(Relaxed) - before.1)
}
