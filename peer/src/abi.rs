//! The proved library's calls, as `include/x9180.h` declares them.

use peer_reader::descent::LISTED;

extern "C" {
    fn x9_read(file: *const u8, file_len: usize, table: *mut u64, table_len: usize, answer: *mut u64) -> u64;
    fn x9_read_slowly(file: *const u8, file_len: usize, table: *mut u64, table_len: usize, answer: *mut u64) -> u64;
    fn x9_picture(file: *const u8, file_len: usize, offset: u64, place: *mut u64) -> u64;
    fn x9_write(
        text: *const u8,
        text_len: usize,
        draft: *const u64,
        draft_len: usize,
        out: *mut u8,
        out_len: usize,
        answer: *mut u64,
    ) -> u64;
    fn x9_draft(file: *const u8, file_len: usize, draft: *mut u64, draft_len: usize, answer: *mut u64) -> u64;
    fn x9_tiff(image: *const u8, image_len: usize, answer: *mut u64) -> u64;
}

#[cfg(feature = "salvage")]
extern "C" {
    fn x9_salvage(
        file: *const u8,
        file_len: usize,
        out: *mut u8,
        out_len: usize,
        list: *mut u64,
        list_len: usize,
        answer: *mut u64,
    ) -> u64;
}

/// What an answer holds before a call.
const UNTOUCHED: u64 = 0xA5A5_A5A5_A5A5_A5A5;

/// Numbers behind the answer that no call may touch.
const GUARD: usize = 4;

/// What comes back: the number returned, and the twelve of the answer.
pub type Listed = (u64, [u64; LISTED]);

/// The answer without its guard.
fn unguarded<const NUMBERS: usize>(number: u64, answer: &[u64]) -> Result<(u64, [u64; NUMBERS]), String> {
    let (answer, guard) = answer.split_at(NUMBERS);
    match guard.iter().all(|number| *number == UNTOUCHED) {
        true => Ok((number, answer.try_into().expect("so many numbers"))),
        false => Err("numbers behind the answer were touched".to_string()),
    }
}

/// Reads a file into a table.
pub fn read(file: &[u8], table: &mut [u64]) -> Result<Listed, String> {
    let mut answer = [UNTOUCHED; LISTED + GUARD];
    // SAFETY: each pointer goes with its slice's own length, and the answer holds more than the twelve numbers the call fills.
    let number = unsafe { x9_read(file.as_ptr(), file.len(), table.as_mut_ptr(), table.len(), answer.as_mut_ptr()) };
    unguarded(number, &answer)
}

/// The same by the slow reader.
pub fn read_slowly(file: &[u8], table: &mut [u64]) -> Result<Listed, String> {
    let mut answer = [UNTOUCHED; LISTED + GUARD];
    // SAFETY: as in `read`.
    let number =
        unsafe { x9_read_slowly(file.as_ptr(), file.len(), table.as_mut_ptr(), table.len(), answer.as_mut_ptr()) };
    unguarded(number, &answer)
}

/// Finds the picture at an offset; gives the number that comes back and the place.
pub fn picture(file: &[u8], offset: u64) -> (u64, [u64; 4]) {
    let mut place = [UNTOUCHED; 4];
    // SAFETY: the pointer goes with its slice's own length, and the place holds the four numbers the call fills.
    let number = unsafe { x9_picture(file.as_ptr(), file.len(), offset, place.as_mut_ptr()) };
    (number, place)
}

/// Writes a draft into a buffer.
pub fn write(text: &[u8], draft: &[u64], out: &mut [u8]) -> Result<Listed, String> {
    let mut answer = [UNTOUCHED; LISTED + GUARD];
    // SAFETY: each pointer goes with its slice's own length, and the answer holds more than the twelve numbers the call fills.
    let number = unsafe {
        let (text_at, draft_at, out_at) = (text.as_ptr(), draft.as_ptr(), out.as_mut_ptr());
        x9_write(text_at, text.len(), draft_at, draft.len(), out_at, out.len(), answer.as_mut_ptr())
    };
    unguarded(number, &answer)
}

/// Makes the draft of a file.
pub fn draft_of(file: &[u8], draft: &mut [u64]) -> Result<Listed, String> {
    let mut answer = [UNTOUCHED; LISTED + GUARD];
    // SAFETY: each pointer goes with its slice's own length, and the answer holds more than the twelve numbers the call fills.
    let number = unsafe { x9_draft(file.as_ptr(), file.len(), draft.as_mut_ptr(), draft.len(), answer.as_mut_ptr()) };
    unguarded(number, &answer)
}

/// Judges the tags of an image.
pub fn tiff(image: &[u8]) -> Result<(u64, [u64; 2]), String> {
    let mut answer = [UNTOUCHED; 2 + GUARD];
    // SAFETY: the pointer goes with its slice's own length, and the answer holds more than the two numbers the call fills.
    let number = unsafe { x9_tiff(image.as_ptr(), image.len(), answer.as_mut_ptr()) };
    unguarded(number, &answer)
}

/// Salvages a file into a buffer and a list.
#[cfg(feature = "salvage")]
pub fn salvage(file: &[u8], out: &mut [u8], list: &mut [u64]) -> Result<Listed, String> {
    let mut answer = [UNTOUCHED; LISTED + GUARD];
    // SAFETY: each pointer goes with its slice's own length, and the answer holds more than the twelve numbers the call fills.
    let number = unsafe {
        let (file_at, out_at, list_at) = (file.as_ptr(), out.as_mut_ptr(), list.as_mut_ptr());
        x9_salvage(file_at, file.len(), out_at, out.len(), list_at, list.len(), answer.as_mut_ptr())
    };
    unguarded(number, &answer)
}
