//! The calls of the proved library, as `include/x9180.h` declares them. All unsafe code of the tests is here.

use crate::ebcdic::Set;
use crate::judge::Answer;

extern "C" {
    fn x9_picture(file: *const u8, file_len: usize, offset: u64, place: *mut u64) -> u64;
    fn x9_read(file: *const u8, file_len: usize, table: *mut u64, table_len: usize, answer: *mut u64) -> u64;
    fn x9_read_slowly(file: *const u8, file_len: usize, table: *mut u64, table_len: usize, answer: *mut u64) -> u64;
    fn x9_record(record: *const u8, record_len: usize, answer: *mut u64) -> u64;
    fn x9_record_in(record: *const u8, record_len: usize, set: u64, answer: *mut u64) -> u64;
}

/// Stands in every slot before a call: the slots lent must change, the one before and the one after must not.
const GUARD: u64 = 0xA5A5_5A5A_C3C3_3C3C;

/// A call that reads a whole file.
type Reading = unsafe extern "C" fn(*const u8, usize, *mut u64, usize, *mut u64) -> u64;

/// Reads a file into a table: the twelve numbers.
pub fn read(file: &[u8], table: &mut [u64]) -> [u64; 12] {
    read_by(x9_read, file, table)
}

/// The same by the slow reader.
pub fn read_slowly(file: &[u8], table: &mut [u64]) -> [u64; 12] {
    read_by(x9_read_slowly, file, table)
}

fn read_by(call: Reading, file: &[u8], table: &mut [u64]) -> [u64; 12] {
    let mut slots = [GUARD; 14];
    let answer = slots[1..13].as_mut_ptr();
    // SAFETY: the bytes and the table are lent for the call, each with its own length, and twelve slots follow the pointer.
    let number = unsafe { call(file.as_ptr(), file.len(), table.as_mut_ptr(), table.len(), answer) };
    assert_eq!([slots[0], slots[13]], [GUARD; 2], "a reading wrote beside its answer");
    assert_eq!(number, slots[1], "a reading returns one number and writes another");
    slots[1..13].try_into().expect("twelve slots")
}

/// Judges one record alone.
pub fn record(body: &[u8]) -> Answer {
    let mut slots = [GUARD; 4];
    // SAFETY: the bytes are lent for the call, and two slots follow the pointer.
    let number = unsafe { x9_record(body.as_ptr(), body.len(), slots[1..3].as_mut_ptr()) };
    assert_eq!([slots[0], slots[3]], [GUARD; 2], "x9_record wrote beside its answer");
    assert_eq!(number, slots[1], "x9_record returns one number and writes another");
    Answer { number, field: slots[2] }
}

/// Judges one record of this set alone (reading 39). Inlined, so that the call is linked only where EBCDIC is carried.
#[inline(always)]
pub fn record_in(body: &[u8], set: Set) -> Answer {
    let mut slots = [GUARD; 4];
    let set = match set {
        Set::Ascii => 0,
        Set::Ebcdic => 1,
    };
    // SAFETY: the bytes are lent for the call, and two slots follow the pointer.
    let number = unsafe { x9_record_in(body.as_ptr(), body.len(), set, slots[1..3].as_mut_ptr()) };
    assert_eq!([slots[0], slots[3]], [GUARD; 2], "x9_record_in wrote beside its answer");
    assert_eq!(number, slots[1], "x9_record_in returns one number and writes another");
    Answer { number, field: slots[2] }
}

/// Judges the record whose length field stands at `offset`: number, field, start and length of the image.
pub fn picture(file: &[u8], offset: u64) -> [u64; 4] {
    let mut slots = [GUARD; 6];
    // SAFETY: the bytes are lent for the call, and four slots follow the pointer.
    let number = unsafe { x9_picture(file.as_ptr(), file.len(), offset, slots[1..5].as_mut_ptr()) };
    assert_eq!([slots[0], slots[5]], [GUARD; 2], "x9_picture wrote beside its place");
    assert_eq!(number, slots[1], "x9_picture returns one number and writes another");
    [slots[1], slots[2], slots[3], slots[4]]
}
