//! The independent reader, the independent writer, the independent judge of tags, the independent day book and the independent salvage behind C calls, for the
//! fuzz targets.

mod daybook;
pub mod drafts;
pub mod histories;
mod images;
mod mutate;
mod repair;
mod tags;
mod tearing;
mod writing;

use std::slice::{from_raw_parts, from_raw_parts_mut};

use peer_reader::charset::Set;
use peer_reader::descent::{read_in, Number, Reading, LISTED};
use peer_reader::judge::{self, Flaw};
use peer_reader::layout::{carried_in, layout};
use peer_reader::picture::picture_in;

/// Reads a file once; the reading is then asked for any number of tables.
///
/// # Safety
/// `file` points to `len` bytes.
#[no_mangle]
pub unsafe extern "C" fn peer_open(file: *const u8, len: usize) -> *mut Reading {
    let file = from_raw_parts(file, len);
    Box::into_raw(Box::new(read_in(Set::by_library(file), file)))
}

/// # Safety
/// `reading` came from `peer_open` and is not used again.
#[no_mangle]
pub unsafe extern "C" fn peer_close(reading: *mut Reading) {
    drop(Box::from_raw(reading));
}

/// The rows that an accepted file has; 0 for a refused one.
///
/// # Safety
/// `reading` came from `peer_open`.
#[no_mangle]
pub unsafe extern "C" fn peer_rows(reading: *const Reading) -> usize {
    (*reading).rows.len()
}

/// The answer for a lent table, and the table as it is to be left.
///
/// # Safety
/// `reading` came from `peer_open`; `table` points to `len` numbers, `answer` to twelve.
#[no_mangle]
pub unsafe extern "C" fn peer_fill(reading: *const Reading, table: *mut u64, len: usize, answer: *mut u64) -> u64 {
    let filled = (*reading).fill(from_raw_parts_mut(table, len));
    from_raw_parts_mut(answer, LISTED).copy_from_slice(&filled.listed());
    filled.number as u64
}

/// # Safety
/// `file` points to `len` bytes, `place` to four numbers.
#[no_mangle]
pub unsafe extern "C" fn peer_picture(file: *const u8, len: usize, offset: u64, place: *mut u64) -> u64 {
    let file = from_raw_parts(file, len);
    let found = picture_in(Set::by_library(file), file, offset);
    from_raw_parts_mut(place, 4).copy_from_slice(&found.listed());
    found.number as u64
}

/// One record judged alone, in EBCDIC if the set is 1, otherwise in ASCII: LENGTH below 2, TYPE, then the record's own checks.
///
/// # Safety
/// `body` points to `len` bytes, `answer` to two numbers.
#[no_mangle]
pub unsafe extern "C" fn peer_record(body: *const u8, len: usize, set: u64, answer: *mut u64) -> u64 {
    let body = from_raw_parts(body, len);
    let (number, field) = judged(if set == 1 { Set::Ebcdic } else { Set::Ascii }, body);
    from_raw_parts_mut(answer, 2).copy_from_slice(&[number as u64, u64::from(field)]);
    number as u64
}

fn judged(set: Set, body: &[u8]) -> (Number, u8) {
    if body.len() < 2 {
        return (Number::Length, 0);
    }
    let Some(code) = carried_in(set, &body[..2]) else {
        return (Number::Type, 0);
    };
    match judge::record_in(set, layout(code), body) {
        Ok(()) => (Number::Accepted, 0),
        Err(Flaw::Length) => (Number::Length, 0),
        Err(Flaw::Field(field)) => (Number::Field, field),
    }
}
