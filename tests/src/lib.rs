//! The test side of the reader of X9.100-180 records.
//!
//! `judge` is an independent judge of one record alone, written from documents 01 and 001 and driven by
//! `fields.tsv`. `generate` makes sound records and `compose` puts chosen contents into them; `edges` has what stands on
//! both sides of each edge of a field's rule, and `routing` which contents pass in a routing field. `ffi` calls the proved library. The tests
//! compare the two. `characters` has Tables 1 and 2 of the standard and the page for staff.
//!
//! `cargo test --release`, with the library's folder in `X9180_LIB_DIR` (default `../target/library`).

pub mod characters;
pub mod compose;
pub mod ebcdic;
pub mod edges;
pub mod ffi;
pub mod generate;
pub mod judge;
pub mod random;
pub mod routing;
pub mod table;

use judge::Answer;
use std::io::Write;
use table::Table;

/// Asks both judges about one record. They must agree; the common answer comes back.
pub fn agreed(table: &Table, body: &[u8]) -> Answer {
    let expected = judge::record(table, body);
    let found = ffi::record(body);
    assert_eq!(
        found,
        expected,
        "library and judge differ on a record of {} bytes: {}",
        body.len(),
        body.escape_ascii()
    );
    expected
}

/// Prints a line of what was compared. It is written past the capture of the test runner, so that it is always seen.
pub fn report(line: &str) {
    writeln!(std::io::stdout(), "    {line}").expect("standard output takes a line");
}
