//! Files at the limits, worked out by hand. All but the last take some 256 megabytes and as much again a few times over: run them alone,
//! `cargo test --release --offline --locked -p peer_salvage --test large -- --ignored --test-threads 1`.

use peer_reader::descent::LARGEST;
use peer_salvage::large::large;
use peer_salvage::salvage::{outcome, Answer, Outcome};

fn found(sort: usize, shape: &str) -> Outcome {
    let made = large(sort);
    assert_eq!(made.shape, shape);
    outcome(&made.bytes)
}

fn refused(number: u64, record: u64, field: u64, offset: u64) -> Answer {
    [number, record, field, offset, 0, 0, 0, 0, 0, 0, 0, 0]
}

/// 01, 10, 20, 25, 27 views of two records, 70, 90, 99 are 61 records.
#[test]
#[ignore = "a gigabyte"]
fn the_limit_of_bytes() {
    assert_eq!(found(0, "a byte above the limit").answer, refused(1, 0, 0, 0));
    let written = found(1, "written to the limit");
    assert_eq!(written.answer, [0, 61, 0, LARGEST, 61, 1, 1, 1, 27, 7, 0, 0]);
    assert_eq!((written.file.len() as u64, written.list.len()), (LARGEST, 59));
    assert_eq!(found(2, "written a byte above the limit").answer, refused(1, 0, 0, 0));
}

/// A letter is 84 bytes of a 10 and 89 of its 90; six digits of 99.2 count 999,999 of them.
#[test]
#[ignore = "a gigabyte"]
fn the_limit_of_letters() {
    let written = found(3, "999,999 letters").answer;
    assert_eq!(written, [0, 2_000_000, 0, 84 + 999_999 * 173 + 84, 2_000_000, 999_999, 0, 0, 0, 0, 0, 0]);
    assert_eq!(found(4, "1,000,000 letters").answer, refused(9, 2_000_002, 2, 84 + 173_000_000));
}

/// A bundle of a 20, a 61 and a 70 is 84 + 88 + 84 = 256 bytes; six digits of 90.2 count 999,999 of them.
#[test]
#[ignore = "a gigabyte"]
fn the_limit_of_bundles() {
    let written = found(5, "999,999 bundles").answer;
    let bytes = 168 + 999_999 * 256 + 89 + 84;
    assert_eq!(written, [0, 3_000_001, 0, bytes, 3_000_001, 1, 999_999, 999_999, 0, 0, 999_999, 999_999]);
    assert_eq!(found(6, "1,000,000 bundles").answer, refused(9, 3_000_003, 2, 168 + 256_000_000));
}

/// Linear time, however many 20s stand without a 70.
#[test]
#[ignore = "a gigabyte"]
fn three_million_20s() {
    let written = found(7, "20s without a 70");
    assert_eq!(written.answer, [0, 4, 0, 341, 4, 1, 0, 0, 0, 0, 0, 0]);
    assert_eq!(written.list.len(), 3_000_002);
    assert!(written.list[2..].iter().all(|row| row[1..] == [20, 2, 6]));
    assert_eq!(written.list[3_000_001][0], 168 + 84 * 2_999_999);
}

/// 184,468 61s come to more than 2^64 cents: TOTAL at 90.9, behind 168 bytes and 184,468 times 88.
#[test]
fn credits_past_64_bits() {
    assert_eq!(found(8, "61s past 64 bits").answer, refused(9, 184_471, 9, 168 + 184_468 * 88));
}
