//! Files at the limits, too large for the stream.

use peer_reader::brim::{letter_past_64_bits, Stated};
use peer_reader::descent::LARGEST;
use peer_reader::plain::{self, NOT_STATED};
use peer_reader::random::Random;

use crate::generate::Made;

/// How many sorts there are.
pub const SORTS: usize = 9;

/// The file of a sort, up to some 256 megabytes.
pub fn large(sort: usize) -> Made {
    let (shape, bytes) = match sort {
        0 => ("a byte above the limit", vec![0; LARGEST as usize + 1]),
        1 => ("written to the limit", torn_to(LARGEST as usize)),
        2 => ("written a byte above the limit", torn_to(LARGEST as usize + 1)),
        3 => ("999,999 letters", letters(999_999)),
        4 => ("1,000,000 letters", letters(1_000_000)),
        5 => ("999,999 bundles", bundles(999_999)),
        6 => ("1,000,000 bundles", bundles(1_000_000)),
        7 => ("20s without a 70", headers(3_000_000)),
        _ => ("61s past 64 bits", letter_past_64_bits(&mut Random::new(11), false, Stated::Cut)),
    };
    Made { shape, bytes }
}

/// The bytes of this record, so many times.
fn times(record: &[u8], count: usize) -> Vec<u8> {
    plain::file(&[record.to_vec()]).repeat(count)
}

fn begin(content: char) -> Vec<u8> {
    plain::file(&[plain::file_header(), plain::letter_header(content)])
}

/// One bundle of one check with 27 views, without the 90 and the 99, whose 89 and 84 bytes make the file written as long as this.
fn torn_to(written: usize) -> Vec<u8> {
    const LARGE_IMAGE: usize = 9_999_999;
    const LARGE_VIEW: usize = 84 + 143 + LARGE_IMAGE;
    let mut bytes = begin('I');
    bytes.extend(plain::file(&[plain::bundle_header(), plain::check(7, ' ', 0)]));
    let view = |length: usize| plain::file(&[plain::view_detail('0'), plain::view_data(&vec![0x49; length])]);
    let rest = written - 26 * LARGE_VIEW - (5 * 84 + 89 + 84) - (84 + 143);
    (0..26).for_each(|_| bytes.extend(view(LARGE_IMAGE)));
    bytes.extend(view(rest));
    bytes.extend(plain::file(&[plain::bundle_control(1, 7, NOT_STATED, 27)]));
    bytes
}

/// So many letters of N, each a 10 alone.
fn letters(count: usize) -> Vec<u8> {
    let first = plain::file(&[plain::file_header()]);
    [first, times(&plain::letter_header('N'), count)].concat()
}

/// So many bundles of one 61 each in a letter of E.
fn bundles(count: usize) -> Vec<u8> {
    let control = plain::bundle_sums((0, 0), NOT_STATED, 0, (1, 1));
    let bundle = plain::file(&[plain::bundle_header(), plain::credit('1', 1), control]);
    [begin('E'), bundle.repeat(count)].concat()
}

/// So many 20s in a letter of N.
fn headers(count: usize) -> Vec<u8> {
    [begin('N'), times(&plain::bundle_header(), count)].concat()
}
