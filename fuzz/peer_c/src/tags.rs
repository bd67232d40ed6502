//! The independent judge of tags behind a C call.

use std::slice::{from_raw_parts, from_raw_parts_mut};

use peer_tiff::faults::opinion;
use peer_tiff::judge::{examine, Why};

/// Judges an image: number, tag, and what the answer rests on, as a number of its own for the guidance.
///
/// # Safety
/// `image` points to `len` bytes, `answer` to three numbers.
#[no_mangle]
pub unsafe extern "C" fn peer_tags(image: *const u8, len: usize, answer: *mut u64) -> u64 {
    let image = if len == 0 { &[] } else { from_raw_parts(image, len) };
    let verdict = examine(image);
    let tag = u64::from(verdict.tag);
    assert_eq!(opinion(image), (verdict.number, tag), "the second opinion is another");
    from_raw_parts_mut(answer, 3).copy_from_slice(&[verdict.number, tag, ground(verdict.why)]);
    verdict.number
}

/// Below 32. The first values outside are told apart.
fn ground(why: Why) -> u64 {
    match why {
        Why::Sound => 0,
        Why::Short => 1,
        Why::Mark => 2,
        Why::FortyTwo => 3,
        Why::DirectoryCount => 4,
        Why::Directory => 5,
        Why::Strip => 6,
        Why::Order => 7,
        Why::Absent => 8,
        Why::Type => 9,
        Why::Count => 10,
        Why::Value => 11,
        Why::Denominator => 12,
        Why::Ratio => 13,
        Why::UnlikeX => 14,
        Why::SameOffset => 15,
        Why::ValueOf(index) => 16 + index.min(15) as u64,
    }
}
