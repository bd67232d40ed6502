//! One image put to both sides (request 13).

use peer_tiff::judge::{examine, Verdict};

use crate::amid::{amid, within};
use crate::{abi, Difference};

/// What stands before and behind an image, by its length: zeros, and bytes that a tag, a type or an offset may be read from.
const AROUND: [u8; 4] = [0x00, 0x01, 0x2A, 0xFF];

/// How the two sides differ on an image, if they do.
pub fn differs(image: &[u8]) -> Option<Difference> {
    let Verdict { number, tag, why } = examine(image);
    let expected = [number, u64::from(tag)];
    let image_amid = amid(image, AROUND[image.len() % AROUND.len()]);
    match abi::tiff(within(&image_amid)) {
        Ok((returned, answer)) if returned == number && answer == expected => None,
        Ok((returned, answer)) => Some(format!(
            "\n  proved      returns {returned}, answer {answer:?}\n  independent answer {expected:?} ({why:?})"
        )),
        Err(words) => Some(words),
    }
}
