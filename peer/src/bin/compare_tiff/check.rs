//! Counts, the sweep over an image, and the shrinking of one on which the sides differ.

use peer_tiff::judge::{Verdict, ACCEPTED};

use proved::images::differs;
use proved::Difference;

/// Larger images are neither swept over nor made smaller.
pub const SMALL: usize = 1_000;

/// Counts of what was put to both sides.
#[derive(Clone, Copy, Default)]
pub struct Counts {
    pub images: u64,
    pub accepted: u64,
    pub bytes: u64,
    /// Images made from others by sweeps.
    pub swept: u64,
}

impl Counts {
    pub fn note(&mut self, image: &[u8], verdict: &Verdict) {
        self.images += 1;
        self.accepted += u64::from(verdict.number == ACCEPTED);
        self.bytes += image.len() as u64;
    }

    pub fn add(&mut self, other: &Counts) {
        self.images += other.images;
        self.accepted += other.accepted;
        self.bytes += other.bytes;
        self.swept += other.swept;
    }

    pub fn in_words(&self) -> String {
        format!(
            "{} images ({} accepted), {} bytes, {} more by sweeps",
            self.images, self.accepted, self.bytes, self.swept
        )
    }
}

/// Every length of an image, and every byte value at every place: the first that differs, and how.
pub fn sweep(image: &[u8], counts: &mut Counts) -> Option<(Vec<u8>, Difference)> {
    for length in 0..image.len() {
        counts.swept += 1;
        if let Some(difference) = differs(&image[..length]) {
            return Some((image[..length].to_vec(), difference));
        }
    }
    let mut other = image.to_vec();
    for place in 0..image.len() {
        for byte in 0..=255 {
            other[place] = byte;
            counts.swept += 1;
            if let Some(difference) = differs(&other) {
                return Some((other, difference));
            }
        }
        other[place] = image[place];
    }
    None
}

/// A smaller image that still differs, and how: its end cut off, bytes made 0.
pub fn shrink(image: &[u8], difference: &str) -> (Vec<u8>, Difference) {
    let mut best = (image.to_vec(), difference.to_string());
    if image.len() > SMALL {
        return best;
    }
    while let Some(still) = best.0.split_last().and_then(|(_, shorter)| differs(shorter)) {
        best.0.pop();
        best.1 = still;
    }
    for place in 0..best.0.len() {
        let byte = std::mem::replace(&mut best.0[place], 0);
        match differs(&best.0) {
            Some(still) => best.1 = still,
            None => best.0[place] = byte,
        }
    }
    best
}
