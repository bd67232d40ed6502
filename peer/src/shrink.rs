//! Makes a differing file smaller while the two sides still differ.

use peer_reader::descent::split_record;

use crate::Difference;

/// Larger files are left as they are.
const MOST: usize = 200_000;

/// Drops whole records, then the tail, while a difference stays.
pub fn shrink(file: &[u8], difference: &str, differs: impl Fn(&[u8]) -> Option<Difference>) -> (Vec<u8>, Difference) {
    let mut best = (file.to_vec(), difference.to_string());
    if file.len() > MOST {
        return best;
    }
    let mut shorter = true;
    while shorter {
        shorter = false;
        let pieces = pieces(&best.0);
        for (start, end) in pieces.into_iter().rev() {
            if end > best.0.len() || start >= end {
                continue;
            }
            let without = [&best.0[..start], &best.0[end..]].concat();
            if let Some(still) = differs(&without) {
                best = (without, still);
                shorter = true;
            }
        }
    }
    best
}

/// The records by their lengths, and what is left at the end.
fn pieces(file: &[u8]) -> Vec<(usize, usize)> {
    let mut pieces = Vec::new();
    let mut at = 0;
    while let Some(body) = split_record(&file[at..]) {
        pieces.push((at, at + 4 + body.len()));
        at += 4 + body.len();
    }
    pieces.push((at, file.len()));
    pieces
}
