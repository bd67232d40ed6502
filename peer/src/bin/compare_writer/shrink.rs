//! Makes a draft that differs smaller, as long as it still differs.

use peer_reader::random::Random;

use peer_writer::draft::ROW;
use peer_writer::points::Tally;
use peer_writer::sheet::Made;

use proved::Difference;

use crate::check::{check_draft, Counts};

/// Larger drafts are saved as they are.
const SMALL: usize = 3_000;

/// So many rows are left out at once: cash letters, bundles, items, views, and at last single rows.
const RUNS: [usize; 9] = [128, 64, 32, 16, 8, 4, 3, 2, 1];

/// A smaller draft that differs, and how: runs of rows are left out as long as one can be, then the text is cut.
pub fn shrink(made: &Made, difference: &str) -> (Made, Difference) {
    let mut best = (made.clone(), difference.to_string());
    if made.numbers.len() > SMALL || differs(made).is_none() {
        return best;
    }
    let mut shorter = true;
    while shorter {
        let before = best.0.numbers.len();
        RUNS.into_iter().for_each(|run| leave_out(&mut best, run));
        shorter = best.0.numbers.len() < before;
    }
    let mut step = best.0.text.len() / 2;
    while step > 0 {
        let keep = best.0.text.len() - step;
        let shorter = Made { text: best.0.text[..keep].to_vec(), ..best.0.clone() };
        if let Some(still) = differs(&shorter) {
            best = (shorter, still);
        }
        step = step.min(best.0.text.len()) / 2;
    }
    best
}

/// Leaves out every run of so many rows, from the last on, without which the draft still differs.
fn leave_out(best: &mut (Made, Difference), run: usize) {
    let mut end = best.0.numbers.len() / ROW;
    while end >= run {
        let mut fewer = best.0.clone();
        fewer.numbers.drain((end - run) * ROW..end * ROW);
        if let Some(still) = differs(&fewer) {
            *best = (fewer, still);
            end = end.min(best.0.numbers.len() / ROW);
        } else {
            end -= 1;
        }
    }
}

fn differs(made: &Made) -> Option<Difference> {
    check_draft(made, &mut Random::new(7), &mut Tally::default(), &mut Counts::default()).err()
}
