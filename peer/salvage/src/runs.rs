//! What lies under a cash letter header (reading 61): stretches from a 20 on, those that are runs, and 61s directly under it with their views.

use crate::walk::Walked;

/// A run is a bundle, from a 20 to its 70, or a 61 directly under the header with what stands right behind it of 50s, 52s and 54s.
#[derive(Clone, Copy, Debug, PartialEq, Eq, PartialOrd, Ord)]
pub enum Sort {
    Bundle,
    Credit,
}

/// The records of a run, from the first up to before the end.
#[derive(Clone, Copy, Debug, PartialEq, Eq)]
pub struct Run {
    pub sort: Sort,
    pub first: usize,
    pub end: usize,
}

/// A 10 and the records under it.
#[derive(Clone, Debug, PartialEq, Eq)]
pub struct Letter {
    /// Where the 10 stands among the records walked; what is under it begins behind it.
    pub header: usize,
    /// The first record that is no longer under it: the next 10, 90 or 99, or behind the last one walked.
    pub end: usize,
    pub runs: Vec<Run>,
    /// Stretches that end without a 70.
    pub torn: Vec<(usize, usize)>,
}

impl Letter {
    /// The 90 that ends the records under the header, if one does.
    pub fn control(&self, walked: &[Walked]) -> Option<usize> {
        walked.get(self.end).filter(|record| record.is(90)).map(|_| self.end)
    }
}

/// Every 10 with what is under it. Each record is looked at a bounded number of times.
pub fn letters(walked: &[Walked]) -> Vec<Letter> {
    let headers = (0..walked.len()).filter(|at| walked[*at].is(10));
    headers.map(|header| letter(walked, header)).collect()
}

fn letter(walked: &[Walked], header: usize) -> Letter {
    let end = first(walked, header + 1, walked.len(), |record| record.is_any(&[10, 90, 99]));
    let mut letter = Letter { header, end, runs: Vec::new(), torn: Vec::new() };
    let mut at = header + 1;
    while at < end {
        at = match walked[at].kind {
            Some(20) => stretch(walked, &mut letter, at),
            Some(61) => credit(walked, &mut letter, at),
            _ => at + 1,
        };
    }
    letter
}

/// The first record from one place up to another of which something holds; the latter if there is none.
fn first(walked: &[Walked], from: usize, to: usize, holds: impl Fn(&Walked) -> bool) -> usize {
    (from..to).find(|at| holds(&walked[*at])).unwrap_or(to)
}

/// From a 20 to the first 70 behind it; or, without one, up to the next 20 or the end. Gives where it ends.
fn stretch(walked: &[Walked], letter: &mut Letter, begin: usize) -> usize {
    let end = first(walked, begin + 1, letter.end, |record| record.is_any(&[20, 70]));
    if end < letter.end && walked[end].is(70) {
        letter.runs.push(Run { sort: Sort::Bundle, first: begin, end: end + 1 });
        return end + 1;
    }
    letter.torn.push((begin, end));
    end
}

/// A 61 with the 50s, 52s and 54s right behind it. Gives where they end.
fn credit(walked: &[Walked], letter: &mut Letter, begin: usize) -> usize {
    let end = first(walked, begin + 1, letter.end, |record| !record.is_any(&[50, 52, 54]));
    letter.runs.push(Run { sort: Sort::Credit, first: begin, end });
    end
}
