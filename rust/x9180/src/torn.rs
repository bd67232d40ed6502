//! The parts of a torn file, by the types of the records on its list alone (request 11, reading 61): what lies under a cash letter header,
//! which of it is a bundle or a credit, and what is neither. What became of them, the list tells; this module decides nothing.

use std::ops::Range;

use crate::listed::Listed;

/// What a part of a torn file is.
#[derive(Clone, Copy, Debug, PartialEq, Eq, PartialOrd, Ord, Hash)]
pub enum Sort {
    /// The File Header Record (type 01) at the start.
    FileHeader,
    /// A Cash Letter Header Record (type 10).
    Header,
    /// From a Bundle Header Record (type 20) to the first Bundle Control Record (type 70) behind it, with no other 20 between.
    Bundle,
    /// From a Bundle Header Record (type 20) on where no 70 closes it: up to the next 20, or to the end of the cash letter or of the walk.
    OpenBundle,
    /// A Credit/Reconciliation Record (type 61) directly under its cash letter header, with the 50s, 52s and 54s right behind it.
    Credit,
    /// The Cash Letter Control Record (type 90) that ends the records under a header.
    Control,
    /// The File Control Record (type 99).
    FileControl,
    /// Records, side by side, that are in none of these, whatever their types.
    Stray,
}

/// Records of a torn file, side by side, that became the same.
#[derive(Clone, Debug, PartialEq, Eq)]
pub struct Part {
    /// What it is.
    pub sort: Sort,
    /// Which rows of the list it is, counted from 0.
    pub rows: Range<usize>,
    /// Which row of the list is the header of its cash letter; `None` outside any.
    pub header: Option<usize>,
    /// The ordinal of its cash letter among the headers walked; 0 outside any.
    pub letter: u64,
    /// The ordinal of a bundle, open ones counted too, or of a credit in its cash letter; 0 for any other part.
    pub ordinal: u64,
}

/// Parts the rows of a list.
pub(crate) fn parts(list: &[Listed]) -> Vec<Part> {
    let mut found = Finder { list, parts: Vec::new(), header: None, letters: 0, bundles: 0, credits: 0 };
    let mut at = 0;
    while at < list.len() {
        at = found.take(at);
    }
    found.parts
}

struct Finder<'l> {
    list: &'l [Listed],
    parts: Vec<Part>,
    /// The row of the header that the next records are under.
    header: Option<usize>,
    letters: u64,
    bundles: u64,
    credits: u64,
}

impl Finder<'_> {
    fn record_type(&self, at: usize) -> u64 {
        self.list.get(at).map_or(0, |listed| listed.record_type)
    }

    /// Takes the part that begins at a row, and tells where it ends.
    fn take(&mut self, at: usize) -> usize {
        let is_under_header = self.header.is_some();
        match self.record_type(at) {
            1 if at == 0 => self.put(Sort::FileHeader, at..at + 1, 0),
            10 => {
                self.header = Some(at);
                (self.letters, self.bundles, self.credits) = (self.letters + 1, 0, 0);
                self.put(Sort::Header, at..at + 1, 0)
            }
            20 if is_under_header => {
                self.bundles += 1;
                let (sort, end) = self.bundle(at);
                self.put(sort, at..end, self.bundles)
            }
            61 if is_under_header => {
                self.credits += 1;
                let end = self.first(at + 1, |record_type| !matches!(record_type, 50 | 52 | 54));
                self.put(Sort::Credit, at..end, self.credits)
            }
            90 if is_under_header => {
                let end = self.put(Sort::Control, at..at + 1, 0);
                self.header = None;
                end
            }
            99 => {
                self.header = None;
                self.put(Sort::FileControl, at..at + 1, 0)
            }
            _ => self.stray(at),
        }
    }

    /// From a 20 on: whether a 70 closes it, and where it ends.
    fn bundle(&self, at: usize) -> (Sort, usize) {
        let end = self.first(at + 1, |record_type| matches!(record_type, 10 | 20 | 70 | 90 | 99));
        match self.record_type(end) {
            70 => (Sort::Bundle, end + 1),
            _ => (Sort::OpenBundle, end),
        }
    }

    /// The first row from one on whose type is such; behind the last where there is none.
    fn first(&self, from: usize, is_such: impl Fn(u64) -> bool) -> usize {
        (from..self.list.len()).find(|at| is_such(self.record_type(*at))).unwrap_or(self.list.len())
    }

    /// One record more that is in none of the parts.
    fn stray(&mut self, at: usize) -> usize {
        match self.parts.last_mut() {
            Some(last) if last.sort == Sort::Stray && last.header == self.header => {
                last.rows.end = at + 1;
                at + 1
            }
            _ => self.put(Sort::Stray, at..at + 1, 0),
        }
    }

    fn put(&mut self, sort: Sort, rows: Range<usize>, ordinal: u64) -> usize {
        let letter = if self.header.is_some() { self.letters } else { 0 };
        let end = rows.end;
        self.parts.push(Part { sort, rows, header: self.header, letter, ordinal });
        end
    }
}
