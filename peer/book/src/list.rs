//! The plain list of entries: what a book answers after any sequence of calls (requests 6 and 8 to 10, readings 56 to 59).

use crate::layout::{in_range, is_owner, net_of, Figures, DUPLICATE, FULL, NOENTRY, OWNERS, RANGE, SIX};
use crate::paper::sums;

/// One cash letter as it was entered.
#[derive(Clone, Copy, Debug, PartialEq, Eq, PartialOrd, Ord)]
pub struct Entry {
    pub owner: u64,
    pub number: u64,
    pub file_number: u64,
    pub figures: Figures,
}

/// The present entries in their order, the last entry number given to each owner, how many entries there is room for, whosesoever they are; every
/// file number ever entered, with its owner, and how many of those there is room for.
#[derive(Clone, Debug, PartialEq, Eq)]
pub struct List {
    pub entries: Vec<Entry>,
    pub last: [u64; OWNERS.len()],
    pub capacity: usize,
    pub taken: Vec<(u64, u64)>,
    pub places: usize,
}

/// NOENTRY for an owner other than 1 or 2: after BOOK, which is not the list's, before all else.
pub fn judge_owner(owner: u64) -> Result<(), u64> {
    is_owner(owner).then_some(()).ok_or(NOENTRY)
}

impl List {
    pub fn empty(capacity: usize, places: usize) -> List {
        List { entries: Vec::new(), last: [0; OWNERS.len()], capacity, taken: Vec::new(), places }
    }

    /// The present entries of an owner, in their order.
    pub fn of(&self, owner: u64) -> impl Iterator<Item = &Entry> {
        self.entries.iter().filter(move |entry| entry.owner == owner)
    }

    /// The last entry number given to an owner.
    pub fn last(&self, owner: u64) -> u64 {
        self.last[owner as usize - 1]
    }

    /// How many more entries there is room for: a withdrawn one gives its room back.
    pub fn free(&self) -> usize {
        self.capacity - self.entries.len()
    }

    /// How many more file numbers there is room for: one that is taken stays so.
    pub fn free_places(&self) -> usize {
        self.places - self.taken.len()
    }

    /// The running totals of an owner: the sums of all its present entries, each time anew.
    pub fn sums(&self, owner: u64) -> [u128; SIX] {
        let figures: Vec<Figures> = self.of(owner).map(|entry| entry.figures).collect();
        sums(&figures)
    }

    /// The net position of an owner: the cents of all its present entries, each time anew, debits from credits.
    pub fn net(&self, owner: u64) -> i128 {
        net_of(self.sums(owner))
    }

    /// Enters the letters of an accepted file for an owner: the first entry number given, or NOENTRY, DUPLICATE, RANGE or FULL.
    pub fn enter(&mut self, file_number: u64, owner: u64, letters: &[Figures]) -> Result<u64, u64> {
        judge_owner(owner)?;
        if self.taken.contains(&(owner, file_number)) {
            return Err(DUPLICATE);
        }
        if !in_range(self.net(owner) + net_of(sums(letters))) {
            return Err(RANGE);
        }
        if self.is_full(owner, letters) {
            return Err(FULL);
        }
        let first = self.last(owner) + 1;
        for (number, figures) in (first..=u64::MAX).zip(letters) {
            self.entries.push(Entry { owner, number, file_number, figures: *figures });
            self.last[owner as usize - 1] = number;
        }
        self.taken.push((owner, file_number));
        Ok(first)
    }

    /// More letters than there is room for, no room for a file number, or a running total or an entry number beyond 64 bits.
    fn is_full(&self, owner: u64, letters: &[Figures]) -> bool {
        let most = u128::from(u64::MAX);
        let longer = self.sums(owner).into_iter().zip(sums(letters)).map(|(sum, more)| sum + more);
        letters.len() > self.free()
            || self.free_places() == 0
            || u128::from(self.last(owner)) + letters.len() as u128 > most
            || longer.into_iter().any(|sum| sum > most)
    }

    /// Takes the first entry of the owner with this number out of the list, and tells which of all entries it was; or NOENTRY or RANGE. Its number
    /// is not given again, and its file number stays taken (reading 59).
    pub fn withdraw(&mut self, owner: u64, number: u64) -> Result<usize, u64> {
        judge_owner(owner)?;
        let is_it = |entry: &Entry| entry.owner == owner && entry.number == number;
        let at = self.entries.iter().position(is_it).ok_or(NOENTRY)?;
        let mut shorter = self.clone();
        shorter.entries.remove(at);
        if !in_range(shorter.net(owner)) {
            return Err(RANGE);
        }
        *self = shorter;
        Ok(at)
    }

    /// The first entry of the owner with this number, or NOENTRY.
    pub fn find(&self, owner: u64, number: u64) -> Result<Entry, u64> {
        judge_owner(owner)?;
        self.of(owner).find(|entry| entry.number == number).copied().ok_or(NOENTRY)
    }

    /// How many entries the owner has and what they come to, or NOENTRY.
    pub fn totals(&self, owner: u64) -> Result<(usize, [u128; SIX]), u64> {
        judge_owner(owner)?;
        Ok((self.of(owner).count(), self.sums(owner)))
    }
}
