//! The list of the file numbers taken, number by number, as `include/x9180.h` lays it out: a count, and then places of two numbers. For the plain words of a
//! refusal, and for books from before there was one; it judges nothing. Of the crate's modules it imports `owner` alone.

use std::collections::HashSet;

use crate::owner::Owner;

/// The numbers before the places: [0] the places claimed.
const HEAD: usize = 1;

/// The numbers of a place: [0] the owner, [1] the file number.
const PLACE: usize = 2;

/// A lent list, of any length.
#[derive(Clone, Copy)]
pub(crate) struct List<'l>(pub &'l [u64]);

/// How many numbers a list of so many places has; more than there can be where they are too many to count.
pub(crate) const fn numbers_for(places: usize) -> usize {
    places.saturating_mul(PLACE).saturating_add(HEAD)
}

impl List<'_> {
    /// The whole places behind the count.
    pub fn capacity(self) -> u64 {
        (self.0.len().saturating_sub(HEAD) / PLACE) as u64
    }

    /// The places that the list claims. A list without its first number claims none.
    pub fn claimed(self) -> u64 {
        self.0.first().copied().unwrap_or(0)
    }
}

/// A list of so many places with these file numbers, each owner's once, in their order.
pub(crate) fn list_of(file_numbers: impl Iterator<Item = (Owner, u64)>, places: usize) -> Vec<u64> {
    let mut seen = HashSet::new();
    let mut list = vec![0];
    for (owner, file_number) in file_numbers.filter(|taken| seen.insert(*taken)) {
        list.extend([owner.0, file_number]);
    }
    let claimed = List(&list).capacity();
    list.iter_mut().take(HEAD).for_each(|count| *count = claimed);
    list.resize(list.len().max(numbers_for(places)), 0);
    list
}

#[cfg(test)]
mod tests {
    use super::*;

    #[test]
    fn lists_of_any_length() {
        for (length, capacity) in [(0, 0), (1, 0), (2, 0), (3, 1), (4, 1), (5, 2)] {
            let numbers = vec![7; length];
            let claimed = if length == 0 { 0 } else { 7 };
            assert_eq!((List(&numbers).capacity(), List(&numbers).claimed()), (capacity, claimed), "{length}");
        }
        assert_eq!([0, 1, 2].map(numbers_for), [1, 3, 5]);
        assert_eq!(numbers_for(usize::MAX), usize::MAX);
    }

    #[test]
    fn each_owners_numbers_once() {
        let entered =
            [(1, 7), (1, 7), (2, 7), (1, 0), (2, 7), (1, 7), (2, 0)].map(|(owner, file)| (Owner(owner), file));
        assert_eq!(list_of(entered.into_iter(), 6), [4, 1, 7, 2, 7, 1, 0, 2, 0, 0, 0, 0, 0]);
        // Never fewer places than file numbers.
        assert_eq!(list_of(entered.into_iter(), 1), [4, 1, 7, 2, 7, 1, 0, 2, 0]);
        assert_eq!(list_of([].into_iter(), 0), [0]);
    }
}
