//! The table of a day book, number by number, as `include/x9180.h` lays it out: a head, and then rows of equal width. For listing the entries of a
//! table that the library has judged, for the plain words of a refusal, and for tables of an older form; it judges nothing. Of the crate's modules it
//! imports `figures` and `owner` alone.

use crate::figures::Figures;
use crate::owner::Owner;

/// The numbers of the head: [0] the rows claimed, [1] to [8] the first owner's block, [9] to [16] the second's.
const HEAD: usize = 17;

/// The numbers of an owner's block in the head: [0] the last entry number given, [1] to [6] the running totals, [7] the net position.
const BLOCK: usize = 8;

/// The place of the net position in an owner's block.
const NET: usize = 7;

/// The numbers of a row: [0] the owner, [1] the entry number, [2] the file number, [3] to [8] the figures.
const ROW: usize = 9;

/// A lent table, of any length.
#[derive(Clone, Copy)]
pub(crate) struct Table<'t>(pub &'t [u64]);

/// A row of a table.
pub(crate) struct BookRow {
    pub owner: Owner,
    pub entry_number: u64,
    pub file_number: u64,
    pub figures: Figures,
}

/// How many numbers a table of so many rows has; more than there can be where they are too many to count.
pub(crate) const fn numbers_for(rows: usize) -> usize {
    rows.saturating_mul(ROW).saturating_add(HEAD)
}

impl<'t> Table<'t> {
    /// The whole rows behind the head.
    pub fn capacity(self) -> u64 {
        (self.0.len().saturating_sub(HEAD) / ROW) as u64
    }

    /// The rows that the head claims.
    pub fn claimed(self) -> u64 {
        self.head(0)
    }

    /// The last entry number given to an owner.
    pub fn last(self, owner: Owner) -> u64 {
        self.head(block(owner))
    }

    /// The running totals of an owner.
    pub fn totals(self, owner: Owner) -> Figures {
        Figures::of([1, 2, 3, 4, 5, 6].map(|place| self.head(block(owner) + place)))
    }

    /// The net position of an owner: a number below zero is in two's complement.
    pub fn net(self, owner: Owner) -> i64 {
        self.head(block(owner) + NET) as i64
    }

    /// The rows of an owner among those claimed, as far as they are there.
    pub fn rows_of(self, owner: Owner) -> impl Iterator<Item = BookRow> + 't {
        self.rows().filter(move |row| row.owner == owner)
    }

    /// The rows of both owners among those claimed, as far as they are there. Any other is a gap.
    pub fn rows(self) -> impl Iterator<Item = BookRow> + 't {
        let rows = self.0.get(HEAD..).unwrap_or_default().chunks_exact(ROW).take(count(self.claimed()));
        let rows = rows.filter_map(|row| row.first_chunk().copied().map(BookRow::of));
        rows.filter(|row| Owner::BOTH.contains(&row.owner))
    }

    /// The rows that are no one's: gaps, and those behind the rows claimed.
    pub fn free(self) -> u64 {
        self.capacity().saturating_sub(self.rows().count() as u64)
    }

    /// A number of the head. One that a short table lacks counts as 0.
    fn head(self, place: usize) -> u64 {
        self.0.get(place).copied().unwrap_or(0)
    }
}

/// A table from before there were owners (request 6), with all its entries given to one of them, in the form of today. In such a table the last entry
/// number and the running totals stood where the first owner's stand; the rest of the head was not looked at, and neither was the number in a row's first
/// place.
pub(crate) fn given_to(owner: Owner, mut numbers: Vec<u64>) -> Vec<u64> {
    numbers.resize(numbers.len().max(HEAD), 0);
    let rows = count(Table(&numbers).claimed());
    let own: Vec<u64> = numbers.iter().skip(1).take(NET).copied().collect();
    numbers.iter_mut().take(HEAD).skip(1).for_each(|number| *number = 0);
    numbers.iter_mut().skip(block(owner)).zip(own).for_each(|(place, number)| *place = number);
    numbers.iter_mut().skip(HEAD).step_by(ROW).take(rows).for_each(|place| *place = owner.0);
    with_nets(numbers)
}

/// A table from before net positions were kept (request 8), in the form of today: the places of the nets, which were not looked at, get what the rows
/// come to. Where that is more than such a place holds, the table is no book after it either.
pub(crate) fn with_nets(mut numbers: Vec<u64>) -> Vec<u64> {
    numbers.resize(numbers.len().max(HEAD), 0);
    for owner in Owner::BOTH {
        let net = Table(&numbers).rows_of(owner).map(|row| row.figures.net()).sum::<i128>();
        numbers.iter_mut().skip(block(owner) + NET).take(1).for_each(|place| *place = net as u64);
    }
    numbers
}

/// Where an owner's block begins in the head.
fn block(owner: Owner) -> usize {
    match owner {
        Owner::TWO => 1 + BLOCK,
        _ => 1,
    }
}

/// A number of rows; more than there can be where they are too many to count.
fn count(rows: u64) -> usize {
    usize::try_from(rows).unwrap_or(usize::MAX)
}

impl BookRow {
    fn of([owner, entry_number, file_number, figures @ ..]: [u64; ROW]) -> BookRow {
        BookRow { owner: Owner(owner), entry_number, file_number, figures: Figures::of(figures) }
    }
}

#[cfg(test)]
mod tests {
    use super::*;

    #[test]
    fn tables_of_any_length() {
        for (length, capacity) in [(0, 0), (1, 0), (16, 0), (17, 0), (25, 0), (26, 1), (34, 1), (35, 2)] {
            let numbers = vec![2; length];
            assert_eq!(Table(&numbers).capacity(), capacity, "{length}");
            assert_eq!(Table(&numbers).rows_of(Owner::TWO).count() as u64, capacity, "{length}");
            assert_eq!(Table(&numbers).rows_of(Owner::ONE).count(), 0, "{length}");
        }
        assert_eq!([0, 1, 2].map(numbers_for), [17, 26, 35]);
        assert_eq!(numbers_for(usize::MAX), usize::MAX);
    }

    #[test]
    fn numbers_in_their_places() {
        let mut numbers: Vec<u64> = (100..155).collect();
        (numbers[0], numbers[17], numbers[26], numbers[35], numbers[44]) = (3, 2, 1, 2, 2);
        let table = Table(&numbers);
        assert_eq!((table.capacity(), table.claimed(), table.free()), (4, 3, 1));
        assert_eq!((table.last(Owner::ONE), table.last(Owner::TWO)), (101, 109));
        assert_eq!(table.totals(Owner::ONE), Figures::of([102, 103, 104, 105, 106, 107]));
        assert_eq!(table.totals(Owner::TWO), Figures::of([110, 111, 112, 113, 114, 115]));
        assert_eq!((table.net(Owner::ONE), table.net(Owner::TWO)), (108, 116));
        let rows = |owner| -> Vec<(u64, u64, Figures)> {
            table.rows_of(owner).map(|row| (row.entry_number, row.file_number, row.figures)).collect()
        };
        assert_eq!(rows(Owner::ONE), [(127, 128, Figures::of([129, 130, 131, 132, 133, 134]))]);
        let third = (136, 137, Figures::of([138, 139, 140, 141, 142, 143]));
        assert_eq!(rows(Owner::TWO), [(118, 119, Figures::of([120, 121, 122, 123, 124, 125])), third]);
        assert!(rows(Owner(3)).is_empty());
        // A gap between two rows.
        numbers[26] = 3;
        let table = Table(&numbers);
        assert_eq!((table.capacity(), table.claimed(), table.free()), (4, 3, 2));
        assert_eq!(
            table.rows().map(|row| (row.owner, row.entry_number)).collect::<Vec<_>>(),
            [118, 136].map(|n| (Owner::TWO, n))
        );
    }

    #[test]
    fn nets_below_zero() {
        let mut numbers = [0; 17];
        (numbers[8], numbers[16]) = (u64::MAX, 1 << 63);
        assert_eq!(Owner::BOTH.map(|owner| Table(&numbers).net(owner)), [-1, i64::MIN]);
    }

    /// Three rows claimed of four, the third of which is no one's.
    #[test]
    fn tables_without_nets() {
        let row = |owner, debit, credit| [owner, 1, 1, 1, 1, 1, 1, debit, credit];
        let rows = [row(1, 7, 3), row(2, 5, 9), row(3, 1, 1), row(1, 1, 1)].concat();
        let old = [[3].as_slice(), &[88; 16], &rows].concat();
        let mut expected = old.clone();
        (expected[8], expected[16]) = (u64::MAX - 3, 4);
        assert_eq!(with_nets(old), expected);
        assert_eq!(with_nets(vec![]), [0; 17]);
    }

    /// Two rows claimed of three. What was not looked at goes.
    #[test]
    fn tables_without_owners() {
        let old: Vec<u64> = [2].into_iter().chain(101..144).collect();
        let rows = |owner: u64| [[owner].as_slice(), &old[18..26], &[owner], &old[27..44]].concat();
        // Credit cents are one more than debit cents in each row, by their places.
        let first = [&old[..8], &[2], &[0; 8], &rows(1)].concat();
        assert_eq!(given_to(Owner::ONE, old.clone()), first);
        assert_eq!(given_to(Owner::TWO, old.clone()), [[2].as_slice(), &[0; 8], &old[1..8], &[2], &rows(2)].concat());
        assert_eq!(given_to(Owner::TWO, first), given_to(Owner::TWO, old));
        // A short one gets its head.
        assert_eq!(given_to(Owner::ONE, vec![]), [0; 17]);
        assert_eq!(given_to(Owner::TWO, vec![0, 7]), [vec![0; 9], vec![7], vec![0; 7]].concat());
    }
}
