//! What the tests of the day book share: the samples, whose figures were worked out by hand, and entries as plain numbers.
#![allow(dead_code)] // Each test program uses its part.

use x9180::book::{Figure, Figures, Owner};
use x9180::Book;

pub fn folder(name: &str) -> std::path::PathBuf {
    std::path::Path::new(env!("CARGO_MANIFEST_DIR")).join("../..").join(name)
}

pub fn sample(name: &str) -> Vec<u8> {
    std::fs::read(folder(name)).unwrap()
}

pub const PICTURED: &str = "samples/two-letters-with-pictures.x9";
pub const CREDITED: &str = "samples/credits-with-pictures.x9";

/// An entry, or the totals with the number of entries, as numbers: number, file number, bundles, debit items, credit items, views, debit cents, credit
/// cents.
pub type Line = [u64; 8];

/// The cash letters of the two samples, as `peer/reader/src/pictures.rs` and `icl/tests/common/pictured_credits.rs` describe them.
pub const PICTURED_LETTERS: [[u64; 6]; 2] = [[2, 3, 0, 6, 16_557, 0], [1, 1, 0, 2, 31_000, 0]];
pub const CREDITED_LETTERS: [[u64; 6]; 2] = [[2, 4, 4, 10, 16_807, 33_364], [1, 1, 2, 4, 31_000, 131_000]];

pub fn numbers(figures: Figures) -> [u64; 6] {
    Figure::ALL.map(|figure| figures.get(figure))
}

/// A number below zero in two's complement.
pub fn below_zero(number: u64) -> u64 {
    u64::MAX - number + 1
}

pub fn line(number: u64, file_number: u64, [a, b, c, d, e, f]: [u64; 6]) -> Line {
    [number, file_number, a, b, c, d, e, f]
}

pub fn entries<Memory: AsRef<[u64]>, Taken: AsRef<[u64]>>(book: &Book<Memory, Taken>, owner: Owner) -> Vec<Line> {
    book.entries(owner).unwrap().map(|entry| line(entry.number, entry.file_number, numbers(entry.figures))).collect()
}

/// A table with one free row and these numbers in the owner's part of its head, kept sums of its one claimed row, whose file number 1 is taken; a place is
/// free.
pub fn filled(owner: Owner, last: u64, figures: [u64; 6]) -> Book {
    let mut table = vec![0; Book::numbers_for(2)];
    let block = if owner == Owner::ONE { 1 } else { 9 };
    (table[0], table[block]) = (1, last);
    table[block + 1..block + 7].copy_from_slice(&figures);
    table[block + 7] = figures[5].wrapping_sub(figures[4]);
    table[17..20].copy_from_slice(&[owner.0, 1, 1]);
    table[20..26].copy_from_slice(&figures);
    Book::over(table, vec![1, owner.0, 1, 0, 0])
}

/// The bound of a net position, either side.
pub const BOUND: u64 = 1_000_000_000_000_000_000;
