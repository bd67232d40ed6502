//! The table that holds a book and the list of the file numbers taken, number by number, as the C header has them, and the numbers of the answers
//! (readings 52 to 55 and 57 to 59).

pub const ACCEPTED: u64 = 0;
pub const ROOM: u64 = 2;
pub const DUPLICATE: u64 = 12;
pub const FULL: u64 = 13;
pub const NOENTRY: u64 = 15;
pub const RANGE: u64 = 16;
pub const BOOK: u64 = 20;

/// Who has entries, a last entry number and running totals (request 8).
pub const OWNERS: [u64; 2] = [1, 2];

/// A net position may lie as far as this on either side of 0, in cents (request 9).
pub const BOUND: i128 = 1_000_000_000_000_000_000;

/// The head: [0] rows claimed, gaps among them, once for both; then for each owner the last entry number given, six running totals and the net position.
pub const HEAD: usize = 17;
pub const CLAIMED: usize = 0;

/// How many numbers of the head are an owner's.
const PART: usize = 8;

/// A row: [0] owner (neither 1 nor 2 in a gap, reading 59), [1] entry number, [2] file number, [3] to [8] the letter's own figures.
pub const WIDTH: usize = 9;
pub const OWNER: usize = 0;
pub const NUMBER: usize = 1;
pub const FILE_NUMBER: usize = 2;
pub const FIGURES: usize = 3;

/// A place of the list of file numbers taken: [0] owner, [1] file number. Before the first place stand the places claimed (reading 59).
pub const PLACE: usize = 2;
pub const PLACES: usize = 1;

/// A letter's own bundles, debit items, credit items, views, debit cents, credit cents.
pub type Figures = [u64; 6];

/// How many figures a letter has; the running totals of an owner are as many.
pub const SIX: usize = 6;
pub const BUNDLES: usize = 0;
pub const DEBIT_ITEMS: usize = 1;
pub const CREDIT_ITEMS: usize = 2;
pub const VIEWS: usize = 3;
pub const DEBIT_CENTS: usize = 4;
pub const CREDIT_CENTS: usize = 5;

/// The lengths of the three answers.
pub const ENTER_ANSWER: usize = 13;
pub const FIND_ANSWER: usize = 9;
pub const TOTALS_ANSWER: usize = 9;

/// Whether a number is an owner's; any other counts for none (reading 57).
pub fn is_owner(number: u64) -> bool {
    OWNERS.contains(&number)
}

/// The other of the two owners.
pub fn other(owner: u64) -> u64 {
    OWNERS[0] + OWNERS[1] - owner
}

/// Where an owner's last entry number stands in the head.
pub fn last(owner: u64) -> usize {
    1 + PART * (owner as usize - 1)
}

/// Where a running total of an owner stands in the head.
pub fn total(owner: u64, figure: usize) -> usize {
    last(owner) + 1 + figure
}

/// Where an owner's net position stands in the head, in two's complement (reading 58).
pub fn net(owner: u64) -> usize {
    total(owner, SIX)
}

/// Whether BOOK is about a number of the head: all but the last entry numbers.
pub fn is_judged(place: usize) -> bool {
    OWNERS.into_iter().all(|owner| last(owner) != place)
}

/// The net position of figures that come to these sums, in whole cents: below 0 when debits exceed.
pub fn net_of(sums: [u128; SIX]) -> i128 {
    sums[CREDIT_CENTS] as i128 - sums[DEBIT_CENTS] as i128
}

/// Whether a net position is within the bound, which it may reach.
pub fn in_range(net: i128) -> bool {
    (-BOUND..=BOUND).contains(&net)
}

/// The whole rows behind the head of a table of so many numbers.
pub fn rows_there(length: usize) -> usize {
    length.saturating_sub(HEAD) / WIDTH
}

/// Where a row begins, counted from 0.
pub fn row_start(row: usize) -> usize {
    HEAD + WIDTH * row
}

/// The length of a table of so many rows.
pub fn table_of(rows: usize) -> usize {
    row_start(rows)
}

/// The whole places of a list of so many numbers; one without its first number has none.
pub fn places_there(length: usize) -> usize {
    length.saturating_sub(PLACES) / PLACE
}

/// Where a place of the list begins, counted from 0.
pub fn place_start(place: usize) -> usize {
    PLACES + PLACE * place
}

/// The length of a list of so many places.
pub fn list_of(places: usize) -> usize {
    place_start(places)
}

/// The places that a list claims; one without its first number claims none.
pub fn places_claimed(taken: &[u64]) -> u64 {
    taken.first().copied().unwrap_or(0)
}

/// A number of the head; one that a short table lacks counts as 0 (reading 52).
pub fn head(book: &[u64], place: usize) -> u64 {
    book.get(place).copied().unwrap_or(0)
}

/// An answer of the book's own refusals: 0 in all behind the number.
pub fn refused<const LENGTH: usize>(number: u64) -> [u64; LENGTH] {
    let mut answer = [0; LENGTH];
    answer[0] = number;
    answer
}
