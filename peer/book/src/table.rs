//! The book over a table and the list of file numbers taken, for any numbers whatever: each call as readings 52 to 55 and 57 to 59 say it, where the
//! numbers stand.

use peer_reader::descent::{Number, LISTED};

use crate::layout::{
    head, in_range, is_owner, last, net, net_of, place_start, places_claimed, places_there, refused, row_start,
    rows_there, total, BOOK, CLAIMED, CREDIT_CENTS, DEBIT_CENTS, DUPLICATE, ENTER_ANSWER, FIGURES, FILE_NUMBER,
    FIND_ANSWER, FULL, HEAD, NOENTRY, NUMBER, OWNER, OWNERS, PLACE, PLACES, RANGE, SIX, TOTALS_ANSWER, WIDTH,
};
use crate::paper::Paper;

/// Not BOOK: no more rows are claimed than whole rows stand behind the head, and each running total of either owner is the sum of its own rows,
/// and so is its net position (readings 53, 57 and 58).
pub fn is_book(book: &[u64]) -> bool {
    let is_right = |owner| (0..SIX).all(|figure| is_sum(book, owner, figure)) && is_net(book, owner);
    head(book, CLAIMED) <= rows_there(book.len()) as u64 && OWNERS.into_iter().all(is_right)
}

/// Not BOOK for the list: no more places are claimed than there are. Nothing else of it is judged (reading 59).
pub fn is_list(taken: &[u64]) -> bool {
    places_claimed(taken) <= places_there(taken.len()) as u64
}

/// What a figure of an owner's rows comes to.
fn sum_of(book: &[u64], owner: u64, figure: usize) -> u128 {
    rows_of(book, owner).map(|row| u128::from(row[FIGURES + figure])).sum()
}

/// A sum past 64 bits is no running total (reading 53).
fn is_sum(book: &[u64], owner: u64, figure: usize) -> bool {
    sum_of(book, owner, figure) == u128::from(head(book, total(owner, figure)))
}

/// A sum that no i64 holds is no net position (reading 58).
fn is_net(book: &[u64], owner: u64) -> bool {
    let sum = sum_of(book, owner, CREDIT_CENTS) as i128 - sum_of(book, owner, DEBIT_CENTS) as i128;
    sum == net_at(book, owner)
}

/// The net position that the head states.
fn net_at(book: &[u64], owner: u64) -> i128 {
    i128::from(head(book, net(owner)) as i64)
}

/// The rows that the head claims, which are there.
fn claimed_rows(book: &[u64]) -> impl Iterator<Item = &[u64]> {
    let behind = book.get(HEAD..).unwrap_or_default();
    behind.chunks_exact(WIDTH).take(head(book, CLAIMED) as usize)
}

/// An owner's rows among them; a row of neither owner is a gap and counts for none.
fn rows_of(book: &[u64], owner: u64) -> impl Iterator<Item = &[u64]> {
    claimed_rows(book).filter(move |row| row[OWNER] == owner)
}

/// Where the rows begin that may be written: the gaps, lowest first, then those behind the rows claimed (reading 59).
fn free_rows(book: &[u64]) -> impl Iterator<Item = usize> + '_ {
    let claimed = head(book, CLAIMED) as usize;
    let is_free = move |row: &usize| *row >= claimed || !is_owner(book[row_start(*row) + OWNER]);
    (0..rows_there(book.len())).filter(is_free)
}

/// Whether the list has a file number for an owner, in a place that is claimed.
fn is_taken(taken: &[u64], owner: u64, file_number: u64) -> bool {
    let places = taken.get(PLACES..).unwrap_or_default().chunks_exact(PLACE);
    places.take(places_claimed(taken) as usize).any(|place| place == [owner, file_number])
}

/// What every call is refused for first: BOOK, and straight after it NOENTRY for an owner other than 1 or 2 (reading 57).
fn first_refusal(is_book: bool, owner: u64) -> Option<u64> {
    match is_book {
        false => Some(BOOK),
        true => (!is_owner(owner)).then_some(NOENTRY),
    }
}

/// Enters a file for an owner under the caller's number. `rows` is the row table, filled as the reader fills it.
pub fn enter(
    paper: &Paper,
    file_number: u64,
    owner: u64,
    rows: &mut [u64],
    book: &mut [u64],
    taken: &mut [u64],
) -> [u64; ENTER_ANSWER] {
    if let Some(number) = first_refusal(is_book(book) && is_list(taken), owner) {
        return refused(number);
    }
    let read = paper.reading.with_rows(rows.len() / 7);
    let mut answer = [0; ENTER_ANSWER];
    answer[..LISTED].copy_from_slice(&read.listed());
    if read.number != Number::Accepted {
        return answer;
    }
    // The list alone decides, not the rows (reading 59).
    if is_taken(taken, owner, file_number) {
        return refused(DUPLICATE);
    }
    // All the letters together, whatever the net was before (reading 58).
    if !in_range(net_at(book, owner) + net_of(paper.sums())) {
        return refused(RANGE);
    }
    if is_full(paper, owner, book, taken) {
        return refused(FULL);
    }
    paper.reading.fill(rows);
    answer[LISTED] = head(book, last(owner)) + 1;
    set_down(paper, file_number, owner, book);
    take_down(file_number, owner, taken);
    answer
}

/// More letters than free rows, no free place in the list, or a running total or the last number of the owner would pass 64 bits (readings 54, 59).
fn is_full(paper: &Paper, owner: u64, book: &[u64], taken: &[u64]) -> bool {
    let letters = paper.letters.len();
    let passes = |place: usize, more: u128| u128::from(head(book, place)) + more > u128::from(u64::MAX);
    letters > free_rows(book).count()
        || places_claimed(taken) == places_there(taken.len()) as u64
        || passes(last(owner), letters as u128)
        || paper.sums().into_iter().enumerate().any(|(figure, sum)| passes(total(owner, figure), sum))
}

/// Writes a row for each letter, and moves the owner's part of the head on. There are free rows, so that the whole head is there.
fn set_down(paper: &Paper, file_number: u64, owner: u64, book: &mut [u64]) {
    let free: Vec<usize> = free_rows(book).take(paper.letters.len()).collect();
    for (row, letter) in free.into_iter().zip(&paper.letters) {
        book[last(owner)] += 1;
        let start = row_start(row);
        book[start + OWNER] = owner;
        book[start + NUMBER] = book[last(owner)];
        book[start + FILE_NUMBER] = file_number;
        book[start + FIGURES..start + WIDTH].copy_from_slice(letter);
        for (figure, amount) in letter.iter().enumerate() {
            book[total(owner, figure)] += amount;
        }
        // Two's complement: on the way a net may pass 64 bits, at the end it does not.
        book[net(owner)] = book[net(owner)].wrapping_add(letter[CREDIT_CENTS]).wrapping_sub(letter[DEBIT_CENTS]);
        book[CLAIMED] = book[CLAIMED].max(row as u64 + 1);
    }
}

/// One more place is claimed, by the owner's file number. There is a free place.
fn take_down(file_number: u64, owner: u64, taken: &mut [u64]) {
    let start = place_start(taken[0] as usize);
    taken[start..start + PLACE].copy_from_slice(&[owner, file_number]);
    taken[0] += 1;
}

/// Withdraws the first claimed row of the owner with an entry number: its figures leave the owner's part of the head, and nine zeros stand in its
/// place. All else, the rows claimed too, stays (reading 59).
pub fn withdraw(book: &mut [u64], taken: &[u64], owner: u64, entry_number: u64) -> u64 {
    if let Some(number) = first_refusal(is_book(book) && is_list(taken), owner) {
        return number;
    }
    let is_it = |row: &[u64]| row[..=NUMBER] == [owner, entry_number];
    let Some(row) = claimed_rows(book).position(is_it) else { return NOENTRY };
    let start = row_start(row);
    let figures: [u64; SIX] = book[start + FIGURES..start + WIDTH].try_into().expect("six");
    let left = net_at(book, owner) - net_of(figures.map(u128::from));
    if !in_range(left) {
        return RANGE;
    }
    (0..SIX).for_each(|figure| book[total(owner, figure)] -= figures[figure]);
    book[net(owner)] = left as u64;
    book[start..start + WIDTH].fill(0);
    0
}

/// Closes the gaps: the rows of either owner move down in their order, zeros stand in the claimed rows behind them, and those are claimed no more.
pub fn tidy(book: &mut [u64], taken: &[u64]) -> u64 {
    if !is_book(book) || !is_list(taken) {
        return BOOK;
    }
    let claimed = head(book, CLAIMED) as usize;
    let mut kept = 0;
    for row in 0..claimed {
        let start = row_start(row);
        if is_owner(book[start + OWNER]) {
            book.copy_within(start..start + WIDTH, row_start(kept));
            kept += 1;
        }
    }
    if claimed > 0 {
        book[row_start(kept)..row_start(claimed)].fill(0);
        book[CLAIMED] = kept as u64;
    }
    0
}

/// The first claimed row of the owner with an entry number, as entered.
pub fn find(book: &[u64], owner: u64, entry_number: u64) -> [u64; FIND_ANSWER] {
    if let Some(number) = first_refusal(is_book(book), owner) {
        return refused(number);
    }
    let row = rows_of(book, owner).find(|row| row[NUMBER] == entry_number);
    match row {
        Some(row) => {
            let mut found = refused(0);
            found[1..].copy_from_slice(&row[NUMBER..]);
            found
        }
        None => refused(NOENTRY),
    }
}

/// How many entries the owner has, its running totals and its net position.
pub fn totals(book: &[u64], owner: u64) -> [u64; TOTALS_ANSWER] {
    if let Some(number) = first_refusal(is_book(book), owner) {
        return refused(number);
    }
    let mut totals = refused(0);
    totals[1] = rows_of(book, owner).count() as u64;
    (0..SIX).for_each(|figure| totals[2 + figure] = head(book, total(owner, figure)));
    totals[2 + SIX] = head(book, net(owner));
    totals
}
