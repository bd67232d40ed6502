//! A large book tidied up by both sides: every second row is a gap.

use std::process::ExitCode;
use std::time::Instant;

use peer_book::call::{Independent, Lent, Side};
use peer_book::layout::{head, is_owner, last, net, row_start, table_of, total, CLAIMED, OWNER, OWNERS, SIX, WIDTH};

use crate::abi::Library;

/// A book of so many rows, all claimed: entries of both owners by turns in every second row, withdrawn ones between them.
fn half_gaps(rows: usize) -> Vec<u64> {
    let mut book = vec![0; table_of(rows)];
    book[CLAIMED] = rows as u64;
    for row in (0..rows).step_by(2) {
        let owner = OWNERS[row / 2 % OWNERS.len()];
        book[last(owner)] += 1;
        let figures = [1, 2, 3, 4, 500 + row as u64, 600];
        let entry = [&[owner, book[last(owner)], row as u64][..], &figures].concat();
        book[row_start(row)..row_start(row) + WIDTH].copy_from_slice(&entry);
        (0..SIX).for_each(|figure| book[total(owner, figure)] += figures[figure]);
        book[net(owner)] = book[net(owner)].wrapping_add(figures[5]).wrapping_sub(figures[4]);
    }
    book
}

/// What a side leaves of a book, and the seconds it took.
fn tidied(side: &dyn Side, book: &[u64]) -> (Vec<u64>, Option<u64>, f64) {
    let mut left = book.to_vec();
    let begun = Instant::now();
    let outcome = side.tidy(Lent { rows: &mut [], book: &mut left, taken: &mut [0] });
    let seconds = begun.elapsed().as_secs_f64();
    (left, outcome.ok().map(|outcome| outcome.returned), seconds)
}

pub fn run(rows: usize) -> ExitCode {
    let book = half_gaps(rows);
    let gaps = (0..rows).filter(|row| !is_owner(book[row_start(*row) + OWNER])).count();
    let (ours, ours_number, ours_seconds) = tidied(&Independent, &book);
    let (theirs, number, seconds) = tidied(&Library, &book);
    println!("{rows} rows claimed, {gaps} of them gaps; {} claimed afterwards", head(&theirs, CLAIMED));
    println!("tidied up in {seconds:.4} seconds by the library, {ours_seconds:.4} by the independent side");
    let alike =
        ours == theirs && number == Some(0) && ours_number == number && head(&theirs, CLAIMED) as usize == rows - gaps;
    println!("{}", if alike { "the two sides agree" } else { "FAILED: the two sides differ" });
    ExitCode::from(u8::from(!alike))
}
