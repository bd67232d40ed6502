//! The plain list beside whole histories on an empty book: what it answers to each call, and what the table is to hold (reading 56).

use crate::call::{Call, Outcome};
use crate::layout::{places_there, refused, rows_there, ACCEPTED, ENTER_ANSWER, FIND_ANSWER, OWNERS, TOTALS_ANSWER};
use crate::list::{Entry, List};
use crate::opinion::decode;
use crate::paper::Paper;

/// The list of an empty book and an empty list of file numbers taken.
pub fn empty(book: &[u64], taken: &[u64]) -> List {
    List::empty(rows_there(book.len()), places_there(taken.len()))
}

/// What the list answers to a call, by the reading of the file and nothing else.
pub fn listed(list: &mut List, papers: &[Paper], call: &Call) -> Outcome {
    match *call {
        Call::Enter { paper, file_number, owner, rows } => {
            let paper = &papers[paper];
            let mut answer = [0; ENTER_ANSWER];
            answer[..ENTER_ANSWER - 1].copy_from_slice(&paper.reading.with_rows(rows / 7).listed());
            if answer[0] != ACCEPTED && OWNERS.contains(&owner) {
                return Outcome::of(&answer);
            }
            match list.enter(file_number, owner, &paper.letters) {
                Ok(first) => answer[ENTER_ANSWER - 1] = first,
                Err(number) => answer = refused(number),
            }
            Outcome::of(&answer)
        }
        Call::Find { owner, entry_number } => match list.find(owner, entry_number) {
            Ok(entry) => Outcome::of(&[vec![0, entry.number, entry.file_number], entry.figures.to_vec()].concat()),
            Err(number) => Outcome::of(&refused::<FIND_ANSWER>(number)),
        },
        Call::Totals { owner } => match list.totals(owner) {
            Ok((entries, sums)) => {
                let net = list.net(owner) as i64 as u64;
                Outcome::of(&[vec![0, entries as u64], sums.map(|sum| sum as u64).to_vec(), vec![net]].concat())
            }
            Err(number) => Outcome::of(&refused::<TOTALS_ANSWER>(number)),
        },
        Call::Withdraw { owner, entry_number } => Outcome::bare(list.withdraw(owner, entry_number).err().unwrap_or(0)),
        // The plain list has no gaps to close.
        Call::Tidy => Outcome::bare(0),
    }
}

/// Whether table and list of file numbers hold what the list has. Its entries may stand in any order: those entered later stand where a gap was.
pub fn holds(list: &List, book: &[u64], taken: &[u64]) -> bool {
    let sorted = |list: &List| {
        let mut entries: Vec<Entry> = list.entries.clone();
        entries.sort();
        entries
    };
    let Ok(held) = decode(book, taken) else { return false };
    let alike = |one: &List, two: &List| (one.last, one.capacity, one.places) == (two.last, two.capacity, two.places);
    alike(&held, list) && held.taken == list.taken && sorted(&held) == sorted(list)
}
