//! Histories on an empty book: files sound and damaged, numbers new, taken and refused before, look-ups and withdrawals of present, withdrawn and
//! absent entries, totals, tidy-ups, for both owners and for numbers that are none.

use peer_reader::random::Random;
use peer_reader::stream;

use crate::call::{Call, History};
use crate::files::{ample, any_paper, read_number, short_tables, sound_paper};
use crate::layout::{is_owner, list_of, other, places_there, rows_there, table_of, ACCEPTED, HEAD, OWNERS, WIDTH};
use crate::list::List;
use crate::paper::Paper;
use crate::sheet::{junk, stranger};

/// The least and the most calls of a history.
const CALLS: (usize, usize) = (5, 60);

/// Whether a table is an empty book.
pub fn is_empty(book: &[u64]) -> bool {
    book.iter().take(HEAD).all(|number| *number == 0)
}

/// An empty book: zeros in the head, and zeros or anything behind.
pub fn empty_book(random: &mut Random, length: usize) -> Vec<u64> {
    let zeros = random.percent(60);
    let number = |place| if zeros || place < HEAD { 0 } else { junk(random) };
    (0..length).map(number).collect()
}

/// An empty list of file numbers taken: no place claimed, and zeros or anything behind.
pub fn empty_taken(random: &mut Random, length: usize) -> Vec<u64> {
    let zeros = random.percent(60);
    let number = |place| if zeros || place == 0 { 0 } else { junk(random) };
    (0..length).map(number).collect()
}

/// What is kept while a history is drawn, so that its calls meet what the book holds.
#[derive(Clone)]
pub struct Growing {
    pub list: List,
    refused: Vec<u64>,
    /// Owner and entry number.
    withdrawn: Vec<(u64, u64)>,
    pub calls: Vec<Call>,
}

impl Growing {
    pub fn new(capacity: usize, places: usize) -> Growing {
        let list = List::empty(capacity, places);
        Growing { list, refused: Vec::new(), withdrawn: Vec::new(), calls: Vec::new() }
    }

    /// What the list becomes by a call; none where it stays as it is.
    pub fn after(&self, papers: &[Paper], call: &Call) -> Option<List> {
        match *call {
            Call::Enter { paper, file_number, owner, rows } if read_number(&papers[paper], rows) == ACCEPTED => {
                let mut longer = self.list.clone();
                longer.enter(file_number, owner, &papers[paper].letters).ok().map(|_| longer)
            }
            Call::Withdraw { owner, entry_number } => {
                let mut shorter = self.list.clone();
                shorter.withdraw(owner, entry_number).ok().map(|_| shorter)
            }
            _ => None,
        }
    }

    /// One more call.
    pub fn put(&mut self, papers: &[Paper], call: Call) {
        let after = self.after(papers, &call);
        match call {
            Call::Enter { file_number, .. } if after.is_none() => self.refused.push(file_number),
            Call::Withdraw { owner, entry_number } if after.is_some() => self.withdrawn.push((owner, entry_number)),
            _ => {}
        }
        self.list = after.unwrap_or_else(|| std::mem::replace(&mut self.list, List::empty(0, 0)));
        self.calls.push(call);
    }

    /// Some file number that an owner has taken, its entries present or not.
    fn entered(&self, random: &mut Random, owner: u64) -> Option<u64> {
        let of: Vec<u64> =
            self.list.taken.iter().filter(|(whose, _)| *whose == owner).map(|(_, number)| *number).collect();
        of.get(random.below(of.len())).copied()
    }

    /// A file number: new, taken by the owner, by the other, refused before, or anything.
    fn file_number(&self, random: &mut Random, owner: u64) -> u64 {
        let new = self.list.taken.len() as u64 + 1 + random.draw() % 3;
        match random.below(14) {
            0..=3 => new,
            4 | 5 => random.draw(),
            6 | 7 => self.entered(random, owner).unwrap_or(new),
            8 | 9 => self.entered(random, other(owner)).unwrap_or(new),
            10 | 11 => match self.refused.len() {
                0 => new,
                count => self.refused[random.below(count)],
            },
            12 => random.pick(&[0, u64::MAX]),
            _ => self.entered(random, owner).unwrap_or(1) ^ (1 << random.between(32, 63)),
        }
    }

    /// Some entry number of an owner that is present.
    pub fn present(&self, random: &mut Random, owner: u64) -> Option<u64> {
        let of: Vec<u64> = self.list.of(owner).map(|entry| entry.number).collect();
        of.get(random.below(of.len())).copied()
    }

    /// Some entry number that was withdrawn, by whomsoever.
    fn withdrawn(&self, random: &mut Random) -> Option<u64> {
        self.withdrawn.get(random.below(self.withdrawn.len())).map(|(_, number)| *number)
    }

    /// An entry number: present, given at some time, withdrawn, the last, one above it, the other owner's, or anything.
    fn entry_number(&self, random: &mut Random, owner: u64) -> u64 {
        let last = self.list.last(owner);
        let given = 1 + random.below(last as usize) as u64;
        match random.below(16) {
            0..=5 => self.present(random, owner).unwrap_or(given),
            6 => given,
            7 | 8 => self.withdrawn(random).unwrap_or(given),
            9 => last,
            10 => last + 1,
            11 => random.pick(&[0, u64::MAX]),
            12 => given ^ (1 << random.between(32, 63)),
            13 | 14 => self.present(random, other(owner)).unwrap_or(self.list.last(other(owner))),
            _ => self.entered(random, owner).unwrap_or(given),
        }
    }

    /// Some call of an owner, or a tidy-up; a number that is no owner asks for what one of the owners might ask for.
    pub fn any_call(&self, random: &mut Random, papers: &[Paper], owner: u64) -> Call {
        let like = if is_owner(owner) { owner } else { random.pick(&OWNERS) };
        match random.below(24) {
            0..=10 => {
                let paper = random.below(papers.len());
                let rows = row_table(random, &papers[paper]);
                let file_number = self.file_number(random, like);
                Call::Enter { paper, file_number, owner, rows }
            }
            11..=14 => Call::Find { owner, entry_number: self.entry_number(random, like) },
            15..=20 => Call::Withdraw { owner, entry_number: self.entry_number(random, like) },
            21 => Call::Tidy,
            _ => Call::Totals { owner },
        }
    }

    /// A file entered under a number that the owner has not taken, with room for its rows.
    pub fn entering(&self, random: &mut Random, papers: &[Paper], paper: usize, owner: u64) -> Call {
        let rows = ample(random, &papers[paper]);
        loop {
            let file_number = random.draw() % (20 + 2 * self.list.taken.len() as u64);
            if !self.list.taken.contains(&(owner, file_number)) {
                return Call::Enter { paper, file_number, owner, rows };
            }
        }
    }
}

/// The length of a row table: mostly enough.
fn row_table(random: &mut Random, paper: &Paper) -> usize {
    let enough = 7 * paper.reading.rows.len();
    match random.below(20) {
        0..=12 => ample(random, paper),
        13..=16 => enough,
        17 | 18 => random.pick(&short_tables(paper)),
        _ => random.below(enough),
    }
}

/// A book with room for none, few or many entries.
fn book_length(random: &mut Random) -> usize {
    let rows = match random.below(12) {
        0 => return random.below(HEAD + WIDTH),
        1..=3 => random.between(1, 3),
        4..=6 => random.between(4, 12),
        7..=9 => random.between(13, 40),
        _ => random.between(41, 200),
    };
    table_of(rows) + random.below(WIDTH)
}

/// A list of file numbers taken with room for none, few or many.
fn taken_length(random: &mut Random) -> usize {
    let places = match random.below(12) {
        0 => return random.below(4),
        1..=3 => random.between(1, 4),
        4..=6 => random.between(5, 15),
        _ => random.between(16, 100),
    };
    list_of(places) + random.below(2)
}

/// One caller of a history in which owner 1 has so many calls of a hundred, and numbers that are no owner a few.
fn who(random: &mut Random, first_owners: u64) -> u64 {
    match random.percent(5) {
        true => stranger(random),
        false => OWNERS[usize::from(!random.percent(first_owners))],
    }
}

/// A history of some 5 to 60 calls, of which owner 1 has some, most or all.
pub fn grown(random: &mut Random) -> History {
    let (length, places) = (book_length(random), taken_length(random));
    let mut papers = vec![sound_paper(random, (1, 2))];
    let more = random.between(1, 7);
    papers.extend((0..more).map(|_| any_paper(random)));
    let (book, taken) = (empty_book(random, length), empty_taken(random, places));
    let mut growing = Growing::new(rows_there(length), places_there(places));
    let first_owners = random.pick(&[0, 20, 50, 50, 50, 80, 100]);
    for _ in 0..random.between(CALLS.0, CALLS.1) {
        let owner = who(random, first_owners);
        let call = growing.any_call(random, &papers, owner);
        growing.put(&papers, call);
    }
    History { shape: "grown", papers, book, taken, changed: None, calls: growing.calls }
}

/// A small book filled, withdrawn from and filled again, a few times over; some lists run out of places on the way.
pub fn refilled(random: &mut Random) -> History {
    let rows = random.between(1, 9);
    let places = match random.below(3) {
        0 => random.between(1, 2 * rows),
        _ => random.between(4 * rows, 12 * rows),
    };
    let (length, list_length) = (table_of(rows) + random.below(WIDTH), list_of(places) + random.below(2));
    let papers: Vec<Paper> = [1, 1, 2, 3].map(|letters| sound_paper(random, (letters, letters))).into();
    let (book, taken) = (empty_book(random, length), empty_taken(random, list_length));
    let mut growing = Growing::new(rows, places);
    for _ in 0..random.between(2, 5) {
        fill(random, &mut growing, &papers);
        empty_out(random, &mut growing, &papers);
    }
    fill(random, &mut growing, &papers);
    History { shape: "refilled", papers, book, taken, changed: None, calls: growing.calls }
}

/// Files of either owner until one is refused, and something asked between.
fn fill(random: &mut Random, growing: &mut Growing, papers: &[Paper]) {
    loop {
        let owner = random.pick(&OWNERS);
        let paper = random.below(papers.len());
        let call = growing.entering(random, papers, paper, owner);
        let entered = growing.after(papers, &call).is_some();
        growing.put(papers, call);
        if random.percent(30) {
            let asked = growing.any_call(random, papers, owner);
            growing.put(papers, asked);
        }
        if !entered {
            return;
        }
    }
}

/// Withdraws some entries or all, looks for what was withdrawn, and tidies up or not.
fn empty_out(random: &mut Random, growing: &mut Growing, papers: &[Paper]) {
    let most = growing.list.entries.len();
    let count = if random.percent(20) { most } else { random.below(most + 1) };
    for _ in 0..count {
        let entry = growing.list.entries[random.below(growing.list.entries.len())];
        growing.put(papers, Call::Withdraw { owner: entry.owner, entry_number: entry.number });
        match random.below(8) {
            0 => growing.put(papers, Call::Find { owner: entry.owner, entry_number: entry.number }),
            1 => growing.put(papers, Call::Withdraw { owner: entry.owner, entry_number: entry.number }),
            2 => growing.put(papers, Call::Totals { owner: entry.owner }),
            3 => {
                let rows = ample(random, &papers[0]);
                let (file_number, owner) = (entry.file_number, entry.owner);
                growing.put(papers, Call::Enter { paper: 0, file_number, owner, rows });
            }
            _ => {}
        }
    }
    if random.percent(40) {
        growing.put(papers, Call::Tidy);
    }
}

/// A history of so many calls on a book that stays lively: files of one to four letters, about as many withdrawn as entered; now and then a list of
/// too few places. A few of the files are refused, and every file comes again and again.
pub fn long(random: &mut Random, calls: usize) -> History {
    let rows = random.pick(&[3, 20, 100, 300]);
    let places = match random.below(4) {
        0 => calls / 20,
        _ => calls,
    };
    let mut papers: Vec<Paper> = [1, 1, 2, 2, 3, 4].map(|letters| sound_paper(random, (letters, letters))).into();
    papers.push(any_paper(random));
    let (length, list_length) = (table_of(rows) + random.below(WIDTH), list_of(places) + random.below(2));
    let (book, taken) = (empty_book(random, length), empty_taken(random, list_length));
    let mut growing = Growing::new(rows, places);
    while growing.calls.len() < calls {
        let (owner, paper) = (who(random, 50), random.below(papers.len()));
        let call = match random.below(10) {
            0..=2 if is_owner(owner) => growing.entering(random, &papers, paper, owner),
            3 | 4 if is_owner(owner) => match growing.present(random, owner) {
                Some(entry_number) => Call::Withdraw { owner, entry_number },
                None => Call::Totals { owner },
            },
            _ => growing.any_call(random, &papers, owner),
        };
        growing.put(&papers, call);
    }
    History { shape: "long", papers, book, taken, changed: None, calls: growing.calls }
}

/// A file of 2,000 letters put to books of about as many rows, and small files beside it, some of them the other owner's.
pub fn large(random: &mut Random) -> History {
    const SORT_OF_2_000_LETTERS: usize = 5;
    let many = Paper::new(stream::rare(random, SORT_OF_2_000_LETTERS).bytes);
    let small = sound_paper(random, (1, 1));
    let rows = 2_000 + random.pick(&[0, 0, 1, 1, 10]) - random.pick(&[0, 0, 0, 1]);
    let length = table_of(rows) + random.below(WIDTH);
    let (book, taken) = (empty_book(random, length), empty_taken(random, list_of(5)));
    let enough = 7 * many.reading.rows.len();
    let owner = random.pick(&OWNERS);
    let of_small = random.pick(&OWNERS);
    let enter = |paper: usize, file_number, owner, rows| Call::Enter { paper, file_number, owner, rows };
    let find = |owner, entry_number| Call::Find { owner, entry_number };
    let calls = vec![
        enter(0, 1, owner, enough - 1),
        enter(0, 1, owner, enough),
        enter(0, 1, owner, enough),
        enter(0, 1, other(owner), enough),
        find(owner, 1),
        find(owner, 1_999),
        find(owner, 2_000),
        find(other(owner), 2_000),
        enter(1, 2, of_small, 7_000),
        find(owner, 2_001),
        Call::Totals { owner },
        Call::Totals { owner: other(owner) },
        enter(0, 3, owner, enough + 3),
        find(owner, 2_002),
        Call::Withdraw { owner, entry_number: 2_000 },
        Call::Withdraw { owner, entry_number: 7 },
        find(owner, 7),
        enter(1, 4, of_small, 7_000),
        Call::Tidy,
        find(owner, 1_999),
        enter(1, 5, of_small, 7_000),
        Call::Totals { owner },
    ];
    History { shape: "large", papers: vec![many, small], book, taken, changed: None, calls }
}
