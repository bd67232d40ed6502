//! The calls of the book, histories of them, and a side that answers them: the book over a table, the second opinion, or the proved library.

use crate::paper::Paper;
use crate::{opinion, table};

/// One call on a book.
#[derive(Clone, Copy, Debug, PartialEq, Eq)]
pub enum Call {
    /// A file of the history, by its place there, and the length of the row table.
    Enter {
        paper: usize,
        file_number: u64,
        owner: u64,
        rows: usize,
    },
    Find {
        owner: u64,
        entry_number: u64,
    },
    Totals {
        owner: u64,
    },
    Withdraw {
        owner: u64,
        entry_number: u64,
    },
    Tidy,
}

/// Which call.
#[derive(Clone, Copy, Debug, PartialEq, Eq, PartialOrd, Ord)]
pub enum Kind {
    Enter,
    Find,
    Totals,
    Withdraw,
    Tidy,
}

pub const KINDS: [Kind; 5] = [Kind::Enter, Kind::Find, Kind::Totals, Kind::Withdraw, Kind::Tidy];

/// The calls that are lent the list of file numbers taken (reading 59).
pub const WITH_LIST: [Kind; 3] = [Kind::Enter, Kind::Withdraw, Kind::Tidy];

/// The owner of a tidy-up, which is nobody's call.
pub const NO_OWNER: u64 = 0;

impl Call {
    pub fn kind(&self) -> Kind {
        match self {
            Call::Enter { .. } => Kind::Enter,
            Call::Find { .. } => Kind::Find,
            Call::Totals { .. } => Kind::Totals,
            Call::Withdraw { .. } => Kind::Withdraw,
            Call::Tidy => Kind::Tidy,
        }
    }

    /// Who calls; an owner, or a number that is none.
    pub fn owner(&self) -> u64 {
        match *self {
            Call::Enter { owner, .. } | Call::Find { owner, .. } | Call::Totals { owner } => owner,
            Call::Withdraw { owner, .. } => owner,
            Call::Tidy => NO_OWNER,
        }
    }

    /// The length of the row table that is lent.
    pub fn rows(&self) -> usize {
        match self {
            Call::Enter { rows, .. } => *rows,
            _ => 0,
        }
    }
}

/// The number that comes back, and the answer; a withdrawal and a tidy-up have none.
#[derive(Clone, Debug, PartialEq, Eq)]
pub struct Outcome {
    pub returned: u64,
    pub answer: Vec<u64>,
}

impl Outcome {
    /// Of a side that returns the answer's own number.
    pub fn of(answer: &[u64]) -> Outcome {
        Outcome { returned: answer[0], answer: answer.to_vec() }
    }

    /// Of a call that returns a number and no more.
    pub fn bare(returned: u64) -> Outcome {
        Outcome { returned, answer: Vec::new() }
    }
}

/// What a call is lent to write into; finding and totals are not lent the list of file numbers taken, a withdrawal and a tidy-up only to look at.
pub struct Lent<'a> {
    pub rows: &'a mut [u64],
    pub book: &'a mut [u64],
    pub taken: &'a mut [u64],
}

/// Calls one after another on one book, and the files that they put to it.
#[derive(Clone, Debug)]
pub struct History {
    pub shape: &'static str,
    pub papers: Vec<Paper>,
    /// The table before the first call.
    pub book: Vec<u64>,
    /// The list of file numbers taken before the first call.
    pub taken: Vec<u64>,
    /// The place of the one number by which the table differs from a sound book, where that is known.
    pub changed: Option<usize>,
    pub calls: Vec<Call>,
}

/// Who answers the calls.
pub trait Side {
    fn enter(&self, paper: &Paper, file_number: u64, owner: u64, lent: Lent) -> Result<Outcome, String>;
    fn find(&self, owner: u64, entry_number: u64, lent: Lent) -> Result<Outcome, String>;
    fn totals(&self, owner: u64, lent: Lent) -> Result<Outcome, String>;
    fn withdraw(&self, owner: u64, entry_number: u64, lent: Lent) -> Result<Outcome, String>;
    fn tidy(&self, lent: Lent) -> Result<Outcome, String>;

    /// Any call of a history.
    fn answer(&self, papers: &[Paper], call: &Call, lent: Lent) -> Result<Outcome, String> {
        match *call {
            Call::Enter { paper, file_number, owner, .. } => self.enter(&papers[paper], file_number, owner, lent),
            Call::Find { owner, entry_number } => self.find(owner, entry_number, lent),
            Call::Totals { owner } => self.totals(owner, lent),
            Call::Withdraw { owner, entry_number } => self.withdraw(owner, entry_number, lent),
            Call::Tidy => self.tidy(lent),
        }
    }
}

/// The book over a table.
pub struct Independent;

impl Side for Independent {
    fn enter(&self, paper: &Paper, file_number: u64, owner: u64, lent: Lent) -> Result<Outcome, String> {
        Ok(Outcome::of(&table::enter(paper, file_number, owner, lent.rows, lent.book, lent.taken)))
    }

    fn find(&self, owner: u64, entry_number: u64, lent: Lent) -> Result<Outcome, String> {
        Ok(Outcome::of(&table::find(lent.book, owner, entry_number)))
    }

    fn totals(&self, owner: u64, lent: Lent) -> Result<Outcome, String> {
        Ok(Outcome::of(&table::totals(lent.book, owner)))
    }

    fn withdraw(&self, owner: u64, entry_number: u64, lent: Lent) -> Result<Outcome, String> {
        Ok(Outcome::bare(table::withdraw(lent.book, lent.taken, owner, entry_number)))
    }

    fn tidy(&self, lent: Lent) -> Result<Outcome, String> {
        Ok(Outcome::bare(table::tidy(lent.book, lent.taken)))
    }
}

/// The second opinion, which also stands in for the proved library where there is none.
pub struct SecondOpinion;

impl Side for SecondOpinion {
    fn enter(&self, paper: &Paper, file_number: u64, owner: u64, lent: Lent) -> Result<Outcome, String> {
        Ok(Outcome::of(&opinion::enter(paper, file_number, owner, lent.rows, lent.book, lent.taken)))
    }

    fn find(&self, owner: u64, entry_number: u64, lent: Lent) -> Result<Outcome, String> {
        Ok(Outcome::of(&opinion::find(lent.book, owner, entry_number)))
    }

    fn totals(&self, owner: u64, lent: Lent) -> Result<Outcome, String> {
        Ok(Outcome::of(&opinion::totals(lent.book, owner)))
    }

    fn withdraw(&self, owner: u64, entry_number: u64, lent: Lent) -> Result<Outcome, String> {
        Ok(Outcome::bare(opinion::withdraw(lent.book, lent.taken, owner, entry_number)))
    }

    fn tidy(&self, lent: Lent) -> Result<Outcome, String> {
        Ok(Outcome::bare(opinion::tidy(lent.book, lent.taken)))
    }
}
