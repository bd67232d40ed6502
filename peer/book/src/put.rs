//! A history put to both sides, call by call: the number that comes back, the answer, every number of the book, of the list of file
//! numbers taken and of the row table, and a guard on either side of each.

use peer_reader::random::Random;

use crate::call::{Call, History, Independent, Lent, Outcome, Side};

/// Numbers on either side of what is lent, which no call may touch.
const GUARD: usize = 9;

/// A call of a history as it was answered.
pub struct Seen<'a> {
    pub history: &'a History,
    /// The place of the call in the history.
    pub at: usize,
    /// The table before the call.
    pub before: &'a [u64],
    /// The list of file numbers taken before the call.
    pub taken: &'a [u64],
    pub outcome: &'a Outcome,
}

impl Seen<'_> {
    pub fn call(&self) -> &Call {
        &self.history.calls[self.at]
    }
}

/// The first call on which the sides differ, the table and the list that it was put to, and how they differ.
#[derive(Clone, Debug)]
pub struct Broken {
    pub at: usize,
    pub book: Vec<u64>,
    pub taken: Vec<u64>,
    pub difference: String,
}

/// Puts a history to the independent side and to another. Each call is shown as the independent side answered it.
pub fn put(
    side: &dyn Side,
    history: &History,
    random: &mut Random,
    mut show: impl FnMut(&Seen),
) -> Result<Vec<Outcome>, Broken> {
    let (mut book, mut taken) = (history.book.clone(), history.taken.clone());
    let mut outcomes = Vec::new();
    for (at, call) in history.calls.iter().enumerate() {
        let (before, taken_before) = (book.clone(), taken.clone());
        let outcome = one_call(side, history, call, [&mut book, &mut taken], random);
        let outcome = outcome.map_err(|difference| {
            let (book, taken) = (before.clone(), taken_before.clone());
            Broken { at, book, taken, difference }
        })?;
        show(&Seen { history, at, before: &before, taken: &taken_before, outcome: &outcome });
        outcomes.push(outcome);
    }
    Ok(outcomes)
}

/// Numbers that are lent, with a guard on either side.
#[derive(Clone, PartialEq, Eq)]
struct Guarded(Vec<u64>);

impl Guarded {
    /// What stands around the numbers is drawn anew for each call.
    fn around(numbers: &[u64], random: &mut Random) -> Guarded {
        let mut guard = || (0..GUARD).map(|_| random.draw()).collect::<Vec<u64>>();
        Guarded([guard(), numbers.to_vec(), guard()].concat())
    }

    fn lent(&mut self) -> &mut [u64] {
        let end = self.0.len() - GUARD;
        &mut self.0[GUARD..end]
    }

    /// The first place at which two differ, counted from the first number that is lent.
    fn unlike(&self, other: &Guarded) -> Option<(i64, u64, u64)> {
        let at = (0..self.0.len()).find(|at| self.0[*at] != other.0[*at])?;
        Some((at as i64 - GUARD as i64, self.0[at], other.0[at]))
    }
}

/// What is lent to a call, each with a guard on either side: row table, book, list.
type LentGuarded = [Guarded; 3];

/// The names of what is lent.
const NAMES: [&str; 3] = ["row table", "book", "list"];

/// A call put to one side.
fn answered(side: &dyn Side, history: &History, call: &Call, lent: &mut LentGuarded) -> Result<Outcome, String> {
    let [rows, book, taken] = lent;
    side.answer(&history.papers, call, Lent { rows: rows.lent(), book: book.lent(), taken: taken.lent() })
}

/// One call put to both sides; book and list are left as the call leaves them.
fn one_call(
    side: &dyn Side,
    history: &History,
    call: &Call,
    [book, taken]: [&mut Vec<u64>; 2],
    random: &mut Random,
) -> Result<Outcome, String> {
    let start = random.draw();
    let before: Vec<u64> = (0..call.rows() as u64).map(|place| start.wrapping_add(place)).collect();
    let mut ours = [&before, &*book, &*taken].map(|numbers| Guarded::around(numbers, random));
    let mut theirs = ours.clone();
    let expected = answered(&Independent, history, call, &mut ours)?;
    let outcome = answered(side, history, call, &mut theirs)?;
    if outcome != expected {
        return Err(format!("\n  proved      {outcome:?}\n  independent {expected:?}"));
    }
    for (name, (ours, theirs)) in NAMES.into_iter().zip(ours.iter().zip(&theirs)) {
        if let Some((at, ours, theirs)) = ours.unlike(theirs) {
            let words = format!("{expected:?}: number {at} of the {name}");
            return Err(format!("{words}\n  proved      {theirs}\n  independent {ours}"));
        }
    }
    book.copy_from_slice(ours[1].lent());
    taken.copy_from_slice(ours[2].lent());
    Ok(expected)
}
