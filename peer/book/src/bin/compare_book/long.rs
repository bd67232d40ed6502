//! The plain list beside a long history on an empty book.

use peer_book::call::History;
use peer_book::list::List;
use peer_book::model::{empty, holds, listed};
use peer_book::put::Seen;

/// So often the tables are held against the list, entry by entry; every answer is.
const EVERY: usize = 25;

pub struct Beside {
    list: List,
    difference: Option<String>,
}

impl Beside {
    pub fn new(history: &History) -> Beside {
        Beside { list: empty(&history.book, &history.taken), difference: None }
    }

    /// Looks at a call as both sides answered it.
    pub fn look_at(&mut self, seen: &Seen) {
        let last = seen.at + 1 == seen.history.calls.len();
        let held = !(seen.at.is_multiple_of(EVERY) || last) || holds(&self.list, seen.before, seen.taken);
        let due = listed(&mut self.list, &seen.history.papers, seen.call());
        if self.difference.is_none() && (!held || due != *seen.outcome) {
            let (at, call, outcome) = (seen.at + 1, seen.call(), seen.outcome);
            let words = if held { "the answer is another" } else { "the tables before it hold something else" };
            self.difference = Some(format!("call {at}, {call:?}: {words}\n  both {outcome:?}\n  list {due:?}"));
        }
    }

    pub fn difference(self) -> Option<String> {
        self.difference
    }
}
