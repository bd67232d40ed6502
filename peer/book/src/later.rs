//! What whole histories on an empty book show: the books they start with, and calls that come after others.

use crate::call::{Call, History, Outcome};
use crate::files::REFUSALS;
use crate::grow::is_empty;
use crate::layout::{is_owner, rows_there, ACCEPTED, DUPLICATE, FULL, HEAD, NOENTRY, ROOM, WIDTH};
use crate::points::{named, Point};

/// The points of a history; none where the book was not empty.
pub fn shown(history: &History, outcomes: &[Outcome]) -> Vec<Point> {
    if !is_empty(&history.book) {
        return Vec::new();
    }
    let entering = entering(history, outcomes);
    let mut points = grown(history, &entering);
    points.extend(later(history, outcomes, &entering));
    points.extend(withdrawn(history, outcomes, &entering));
    points
}

/// A file put to the book, and the number that came back.
#[derive(Clone, Copy)]
struct Entering {
    /// The place of the call.
    at: usize,
    paper: usize,
    file_number: u64,
    owner: u64,
    number: u64,
}

impl Entering {
    fn accepted(&self) -> bool {
        self.number == ACCEPTED
    }

    /// The same owner puts the same number to the book.
    fn repeats(&self, earlier: &Entering) -> bool {
        self.owner == earlier.owner && self.file_number == earlier.file_number
    }
}

fn entering(history: &History, outcomes: &[Outcome]) -> Vec<Entering> {
    let mut all = Vec::new();
    for (at, (call, outcome)) in history.calls.iter().zip(outcomes).enumerate() {
        if let Call::Enter { paper, file_number, owner, .. } = *call {
            all.push(Entering { at, paper, file_number, owner, number: outcome.returned });
        }
    }
    all
}

pub const GROWN: [&str; 8] = [
    "no whole head",
    "a head and no row",
    "one row",
    "100 rows or more",
    "zeros",
    "something where nothing is looked at",
    "50 calls or more",
    "40 entries or more",
];

fn grown(history: &History, entering: &[Entering]) -> Vec<Point> {
    let (length, rows) = (history.book.len(), rows_there(history.book.len()));
    let letters = |one: &Entering| history.papers[one.paper].letters.len();
    let entries: usize = entering.iter().filter(|one| one.accepted()).map(letters).sum();
    let zeros = history.book.iter().all(|number| *number == 0);
    let holds = [
        length < HEAD,
        (HEAD..HEAD + WIDTH).contains(&length),
        rows == 1,
        rows >= 100,
        zeros && rows > 0,
        !zeros && rows > 0,
        history.calls.len() >= 50,
        entries >= 40,
    ];
    named(GROWN, holds, Point::Grown)
}

pub const LATER: [&str; 15] = [
    "a number refused as FULL, entered",
    "a number refused by the reader, entered",
    "a number refused for ROOM, entered",
    "FULL, and fewer letters entered",
    "an entry found the same after more files",
    "totals after two files",
    "a file entered under two numbers",
    "DUPLICATE for the same file",
    "DUPLICATE for another file",
    "a file number entered for both owners",
    "a file entered for both owners",
    "FULL for one owner's rows, put by the other",
    "an entry number found for both owners",
    "an entry found the same after the other owner's files",
    "totals the same after the other owner's files",
];

/// What a call shows that comes after others.
fn later(history: &History, outcomes: &[Outcome], entering: &[Entering]) -> Vec<Point> {
    // Some earlier entering and some later one.
    let some = |holds: &dyn Fn(&Entering, &Entering) -> bool| {
        let earlier = |two: &Entering| entering.iter().filter(|one| one.at < two.at).any(|one| holds(one, two));
        entering.iter().any(earlier)
    };
    let refused_before =
        |why: &dyn Fn(u64) -> bool| some(&|one, two| why(one.number) && two.accepted() && two.repeats(one));
    let duplicate = |same_file: bool| {
        some(&|one, two| {
            let taken = one.accepted() && two.number == DUPLICATE && two.repeats(one);
            taken && (one.paper == two.paper) == same_file
        })
    };
    let for_both = |alike: &dyn Fn(&Entering, &Entering) -> bool| {
        some(&|one, two| one.accepted() && two.accepted() && one.owner != two.owner && alike(one, two))
    };
    let letters = |one: &Entering| history.papers[one.paper].letters.len();
    let filled_by_one = |two: &Entering| {
        let accepted = || entering.iter().filter(|one| one.at < two.at && one.accepted());
        two.number == FULL && accepted().count() > 0 && accepted().all(|one| one.owner != two.owner)
    };
    let totals_at = history.calls.iter().rposition(|call| matches!(call, Call::Totals { .. })).unwrap_or(0);
    let own = |one: &Entering, at: usize| one.owner == history.calls[at].owner();
    let found = |at: usize| matches!(history.calls[at], Call::Find { .. });
    let added_up = |at: usize| matches!(history.calls[at], Call::Totals { .. }) && outcomes[at].answer[1] > 0;
    let holds = [
        refused_before(&|number| number == FULL),
        refused_before(&|number| REFUSALS.contains(&number)),
        refused_before(&|number| number == ROOM),
        some(&|one, two| one.number == FULL && two.accepted() && letters(two) < letters(one)),
        told_the_same(history, outcomes, entering, found, own),
        entering.iter().filter(|one| one.at < totals_at && one.accepted() && own(one, totals_at)).count() >= 2,
        some(&|one, two| one.accepted() && two.accepted() && one.paper == two.paper && one.owner == two.owner),
        duplicate(true),
        duplicate(false),
        for_both(&|one, two| one.file_number == two.file_number),
        for_both(&|one, two| one.paper == two.paper),
        entering.iter().any(filled_by_one),
        found_for_both(history, outcomes),
        told_the_same(history, outcomes, entering, found, |one, at| !own(one, at)),
        told_the_same(history, outcomes, entering, added_up, |one, at| !own(one, at)),
    ];
    named(LATER, holds, Point::Later)
}

pub const WITHDRAWN: [&str; 15] = [
    "a withdrawn entry not found",
    "a withdrawn entry withdrawn again",
    "the number of a withdrawn entry asked for by the other owner, who has it",
    "DUPLICATE for the file of a withdrawn letter, another of which is present",
    "DUPLICATE for a file of which every letter was withdrawn",
    "numbered on though the last number was withdrawn",
    "FULL, and entered after a withdrawal",
    "FULL, and entered after the other owner's withdrawal",
    "FULL though every entry was withdrawn",
    "an entry found the same after a withdrawal and a tidy-up",
    "totals as before after a file was entered and withdrawn",
    "more letters entered than there are rows",
    "every entry withdrawn, and a file entered",
    "a tidy-up after a tidy-up",
    "a file entered after a tidy-up that closed gaps",
];

/// An entry that a history put in, and where it was withdrawn.
struct Lived {
    owner: u64,
    number: u64,
    file_number: u64,
    from: usize,
    to: Option<usize>,
}

/// Every entry of a history.
fn lived(history: &History, outcomes: &[Outcome], entering: &[Entering]) -> Vec<Lived> {
    let mut all: Vec<Lived> = Vec::new();
    for one in entering.iter().filter(|one| one.accepted()) {
        let (first, letters) = (outcomes[one.at].answer[12], outcomes[one.at].answer[5]);
        all.extend((first..first + letters).map(|number| {
            let (owner, file_number) = (one.owner, one.file_number);
            Lived { owner, number, file_number, from: one.at, to: None }
        }));
    }
    for (at, call) in history.calls.iter().enumerate().filter(|(at, _)| outcomes[*at].returned == ACCEPTED) {
        if let Call::Withdraw { owner, entry_number } = *call {
            let its = |entry: &&mut Lived| entry.owner == owner && entry.number == entry_number;
            if let Some(entry) = all.iter_mut().find(its) {
                entry.to = Some(at);
            }
        }
    }
    all
}

impl Lived {
    fn gone(&self, at: usize) -> bool {
        self.to.is_some_and(|to| to < at)
    }

    fn present(&self, at: usize) -> bool {
        self.from < at && !self.gone(at)
    }
}

/// A history with the lives of its entries.
struct Lives<'a> {
    history: &'a History,
    outcomes: &'a [Outcome],
    entering: &'a [Entering],
    all: Vec<Lived>,
}

impl Lives<'_> {
    fn calls(&self) -> std::ops::Range<usize> {
        0..self.history.calls.len()
    }

    fn answered(&self, at: usize, number: u64) -> bool {
        self.outcomes[at].returned == number
    }

    /// Whether a call looks this entry up, or withdraws it.
    fn asks(&self, at: usize, entry: &Lived, withdrawing: bool) -> bool {
        let its = (entry.owner, entry.number);
        match self.history.calls[at] {
            Call::Find { owner, entry_number } => !withdrawing && (owner, entry_number) == its,
            Call::Withdraw { owner, entry_number } => withdrawing && (owner, entry_number) == its,
            _ => false,
        }
    }

    /// A withdrawn entry is looked up, or withdrawn again.
    fn asked_again(&self, withdrawing: bool) -> bool {
        let again = |entry: &Lived, at: usize| {
            entry.gone(at) && self.asks(at, entry, withdrawing) && self.answered(at, NOENTRY)
        };
        self.all.iter().any(|entry| self.calls().any(|at| again(entry, at)))
    }

    /// A withdrawn number is looked up by the other owner, and found.
    fn found_by_the_other(&self) -> bool {
        let others = |one: &Lived, two: &Lived| two.owner != one.owner && two.number == one.number;
        let had = |entry: &Lived, at: usize| {
            self.all.iter().any(|two| others(entry, two) && self.asks(at, two, false)) && self.answered(at, ACCEPTED)
        };
        self.all.iter().any(|entry| self.calls().any(|at| entry.gone(at) && had(entry, at)))
    }

    /// DUPLICATE for a file of which a letter was withdrawn, and another is left or not.
    fn duplicate(&self, left: bool) -> bool {
        self.entering.iter().filter(|one| one.number == DUPLICATE).any(|one| {
            let its = |entry: &&Lived| (entry.owner, entry.file_number) == (one.owner, one.file_number);
            let some_left = self.all.iter().filter(its).any(|entry| entry.present(one.at));
            some_left == left && self.all.iter().filter(its).any(|entry| entry.gone(one.at))
        })
    }

    fn numbered_on(&self) -> bool {
        self.entering.iter().filter(|one| one.accepted()).any(|one| {
            let before = self.outcomes[one.at].answer[12] - 1;
            let is_last = |entry: &Lived| entry.owner == one.owner && entry.number == before;
            self.all.iter().any(|entry| is_last(entry) && entry.gone(one.at))
        })
    }

    /// FULL, and the same entered after the owner withdrew something, or the other did.
    fn freed(&self, same_owner: bool) -> bool {
        let between = |from: usize, to: usize, owner: u64| {
            let then = |entry: &Lived| entry.to.is_some_and(|at| (from..to).contains(&at));
            self.all.iter().any(|entry| then(entry) && (entry.owner == owner) == same_owner)
        };
        let full = |two: &Entering| {
            let refused = |one: &&Entering| one.at < two.at && one.number == FULL && two.repeats(one);
            self.entering.iter().filter(refused).any(|one| between(one.at, two.at, one.owner))
        };
        self.entering.iter().any(|two| two.accepted() && full(two))
    }

    /// A file is answered so in a book from which everything was withdrawn.
    fn on_none(&self, number: u64) -> bool {
        let none =
            |at: usize| self.all.iter().all(|entry| !entry.present(at)) && self.all.iter().any(|entry| entry.gone(at));
        self.entering.iter().any(|one| one.number == number && none(one.at))
    }

    /// Two calls that are the same and are answered the same.
    fn alike(&self, from: usize, to: usize) -> bool {
        self.history.calls[from] == self.history.calls[to] && self.outcomes[from] == self.outcomes[to]
    }

    fn tidy_ups(&self) -> Vec<usize> {
        self.calls().filter(|at| self.history.calls[*at] == Call::Tidy).collect()
    }

    /// Tidy-ups after a withdrawal.
    fn closing(&self) -> Vec<usize> {
        let closes = |at: &usize| self.all.iter().any(|entry| entry.gone(*at));
        self.tidy_ups().into_iter().filter(closes).collect()
    }

    fn found_after_a_tidy_up(&self) -> bool {
        let find = |at: &usize| matches!(self.history.calls[*at], Call::Find { .. }) && self.answered(*at, ACCEPTED);
        self.closing().into_iter().any(|tidy| {
            let later = |from: usize| (tidy..self.calls().end).filter(find).any(|to| self.alike(from, to));
            (0..tidy).filter(find).any(later)
        })
    }

    fn entered_after_a_tidy_up(&self) -> bool {
        self.closing().into_iter().any(|tidy| self.entering.iter().any(|one| one.at > tidy && one.accepted()))
    }

    /// Totals as before, though a file of the owner was entered and withdrawn between.
    fn totals_back(&self) -> bool {
        let asked = |at: usize| matches!(self.history.calls[at], Call::Totals { owner } if is_owner(owner));
        let lived = |from: usize, to: usize| {
            let own = |entry: &&Lived| entry.owner == self.history.calls[to].owner();
            self.all.iter().filter(own).any(|entry| entry.from > from && entry.gone(to))
        };
        let back = |from: usize| (from + 1..self.calls().end).any(|to| self.alike(from, to) && lived(from, to));
        self.calls().any(|from| asked(from) && back(from))
    }
}

/// What calls show that come after a withdrawal or a tidy-up.
fn withdrawn(history: &History, outcomes: &[Outcome], entering: &[Entering]) -> Vec<Point> {
    let all = lived(history, outcomes, entering);
    let lives = Lives { history, outcomes, entering, all };
    let tidy_ups = lives.tidy_ups();
    let holds = [
        lives.asked_again(false),
        lives.asked_again(true),
        lives.found_by_the_other(),
        lives.duplicate(true),
        lives.duplicate(false),
        lives.numbered_on(),
        lives.freed(true),
        lives.freed(false),
        lives.on_none(FULL),
        lives.found_after_a_tidy_up(),
        lives.totals_back(),
        lives.all.len() > rows_there(history.book.len()),
        lives.on_none(ACCEPTED),
        tidy_ups.windows(2).any(|two| two[0] + 1 == two[1]) || tidy_ups.len() > 2,
        lives.entered_after_a_tidy_up(),
    ];
    named(WITHDRAWN, holds, Point::Later)
}

/// The same entry number looked up for both owners, and found.
fn found_for_both(history: &History, outcomes: &[Outcome]) -> bool {
    let found = |at: &usize| matches!(history.calls[*at], Call::Find { .. }) && outcomes[*at].returned == ACCEPTED;
    let all: Vec<usize> = (0..outcomes.len()).filter(found).collect();
    let number = |at: usize| outcomes[at].answer[1];
    let both = |one: usize, two: usize| number(one) == number(two) && history.calls[one] != history.calls[two];
    all.iter().any(|one| all.iter().any(|two| both(*one, *two)))
}

/// The same call answered the same twice, with a file entered between, whose owner is as it is wished for.
fn told_the_same(
    history: &History,
    outcomes: &[Outcome],
    entering: &[Entering],
    asked: impl Fn(usize) -> bool,
    wished: impl Fn(&Entering, usize) -> bool,
) -> bool {
    let asked = |at: &usize| asked(*at) && outcomes[*at].returned == ACCEPTED;
    let alike = |from: usize, to: usize| history.calls[from] == history.calls[to] && outcomes[from] == outcomes[to];
    entering.iter().filter(|one| one.accepted()).any(|one| {
        let before: Vec<usize> = (0..one.at).filter(asked).collect();
        let mut behind = (one.at + 1..history.calls.len()).filter(asked).filter(|to| wished(one, *to));
        behind.any(|to| before.iter().any(|from| alike(*from, to)))
    })
}
