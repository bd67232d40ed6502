//! Separateness, for books grown from an empty one (readings 57 and 59): two histories in which one owner's calls are the same, and as many rows and as
//! many places of the list are free at each of them, whatever else was called, tidy-ups among it. What the owner is told, and its entries, are then
//! the same.

use peer_reader::random::Random;

use crate::call::{Call, History, Independent, Lent, Outcome, Side};
use crate::files::{any_paper, refused_paper, sound_paper, REFUSALS};
use crate::grow::{empty_book, empty_taken, Growing};
use crate::layout::{
    head, is_owner, list_of, other, places_claimed, places_there, row_start, rows_there, table_of, ACCEPTED, CLAIMED,
    DUPLICATE, FULL, NOENTRY, NUMBER, OWNER, OWNERS, WIDTH,
};
use crate::paper::Paper;
use crate::points::{named, Point};
use crate::put::put;
use crate::sheet::stranger;

/// Two histories that are to be alike to an owner.
#[derive(Clone, Debug)]
pub struct Pair {
    pub owner: u64,
    pub histories: [History; 2],
}

/// The calls of the one owner, the least and the most.
const CALLS: (usize, usize) = (3, 20);

/// At most so many files of the other owner between two calls of the one, of at most so many letters each.
const FILES_BETWEEN: usize = 2;
const MOST_LETTERS: usize = 3;

/// The places of the files of one, two and three letters among those of a pair.
const OF_LETTERS: [[usize; 2]; MOST_LETTERS] = [[3, 4], [5, 6], [7, 8]];

/// The files of both histories: for the one anything, for the other files of one to three letters, and one that is refused.
fn files(random: &mut Random) -> Vec<Paper> {
    let mut papers = vec![sound_paper(random, (1, 2)), any_paper(random), any_paper(random)];
    for letters in [1, 1, 2, 2, 3, 3] {
        papers.push(sound_paper(random, (letters, letters)));
    }
    let number = random.pick(&REFUSALS);
    papers.push(refused_paper(random, number));
    papers
}

/// How many files the other owner enters, and how many rows fewer are then free; below 0 where it withdraws more than it enters.
type Change = (usize, i64);

/// A pair. Books and lists may be of unlike length: what the other owner enters before the one's first call makes up for it.
pub fn pair(random: &mut Random) -> Pair {
    let owner = random.pick(&OWNERS);
    let papers = files(random);
    let room = random.pick(&[0, 1, 2, 5, 10, 20, 40]);
    let places = random.pick(&[0, 1, 3, 10, 40, 40]);
    // In some pairs the other owner does nothing at all in the one history.
    let quiet = random.percent(15);
    let mut ahead: [Change; 2] = [0, 1].map(|_| {
        let files = random.below(4);
        (files, random.between(files, files * MOST_LETTERS) as i64)
    });
    if quiet {
        ahead[0] = (0, 0);
    }
    let mut sides = ahead.map(|(files, rows)| Growing::new(room + rows as usize, places + files));
    let loud = usize::from(quiet);
    for (side, ahead) in sides.iter_mut().zip(ahead).skip(loud) {
        others(random, side, &papers, other(owner), ahead);
    }
    for _ in 0..random.between(CALLS.0, CALLS.1) {
        let call = sides[random.below(2)].any_call(random, &papers, owner);
        sides.iter_mut().for_each(|side| side.put(&papers, call));
        let change = if quiet { (0, 0) } else { common_change(random, &sides, other(owner)) };
        sides.iter_mut().skip(loud).for_each(|side| others(random, side, &papers, other(owner), change));
    }
    let histories = sides.map(|side| {
        let length = table_of(side.list.capacity) + random.below(WIDTH);
        let list_length = list_of(side.list.places) + random.below(2);
        let (book, taken) = (empty_book(random, length), empty_taken(random, list_length));
        History { shape: "apart", papers: papers.clone(), book, taken, changed: None, calls: side.calls }
    });
    Pair { owner, histories }
}

/// A change that the other owner can bring about on both sides.
fn common_change(random: &mut Random, sides: &[Growing; 2], owner: u64) -> Change {
    let least = |measure: &dyn Fn(&Growing) -> usize| sides.iter().map(measure).min().unwrap_or(0);
    let (free, places) = (least(&|side| side.list.free()), least(&|side| side.list.free_places()));
    let present = least(&|side| side.list.of(owner).count()) as i64;
    let files = random.below(places.min(FILES_BETWEEN) + 1);
    let most = free.min(files * MOST_LETTERS) as i64;
    // As many letters at least as files, so many withdrawn at most as are present.
    let fewest = (files as i64 - present).max(-2);
    if fewest > most {
        return (0, 0);
    }
    (files, fewest + random.below((most - fewest) as usize + 1) as i64)
}

/// Calls of the other owner that bring about a change, and calls that change nothing, its own, of numbers that are no owner, and tidy-ups.
fn others(random: &mut Random, side: &mut Growing, papers: &[Paper], owner: u64, (files, rows): Change) {
    let present = side.list.of(owner).count() as i64;
    let (fewest, most) = ((files as i64).max(rows), ((files * MOST_LETTERS) as i64).min(rows + present));
    let letters = fewest + random.below((most - fewest) as usize + 1) as i64;
    for _ in 0..letters - rows {
        idle(random, side, papers, owner);
        let entry_number = side.present(random, owner).expect("as many entries as are withdrawn");
        side.put(papers, Call::Withdraw { owner, entry_number });
    }
    let mut left = letters as usize;
    for later in (0..files).rev() {
        idle(random, side, papers, owner);
        let (fewest, most) = (left.saturating_sub(later * MOST_LETTERS).max(1), (left - later).min(MOST_LETTERS));
        let count = random.between(fewest, most);
        let paper = random.pick(&OF_LETTERS[count - 1]);
        let call = side.entering(random, papers, paper, owner);
        side.put(papers, call);
        left -= count;
    }
    idle(random, side, papers, owner);
}

/// Calls that change neither entries nor file numbers taken; a tidy-up is one of them.
fn idle(random: &mut Random, side: &mut Growing, papers: &[Paper], owner: u64) {
    while random.percent(50) {
        let whose = if random.percent(15) { stranger(random) } else { owner };
        let call = match random.percent(20) {
            true => Call::Tidy,
            false => side.any_call(random, papers, whose),
        };
        if side.after(papers, &call).is_none() {
            side.put(papers, call);
        }
    }
}

/// What an owner is told by one of its calls: how many rows and places were free before it, the answer, and the row table as the call left it.
#[derive(Clone, Debug, PartialEq, Eq)]
struct Told {
    call: Call,
    free: (usize, usize),
    outcome: Outcome,
    rows: Vec<u64>,
}

/// The rows that are claimed and there.
fn claimed_rows(book: &[u64]) -> Vec<&[u64]> {
    let claimed = rows_there(book.len()).min(head(book, CLAIMED) as usize);
    (0..claimed).map(|row| &book[row_start(row)..row_start(row) + WIDTH]).collect()
}

/// How many rows and places are free.
fn free(book: &[u64], taken: &[u64]) -> (usize, usize) {
    let entries = claimed_rows(book).iter().filter(|row| is_owner(row[OWNER])).count();
    let places = places_there(taken.len()).saturating_sub(places_claimed(taken) as usize);
    (rows_there(book.len()) - entries, places)
}

/// One call of a history, on book and list as they stand.
fn told(side: &dyn Side, papers: &[Paper], call: &Call, [book, taken]: [&mut Vec<u64>; 2]) -> Result<Told, String> {
    let free = free(book, taken);
    let mut rows: Vec<u64> = (0..call.rows() as u64).collect();
    let outcome = side.answer(papers, call, Lent { rows: &mut rows, book, taken })?;
    Ok(Told { call: *call, free, outcome, rows })
}

/// All that an owner is told in a history and, behind it, its totals and each entry number up to one above the last it was given; and its rows, by
/// their numbers: where they stand hangs on the gaps that there were.
fn all_told(side: &dyn Side, history: &History, owner: u64) -> Result<(Vec<Told>, Vec<Vec<u64>>), String> {
    let (mut book, mut taken) = (history.book.clone(), history.taken.clone());
    let mut all = Vec::new();
    for call in &history.calls {
        let told = told(side, &history.papers, call, [&mut book, &mut taken])?;
        all.extend((call.owner() == owner).then_some(told));
    }
    let given = |told: &Told| match told.outcome.answer[..] {
        [ACCEPTED, .., first] if matches!(told.call, Call::Enter { .. }) => first + told.outcome.answer[5] - 1,
        _ => 0,
    };
    let last = all.iter().map(given).max().unwrap_or(0);
    let mut asked = vec![Call::Totals { owner }];
    asked.extend((0..=last + 1).map(|entry_number| Call::Find { owner, entry_number }));
    for call in asked {
        all.push(told(side, &history.papers, &call, [&mut book, &mut taken])?);
    }
    let own = claimed_rows(&book).into_iter().filter(|row| row[OWNER] == owner);
    let mut own: Vec<Vec<u64>> = own.map(<[u64]>::to_vec).collect();
    own.sort();
    Ok((all, own))
}

/// Compares what the owner of a pair is told in its two histories by one side alone, answer by answer, and its entries, row by row.
pub fn compare(side: &dyn Side, pair: &Pair) -> Result<(), String> {
    let [one, two] = &pair.histories;
    let (told, rows) = all_told(side, one, pair.owner)?;
    let (told_too, rows_too) = all_told(side, two, pair.owner)?;
    if let Some((one, two)) = told.iter().zip(&told_too).find(|(one, two)| one != two) {
        return Err(format!("owner {} is told\n  {one:?}\nand\n  {two:?}", pair.owner));
    }
    match (told.len(), &rows) == (told_too.len(), &rows_too) {
        true => Ok(()),
        false => Err(format!("the rows of owner {} are\n  {rows:?}\nand\n  {rows_too:?}", pair.owner)),
    }
}

/// Compares what the owner of a pair is told by one side alone, and puts the second history to both sides; the first is put like any other. What
/// was answered in the second.
pub fn put_second(side: &dyn Side, pair: &Pair, random: &mut Random) -> Result<Vec<Outcome>, String> {
    compare(side, pair)?;
    put(side, &pair.histories[1], random, |_| {}).map_err(|broken| broken.difference)
}

pub const APART: [&str; 22] = [
    "owner 1",
    "owner 2",
    "unlike books",
    "unlike files, as many letters",
    "unlike file numbers",
    "more files, as many letters",
    "unlike look-ups",
    "unlike refusals",
    "calls of nobody in one alone",
    "a file number of the owner's that the other entered in one alone",
    "entries of the owner's",
    "FULL to the owner",
    "DUPLICATE to the owner",
    "no call of the other's in one",
    "unlike lists",
    "withdrawals of the other's, more in one",
    "tidy-ups in one alone",
    "a withdrawal of the owner's",
    "NOENTRY to the owner's withdrawal",
    "FULL to the owner for want of places alone",
    "an entering of the owner's after a withdrawal of the other's",
    "rows of the owner's that stand in another order",
];

/// A file that was entered: paper and file number.
type Entered = (usize, u64);

/// What an owner entered, in its order.
fn entered(history: &History, outcomes: &[Outcome], owner: u64) -> Vec<Entered> {
    let of = |(call, outcome): (&Call, &Outcome)| match *call {
        Call::Enter { paper, file_number, owner: whose, .. } if whose == owner && outcome.returned == ACCEPTED => {
            Some((paper, file_number))
        }
        _ => None,
    };
    history.calls.iter().zip(outcomes).filter_map(of).collect()
}

/// The numbers that refused an owner's calls.
fn refusals(history: &History, outcomes: &[Outcome], owner: u64) -> Vec<u64> {
    let calls = history.calls.iter().zip(outcomes).filter(|(call, _)| call.owner() == owner);
    calls.map(|(_, outcome)| outcome.returned).filter(|number| *number != ACCEPTED).collect()
}

/// The places of the withdrawals of an owner that were answered with 0.
fn withdrawals(history: &History, outcomes: &[Outcome], owner: u64) -> Vec<usize> {
    let is_one = |at: &usize| {
        let call = &history.calls[*at];
        matches!(call, Call::Withdraw { .. }) && call.owner() == owner && outcomes[*at].returned == ACCEPTED
    };
    (0..outcomes.len()).filter(is_one).collect()
}

/// Whether a withdrawal of an owner was NOENTRY.
fn refused_withdrawal(history: &History, outcomes: &[Outcome], owner: u64) -> bool {
    let calls = history.calls.iter().zip(outcomes);
    calls.into_iter().any(|(call, outcome)| {
        matches!(call, Call::Withdraw { .. }) && call.owner() == owner && outcome.returned == NOENTRY
    })
}

/// The history as it stands before each call, and at the end.
fn each_state(history: &History, mut show: impl FnMut(usize, &[u64], &[u64])) {
    let (mut book, mut taken) = (history.book.clone(), history.taken.clone());
    for (at, call) in history.calls.iter().enumerate() {
        show(at, &book, &taken);
        // The independent side, which answers everything.
        let _ = told(&Independent, &history.papers, call, [&mut book, &mut taken]);
    }
    show(history.calls.len(), &book, &taken);
}

/// Whether an owner's file was FULL though there was a free row for each of its letters.
fn full_for_places(history: &History, outcomes: &[Outcome], owner: u64) -> bool {
    let mut some = false;
    each_state(history, |at, book, taken| {
        let Some(Call::Enter { paper, owner: whose, .. }) = history.calls.get(at) else { return };
        let (rows, places) = free(book, taken);
        let full = *whose == owner && outcomes[at].returned == FULL;
        some |= full && places == 0 && rows >= history.papers[*paper].letters.len();
    });
    some
}

/// Whether an owner entered a file after the other had withdrawn an entry.
fn entered_after(history: &History, outcomes: &[Outcome], owner: u64) -> bool {
    let first = withdrawals(history, outcomes, other(owner)).first().copied().unwrap_or(outcomes.len());
    let entered = |at: usize| matches!(history.calls[at], Call::Enter { .. }) && outcomes[at].returned == ACCEPTED;
    (first..outcomes.len()).any(|at| entered(at) && history.calls[at].owner() == owner)
}

/// An owner's entry numbers at the end, in the order of the table.
fn order_of(history: &History, owner: u64) -> Vec<u64> {
    let mut order = Vec::new();
    each_state(history, |_, book, _| {
        let rows = claimed_rows(book);
        order = rows.iter().filter(|row| row[OWNER] == owner).map(|row| row[NUMBER]).collect();
    });
    order
}

/// What a pair shows, by what was answered in its two histories.
pub fn shown(pair: &Pair, outcomes: [&[Outcome]; 2]) -> Vec<Point> {
    let (owner, [one, two]) = (pair.owner, &pair.histories);
    let of = |owner| [entered(one, outcomes[0], owner), entered(two, outcomes[1], owner)];
    let ([own, _], [by_other, by_other_too]) = (of(owner), of(other(owner)));
    let letters = |all: &[Entered]| all.iter().map(|(paper, _)| one.papers[*paper].letters.len()).collect::<Vec<_>>();
    let as_many = letters(&by_other).iter().sum::<usize>() == letters(&by_other_too).iter().sum::<usize>();
    let papers = |all: &[Entered]| all.iter().map(|(paper, _)| *paper).collect::<Vec<_>>();
    let numbers = |all: &[Entered]| all.iter().map(|(_, number)| *number).collect::<Vec<_>>();
    let took = |all: &[Entered]| own.iter().any(|(_, number)| numbers(all).contains(number));
    let calls = |history: &History, wished: fn(&Call) -> bool| {
        history.calls.iter().filter(|call| call.owner() != owner && wished(call)).count()
    };
    let unlike = |wished: fn(&Call) -> bool| calls(one, wished) != calls(two, wished);
    let unlike_alone = |wished: fn(&Call) -> bool| (calls(one, wished) == 0) != (calls(two, wished) == 0);
    let refused = refusals(one, outcomes[0], owner);
    let of_other = |history: &History| history.calls.iter().any(|call| call.owner() == other(owner));
    let holds = [
        owner == OWNERS[0],
        owner == OWNERS[1],
        rows_there(one.book.len()) != rows_there(two.book.len()),
        letters(&by_other) == letters(&by_other_too) && papers(&by_other) != papers(&by_other_too),
        numbers(&by_other) != numbers(&by_other_too),
        as_many && by_other.len() != by_other_too.len(),
        unlike(|call| matches!(call, Call::Find { .. })),
        refusals(one, outcomes[0], other(owner)) != refusals(two, outcomes[1], other(owner)),
        unlike_alone(|call| !is_owner(call.owner()) && *call != Call::Tidy),
        took(&by_other) != took(&by_other_too),
        !own.is_empty() && !by_other.is_empty(),
        refused.contains(&FULL),
        refused.contains(&DUPLICATE),
        of_other(one) != of_other(two),
        places_there(one.taken.len()) != places_there(two.taken.len()),
        withdrawals(one, outcomes[0], other(owner)) != withdrawals(two, outcomes[1], other(owner)),
        unlike_alone(|call| *call == Call::Tidy),
        !withdrawals(one, outcomes[0], owner).is_empty(),
        refused_withdrawal(one, outcomes[0], owner),
        full_for_places(one, outcomes[0], owner),
        entered_after(one, outcomes[0], owner),
        order_of(one, owner) != order_of(two, owner),
    ];
    named(APART, holds, Point::Apart)
}
