//! What the histories of a run have covered, as the independent side saw them.

use std::collections::{BTreeMap, BTreeSet};

use peer_reader::charset::Set;
use peer_reader::descent::Row;

use crate::apart::{self, Pair, APART};
use crate::call::{Call, History, Kind, Outcome, KINDS, NO_OWNER, WITH_LIST};
use crate::files::{read_number, short_tables, REFUSALS};
use crate::later::{self, GROWN, LATER, WITHDRAWN};
use crate::layout::{
    head, in_range, is_judged, is_owner, last, net, net_of, other, place_start, places_claimed, places_there,
    row_start, rows_there, total, Figures, ACCEPTED, BOOK, BOUND, CLAIMED, CREDIT_CENTS, DEBIT_CENTS, DUPLICATE,
    FIGURES, FILE_NUMBER, FULL, HEAD, NOENTRY, NUMBER, OWNER, OWNERS, PLACE, RANGE, ROOM, SIX, WIDTH,
};
use crate::paper::{sums, Paper};
use crate::put::Seen;
use crate::tamper::{
    ordered_pairs, CAUSES, CAUSE_LAST, CAUSE_PLACES, CAUSE_ROWS, HELD, OWNER_CHANGES, SHORT, SHORT_LIST,
};

/// Where a number stands in a table.
#[derive(Clone, Copy, Debug, PartialEq, Eq, PartialOrd, Ord)]
pub enum Place {
    Head(usize),
    /// The first, a middle or the last of three or more claimed rows, of either owner, and which of its numbers.
    Row(&'static str, usize),
    /// A claimed row of neither owner, and which of its numbers.
    Stray(usize),
    /// A row behind those claimed.
    Spare,
    /// Behind the last whole row.
    Tail,
}

/// One thing that a run is to show.
#[derive(Clone, Copy, Debug, PartialEq, Eq, PartialOrd, Ord)]
pub enum Point {
    /// A number given to an owner, or to a number that is none.
    Answer(Kind, u64, Caller),
    /// BOOK for more rows claimed than there are.
    Claim(Kind, &'static str),
    /// BOOK for one running total of an owner alone.
    Sum(Kind, u64, usize, &'static str),
    /// BOOK for the net position of an owner alone.
    Net(Kind, u64, &'static str),
    /// BOOK for a running total or the net position of an owner alone, in a call of this one.
    Whose(Kind, u64, Caller),
    /// A row became another's: from, to, whether it had figures, and whether the answer was BOOK.
    OwnerChanged(Kind, Caller, Caller, bool, bool),
    /// A sound book but for one number, and whether the answer was BOOK.
    Changed(Kind, Place, bool),
    /// A table of so many numbers, and whether the answer was BOOK.
    Short(Kind, usize, bool),
    /// BOOK for the last number of a table that ends within the head.
    ShortEnd(Kind, usize),
    /// BOOK for more places claimed in the list than there are.
    ListClaim(Kind, &'static str),
    /// A list of so many numbers, and whether the answer was BOOK.
    ShortList(Kind, usize, bool),
    /// FULL for this cause alone, or just not.
    Full(u64, usize, &'static str),
    /// Entered, though the other owner could not have: for a running total, or the last number.
    FullForTheOther(u64, usize),
    /// RANGE for an owner, or just not, above or below.
    Range(u64, bool, &'static str),
    Duplicate(&'static str),
    /// Entered, though something has the number.
    NoDuplicate(&'static str),
    /// The first refusal was given, and the second was due too.
    Order(u64, u64),
    Found(&'static str),
    NotFound(&'static str),
    /// Withdrawn, by where the row stands and which others have the number; and by what it takes with it.
    Withdrawn(&'static str),
    Withdrawal(&'static str),
    NotWithdrawn(&'static str),
    /// RANGE to a withdrawal of an owner, or just not, above or below.
    WithdrawRange(u64, bool, &'static str),
    /// The first refusal of a withdrawal was given, and the second was due too.
    WithdrawOrder(&'static str),
    Tidied(&'static str),
    /// Where the rows stand into which a file was entered, or was not.
    Gap(&'static str),
    Totals(&'static str),
    /// A running total of an owner of 2^64 - 1.
    Brim(u64, usize),
    /// A net position that totals tells.
    Held(u64, i128),
    Entered(&'static str),
    /// A file entered with letters unlike in this figure.
    Unlike(usize),
    /// A 61 in a file that was entered: in EBCDIC, directly in its letter, a debit, with a view.
    Credit(bool, bool, bool, bool),
    Room(&'static str),
    /// What later calls of a history on an empty book show.
    Later(&'static str),
    Grown(&'static str),
    /// What a pair of histories shows that are alike to an owner.
    Apart(&'static str),
}

/// Who calls, or whose a row is.
#[derive(Clone, Copy, Debug, PartialEq, Eq, PartialOrd, Ord)]
pub enum Caller {
    Owner(u64),
    /// A number that is no owner: 0, 3, 2^64 - 1 or another.
    Nobody(Option<u64>),
}

/// The numbers that are no owner and are told apart.
const NOBODIES: [u64; 3] = [0, 3, u64::MAX];

const NOBODY: Caller = Caller::Nobody(None);

impl Caller {
    fn of(number: u64) -> Caller {
        match is_owner(number) {
            true => Caller::Owner(number),
            false => Caller::Nobody(NOBODIES.contains(&number).then_some(number)),
        }
    }

    /// Owner or not, and nothing more.
    fn or_nobody(number: u64) -> Caller {
        match is_owner(number) {
            true => Caller::Owner(number),
            false => NOBODY,
        }
    }

    /// All that are told apart.
    fn all() -> Vec<Caller> {
        let nobodies = NOBODIES.into_iter().map(|number| Caller::Nobody(Some(number)));
        OWNERS.into_iter().map(Caller::Owner).chain(nobodies).chain([NOBODY]).collect()
    }
}

/// How often each point was met.
#[derive(Clone, Debug, Default)]
pub struct Tally {
    met: BTreeMap<Point, u64>,
}

impl Tally {
    pub fn add(&mut self, other: &Tally) {
        other.met.iter().for_each(|(point, count)| *self.met.entry(*point).or_insert(0) += count);
    }

    fn meet(&mut self, points: Vec<Point>) {
        let points: BTreeSet<Point> = points.into_iter().collect();
        points.into_iter().for_each(|point| *self.met.entry(point).or_insert(0) += 1);
    }

    /// Notes what one call shows, each point once.
    pub fn note(&mut self, seen: &Seen) {
        self.meet(shown(seen));
    }

    /// Notes what a whole history shows.
    pub fn note_history(&mut self, history: &History, outcomes: &[Outcome]) {
        self.meet(later::shown(history, outcomes));
    }

    /// Notes what a pair of histories shows.
    pub fn note_pair(&mut self, pair: &Pair, outcomes: [&[Outcome]; 2]) {
        self.meet(apart::shown(pair, outcomes));
    }

    /// The points of a whole run that were not met.
    pub fn missing(&self) -> Vec<Point> {
        demanded().into_iter().filter(|point| !self.met.contains_key(point)).collect()
    }

    /// A line for each group: met of demanded.
    pub fn report(&self) -> String {
        let mut groups: BTreeMap<String, (usize, usize, u64)> = BTreeMap::new();
        for point in demanded() {
            let count = self.met.get(&point).copied().unwrap_or(0);
            let name = format!("{point:?}").split('(').next().unwrap_or_default().to_string();
            let group = groups.entry(name).or_insert((0, 0, u64::MAX));
            *group = (group.0 + usize::from(count > 0), group.1 + 1, group.2.min(count));
        }
        let line = |(name, (met, of, least)): (String, (usize, usize, u64))| {
            format!("  {name}: {met} of {of}, the rarest met {least} times\n")
        };
        groups.into_iter().map(line).collect()
    }
}

/// The points of the names that hold.
pub fn named<const COUNT: usize>(
    names: [&'static str; COUNT],
    holds: [bool; COUNT],
    point: impl Fn(&'static str) -> Point,
) -> Vec<Point> {
    names.into_iter().zip(holds).filter(|(_, holds)| *holds).map(|(name, _)| point(name)).collect()
}

/// Table and list as they are looked at here: what they claim, and the rows and places that are both claimed and there.
struct Looked<'a> {
    book: &'a [u64],
    claimed: u64,
    there: usize,
    rows: Vec<&'a [u64]>,
    spare: Vec<&'a [u64]>,
    taken: &'a [u64],
    places: Vec<&'a [u64]>,
    free_places: Vec<&'a [u64]>,
}

impl<'a> Looked<'a> {
    fn at(book: &'a [u64], taken: &'a [u64]) -> Looked<'a> {
        let (claimed, there) = (head(book, CLAIMED), rows_there(book.len()));
        let row = |row| &book[row_start(row)..row_start(row) + WIDTH];
        let both = claimed.min(there as u64) as usize;
        let place = |place| &taken[place_start(place)..place_start(place) + PLACE];
        let all_places = places_there(taken.len());
        let places = places_claimed(taken).min(all_places as u64) as usize;
        Looked {
            book,
            claimed,
            there,
            rows: (0..both).map(row).collect(),
            spare: (both..there).map(row).collect(),
            taken,
            places: (0..places).map(place).collect(),
            free_places: (places..all_places).map(place).collect(),
        }
    }

    fn list_claims_too_much(&self) -> bool {
        places_claimed(self.taken) > places_there(self.taken.len()) as u64
    }

    /// Not BOOK in a call that is lent both.
    fn both_sound(&self) -> bool {
        self.is_book() && !self.list_claims_too_much()
    }

    /// The claimed places that have a file number for an owner.
    fn taken_by(&self, owner: u64, file_number: u64) -> Vec<usize> {
        (0..self.places.len()).filter(|place| self.places[*place] == [owner, file_number]).collect()
    }

    /// The rows that a file of so many letters gets: the lowest gaps, then those behind.
    fn rows_for(&self, letters: usize) -> Vec<&'a [u64]> {
        self.strays().into_iter().chain(self.spare.iter().copied()).take(letters).collect()
    }

    fn head(&self, place: usize) -> u64 {
        head(self.book, place)
    }

    fn claims_too_much(&self) -> bool {
        self.claimed > self.there as u64
    }

    /// An owner's rows, or those that have a number for an owner that is none.
    fn rows_of(&self, owner: u64) -> Vec<&'a [u64]> {
        self.rows.iter().filter(|row| row[OWNER] == owner).copied().collect()
    }

    /// The rows of neither owner, which are gaps.
    fn strays(&self) -> Vec<&'a [u64]> {
        self.rows.iter().filter(|row| !is_owner(row[OWNER])).copied().collect()
    }

    fn sum(&self, owner: u64, figure: usize) -> u128 {
        sum_of(&self.rows_of(owner), figure)
    }

    /// The net position that is stated for an owner.
    fn net(&self, owner: u64) -> i128 {
        i128::from(self.head(net(owner)) as i64)
    }

    /// The running totals, and behind the last of them the net position, that are not the sums of their owner's rows.
    fn off(&self) -> Vec<(u64, usize)> {
        let all = OWNERS.into_iter().flat_map(|owner| (0..=SIX).map(move |figure| (owner, figure)));
        let is_off = |owner, figure| match figure {
            SIX => net_in(&self.rows_of(owner)) != self.net(owner),
            _ => self.sum(owner, figure) != u128::from(self.head(total(owner, figure))),
        };
        all.filter(|(owner, figure)| is_off(*owner, *figure)).collect()
    }

    fn is_book(&self) -> bool {
        !self.claims_too_much() && self.off().is_empty()
    }

    fn free(&self) -> usize {
        self.strays().len() + self.spare.len()
    }

    /// The rows of an owner that have this number in this column.
    fn with(&self, owner: u64, column: usize, number: u64) -> Vec<usize> {
        let has = |row: &usize| self.rows[*row][column] == number && self.rows[*row][OWNER] == owner;
        (0..self.rows.len()).filter(has).collect()
    }
}

/// The net position of some rows.
fn net_in(rows: &[&[u64]]) -> i128 {
    sum_of(rows, CREDIT_CENTS) as i128 - sum_of(rows, DEBIT_CENTS) as i128
}

/// A figure of some rows added up.
fn sum_of(rows: &[&[u64]], figure: usize) -> u128 {
    rows.iter().map(|row| u128::from(row[FIGURES + figure])).sum()
}

fn shown(seen: &Seen) -> Vec<Point> {
    let look = Looked::at(seen.before, seen.taken);
    let (kind, owner) = (seen.call().kind(), seen.call().owner());
    let number = seen.outcome.returned;
    let mut points = vec![Point::Answer(kind, number, Caller::of(owner))];
    points.extend(book_points(kind, owner, &look, number == BOOK));
    points.extend(changed(seen, kind));
    match *seen.call() {
        Call::Enter { paper, file_number, rows, .. } => {
            points.extend(entering(&look, &seen.history.papers[paper], file_number, owner, rows, number));
        }
        Call::Find { entry_number, .. } if number == ACCEPTED => {
            points.extend(found(&look, owner, entry_number, Point::Found));
        }
        Call::Find { entry_number, .. } if number == NOENTRY && is_owner(owner) => {
            points.extend(not_found(&look, owner, entry_number, Point::NotFound));
        }
        Call::Totals { .. } if number == ACCEPTED => points.extend(totals(&look, owner)),
        Call::Withdraw { entry_number, .. } => points.extend(withdrawing(&look, owner, entry_number, number)),
        Call::Tidy if number == ACCEPTED => points.extend(tidied(&look)),
        _ => {}
    }
    points
}

const CLAIMS: [&str; 6] = [
    "one more than there are",
    "nine times it seems to fit",
    "its low half fits",
    "2^64 - 1",
    "one in a table of none",
    "its high bit",
];

const SUMS: [&str; 10] = [
    "one more",
    "one less",
    "what 64 bits leave",
    "2^64 - 1 for more",
    "unlike in the high half",
    "without the first row",
    "without the last row",
    "with the row behind",
    "with the other owner's rows",
    "with the rows of neither",
];

/// What a table shows that is no book, or short.
fn book_points(kind: Kind, caller: u64, look: &Looked, is_book_fault: bool) -> Vec<Point> {
    let length = look.book.len();
    let mut points = list_points(kind, look, is_book_fault);
    if length < SHORT {
        points.push(Point::Short(kind, length, !look.is_book()));
    }
    if look.is_book() {
        return points;
    }
    if look.claims_too_much() {
        let numbers = look.claimed.wrapping_mul(WIDTH as u64).wrapping_add(HEAD as u64);
        let there = look.there as u64;
        let holds = [
            there > 0 && look.claimed == there + 1,
            look.claimed < u64::MAX && numbers <= length as u64,
            look.claimed == (1 << 32) + look.claimed % (1 << 32) && look.claimed % (1 << 32) <= there,
            look.claimed == u64::MAX,
            there == 0 && look.claimed == 1,
            look.claimed >= 1 << 63 && look.claimed - (1 << 63) <= there,
        ];
        points.extend(named(CLAIMS, holds, |name| Point::Claim(kind, name)));
    } else if let [(owner, figure)] = look.off()[..] {
        points.push(Point::Whose(kind, owner, Caller::or_nobody(caller)));
        points.extend(match figure {
            SIX => net_points(kind, look, owner),
            _ => sum_points(kind, look, owner, figure),
        });
    }
    let others_zero = (0..length - 1).filter(|place| is_judged(*place)).all(|place| look.book[place] == 0);
    if length <= HEAD && is_judged(length - 1) && others_zero {
        points.push(Point::ShortEnd(kind, length - 1));
    }
    points
}

const LIST_CLAIMS: [&str; 6] = [
    "one more than there are",
    "twice it seems to fit",
    "its low half fits",
    "2^64 - 1",
    "one in a list of none",
    "in its first number alone",
];

/// What a list shows that claims too much, or is short.
fn list_points(kind: Kind, look: &Looked, is_book_fault: bool) -> Vec<Point> {
    let (length, there, claimed) =
        (look.taken.len(), places_there(look.taken.len()) as u64, places_claimed(look.taken));
    let mut points = Vec::new();
    if !WITH_LIST.contains(&kind) || !look.is_book() {
        return points;
    }
    if length < SHORT_LIST {
        points.push(Point::ShortList(kind, length, is_book_fault));
    }
    let holds = [
        there > 0 && claimed == there + 1,
        claimed < u64::MAX && claimed >= 1 << 63 && claimed.wrapping_mul(2) <= length as u64,
        claimed == (1 << 32) + claimed % (1 << 32) && claimed % (1 << 32) <= there,
        claimed == u64::MAX,
        length == 2 && claimed == 1,
        length == 1 && claimed > 0,
    ];
    if look.list_claims_too_much() {
        points.extend(named(LIST_CLAIMS, holds, |name| Point::ListClaim(kind, name)));
    }
    points
}

fn sum_points(kind: Kind, look: &Looked, owner: u64, figure: usize) -> Vec<Point> {
    let (stated, sum) = (u128::from(look.head(total(owner, figure))), look.sum(owner, figure));
    let (own, others) = (look.rows_of(owner), look.sum(other(owner), figure));
    let strays = sum_of(&look.strays(), figure);
    let of = |row: &[u64]| u128::from(row[FIGURES + figure]);
    let without = |row: Option<&&[u64]>| own.len() > 1 && row.is_some_and(|row| stated + of(row) == sum);
    let holds = [
        stated == sum + 1,
        stated + 1 == sum,
        sum >> 64 > 0 && stated == sum % (1 << 64),
        sum >> 64 > 0 && stated == u128::from(u64::MAX),
        stated % (1 << 32) == sum % (1 << 32) && sum >> 64 == 0,
        without(own.first()),
        without(own.last()),
        look.spare.first().is_some_and(|row| stated == sum + of(row) && row[OWNER] == owner),
        others > 0 && stated == sum + others,
        strays > 0 && stated == sum + strays,
    ];
    named(SUMS, holds, |name| Point::Sum(kind, owner, figure, name))
}

const NETS: [&str; 17] = [
    "one more",
    "one less",
    "the other sign",
    "unlike in the high half",
    "without the first row",
    "without the last row",
    "with the row behind",
    "with the other owner's rows",
    "with the rows of neither",
    "credits alone",
    "debits alone",
    "what 64 bits leave, above",
    "the most for more",
    "what 64 bits leave, below",
    "the least for less",
    "2^63",
    "-2^63 - 1",
];

fn net_points(kind: Kind, look: &Looked, owner: u64) -> Vec<Point> {
    let own = look.rows_of(owner);
    let (stated, right) = (look.net(owner), net_in(&own));
    let (above, below) = (right > i128::from(i64::MAX), right < i128::from(i64::MIN));
    let (others, strays) = (net_in(&look.rows_of(other(owner))), net_in(&look.strays()));
    let of = |row: Option<&&[u64]>| row.map_or(0, |row| net_in(&[*row]));
    let left = right as i64 as i128;
    let holds = [
        stated == right + 1,
        stated == right - 1,
        stated == -right,
        !above && !below && stated as u32 == right as u32,
        own.len() > 1 && stated == right - of(own.first()),
        own.len() > 1 && stated == right - of(own.last()),
        look.spare.first().is_some_and(|row| row[OWNER] == owner) && stated == right + of(look.spare.first()),
        stated == right + others,
        stated == right + strays,
        stated == sum_of(&own, CREDIT_CENTS) as i128,
        stated == -(sum_of(&own, DEBIT_CENTS) as i128),
        above && stated == left,
        above && stated == i128::from(i64::MAX),
        below && stated == left,
        below && stated == i128::from(i64::MIN),
        right == 1 << 63 && stated == left,
        right == -(1 << 63) - 1 && stated == left,
    ];
    named(NETS, holds, |name| Point::Net(kind, owner, name))
}

const OF_THREE: [&str; 3] = ["first", "middle", "last"];

/// Which of three or more.
fn which(row: usize, rows: usize) -> Option<&'static str> {
    match row {
        _ if rows < 3 => None,
        0 => Some(OF_THREE[0]),
        row if row + 1 == rows => Some(OF_THREE[2]),
        _ => Some(OF_THREE[1]),
    }
}

/// What the first call on a table with one changed number shows.
fn changed(seen: &Seen, kind: Kind) -> Option<Point> {
    let number = seen.history.changed.filter(|_| seen.at == 0)?;
    let book = seen.before;
    let (claimed, there) = (head(book, CLAIMED) as usize, rows_there(book.len()));
    let place = match number {
        0..HEAD => Place::Head(number),
        _ => match (number - HEAD) / WIDTH {
            row if row >= there => Place::Tail,
            row if row >= claimed => Place::Spare,
            row => match (number - HEAD) % WIDTH {
                OWNER => return owner_changed(seen, kind, &book[row_start(row)..row_start(row) + WIDTH]),
                column if !is_owner(book[row_start(row) + OWNER]) => Place::Stray(column),
                column => Place::Row(which(row, claimed)?, column),
            },
        },
    };
    Some(Point::Changed(kind, place, seen.outcome.returned == BOOK))
}

/// What the first call on a table shows of which one row became another's. Whose it was is told by the totals: theirs that miss its figures.
fn owner_changed(seen: &Seen, kind: Kind, row: &[u64]) -> Option<Point> {
    let look = Looked::at(seen.before, seen.taken);
    let misses = |owner: &u64| look.off().iter().any(|off| off.0 == *owner);
    let from = OWNERS.into_iter().filter(misses).find(|owner| *owner != row[OWNER]).map_or(NOBODY, Caller::Owner);
    let figures = row[FIGURES..].iter().any(|figure| *figure > 0);
    let to = Caller::or_nobody(row[OWNER]);
    Some(Point::OwnerChanged(kind, from, to, figures, seen.outcome.returned == BOOK))
}

/// What entering a file shows, by everything that is due.
fn entering(look: &Looked, paper: &Paper, file_number: u64, owner: u64, rows: usize, number: u64) -> Vec<Point> {
    let read = read_number(paper, rows);
    let causes = if is_owner(owner) { causes_of_full(look, paper, owner) } else { Vec::new() };
    let mut due = vec![read];
    due.extend((!look.both_sound()).then_some(BOOK));
    due.extend((!is_owner(owner)).then_some(NOENTRY));
    due.extend((!look.taken_by(owner, file_number).is_empty()).then_some(DUPLICATE));
    let whose = if is_owner(owner) { vec![owner] } else { OWNERS.to_vec() };
    let beyond = |owner: u64| !in_range(look.net(owner) + net_of(paper.sums()));
    due.extend(whose.into_iter().all(beyond).then_some(RANGE));
    due.extend((!causes.is_empty() || look.free() == 0 || look.free_places.is_empty()).then_some(FULL));
    let others = due.into_iter().filter(|other| *other != number && *other != ACCEPTED);
    let mut points: Vec<Point> = others.map(|other| Point::Order(number, other)).collect();
    match number {
        ROOM => points.extend(room(paper, rows)),
        DUPLICATE => points.extend(duplicate(look, owner, file_number)),
        FULL => points.extend(full(look, owner, paper, &causes)),
        RANGE => points.extend(out_of_range(look, owner, &paper.letters)),
        ACCEPTED => points.extend(entered(look, paper, file_number, owner, rows)),
        _ => {}
    }
    points
}

const OUT_OF_RANGE: [&str; 5] =
    ["by a cent", "with the last letter", "a cent short of back", "from beyond by nothing", "from the end of an i64"];

/// What RANGE shows.
fn out_of_range(look: &Looked, owner: u64, letters: &[Figures]) -> Vec<Point> {
    let (before, change) = (look.net(owner), net_of(sums(letters)));
    let but_last = before + net_of(sums(&letters[..letters.len() - 1]));
    let above = before + change > 0;
    let by_a_cent = (before + change).abs() == BOUND + 1;
    let holds = [
        by_a_cent && in_range(before),
        letters.len() > 1 && in_range(before) && in_range(but_last),
        by_a_cent && !in_range(before) && change != 0,
        !in_range(before) && change == 0,
        before == i128::from(i64::MAX) && change > 0 || before == i128::from(i64::MIN) && change < 0,
    ];
    named(OUT_OF_RANGE, holds, |name| Point::Range(owner, above, name))
}

const IN_RANGE: [&str; 4] =
    ["at the bound", "back to the bound", "out on the way and back", "though the other owner is beyond"];

/// What an entering shows that is in range.
fn within_range(look: &Looked, owner: u64, letters: &[Figures]) -> Vec<Point> {
    let (before, change) = (look.net(owner), net_of(sums(letters)));
    let at_the_bound = (before + change).abs() == BOUND;
    let out = |count: &usize| !in_range(before + net_of(sums(&letters[..*count])));
    let beyond = look.net(other(owner));
    let above = if in_range(beyond) { before + change > 0 } else { beyond > 0 };
    let holds = [
        at_the_bound && in_range(before) && change != 0,
        at_the_bound && !in_range(before),
        in_range(before) && (1..letters.len()).any(|count| out(&count)),
        !in_range(beyond),
    ];
    named(IN_RANGE, holds, |name| Point::Range(owner, above, name))
}

const ROOMS: [&str; 3] = ["a number short", "a row short", "none"];

fn room(paper: &Paper, rows: usize) -> Vec<Point> {
    named(ROOMS, short_tables(paper).map(|length| length == rows), Point::Room)
}

const DUPLICATES: [&str; 12] = [
    "first place",
    "middle place",
    "last place",
    "only place",
    "number 0",
    "number 2^64 - 1",
    "several places",
    "the other owner's too",
    "one of neither's too",
    "a row of the owner's has it",
    "no row has it",
    "in a book without an entry",
];

fn duplicate(look: &Looked, owner: u64, file_number: u64) -> Vec<Point> {
    let having = look.taken_by(owner, file_number);
    let only = |name| having.len() == 1 && which(having[0], look.places.len()) == Some(name);
    let has = |whose: &dyn Fn(u64) -> bool| look.places.iter().any(|place| whose(place[0]) && place[1] == file_number);
    let row = |row: &&[u64]| row[FILE_NUMBER] == file_number;
    let holds = [
        only(OF_THREE[0]),
        only(OF_THREE[1]),
        only(OF_THREE[2]),
        look.places.len() == 1,
        file_number == 0,
        file_number == u64::MAX,
        having.len() > 1,
        has(&|whose| whose == other(owner)),
        has(&|whose| !is_owner(whose)),
        look.rows_of(owner).iter().any(row),
        !look.rows.iter().any(row) && !look.rows_of(owner).is_empty(),
        look.rows_of(owner).is_empty() && look.rows_of(other(owner)).is_empty(),
    ];
    named(DUPLICATES, holds, Point::Duplicate)
}

/// The number that a head number would become.
fn grown_to(look: &Looked, place: usize, more: u128) -> u128 {
    u128::from(look.head(place)) + more
}

/// What a cause of FULL is about: how much there would be with these letters, and how much there may be.
fn measured(look: &Looked, owner: u64, cause: usize, letters: &[Figures]) -> (u128, u128) {
    let most = u128::from(u64::MAX);
    match cause {
        CAUSE_ROWS => ((look.there - look.free()) as u128 + letters.len() as u128, look.there as u128),
        CAUSE_PLACES => {
            // One for the file, however many letters it has.
            let all = look.places.len() + look.free_places.len();
            (look.places.len() as u128 + u128::from(!letters.is_empty()), all as u128)
        }
        CAUSE_LAST => (grown_to(look, last(owner), letters.len() as u128), most),
        _ => (grown_to(look, total(owner, cause - 1), sums(letters)[cause - 1]), most),
    }
}

/// Every cause of FULL that is due, of an accepted file on a book.
fn causes_of_full(look: &Looked, paper: &Paper, owner: u64) -> Vec<usize> {
    if !look.both_sound() {
        return Vec::new();
    }
    let due = |cause: &usize| {
        let (would_be, most) = measured(look, owner, *cause, &paper.letters);
        would_be > most
    };
    (0..CAUSES).filter(due).collect()
}

const FULLS: [&str; 4] = ["alone", "by one", "with the last letter", "from the start"];
const JUST_NOT: &str = "just not";

fn full(look: &Looked, owner: u64, paper: &Paper, causes: &[usize]) -> Vec<Point> {
    let [cause] = *causes else { return Vec::new() };
    let (would_be, most) = measured(look, owner, cause, &paper.letters);
    let (before, _) = measured(look, owner, cause, &[]);
    let (but_last, _) = measured(look, owner, cause, &paper.letters[..paper.letters.len() - 1]);
    let holds = [true, would_be == most + 1, paper.letters.len() > 1 && but_last <= most, before == most];
    let mut points = named(FULLS, holds, |name| Point::Full(owner, cause, name));
    let gaps = look.strays().len();
    let though = [
        cause == CAUSE_ROWS && gaps > 0 && look.spare.is_empty(),
        cause == CAUSE_ROWS && gaps > 0 && !look.spare.is_empty(),
        cause == CAUSE_PLACES && gaps >= paper.letters.len(),
    ];
    points.extend(named(THOUGH, though, Point::Gap));
    points
}

const THOUGH: [&str; 3] =
    ["FULL, too few gaps alone", "FULL, too few gaps and rows behind", "FULL for places, gaps enough"];

const GAPS: [&str; 9] = [
    "as many gaps as letters, no row behind",
    "gaps left over",
    "gaps and rows behind",
    "no gap",
    "a gap before the first entry",
    "a gap between entries",
    "a gap behind the last entry",
    "a gap with anything in it",
    "a gap of zeros",
];

/// Into which rows a file was entered.
fn into_gaps(look: &Looked, letters: usize) -> Vec<Point> {
    let gaps = look.strays();
    let used = &gaps[..letters.min(gaps.len())];
    let is_gap = |row: &usize| !is_owner(look.rows[*row][OWNER]);
    let entries: Vec<usize> = (0..look.rows.len()).filter(|row| !is_gap(row)).collect();
    let (first, last) = (entries.first().copied().unwrap_or(0), entries.last().copied().unwrap_or(0));
    let mut at = (0..look.rows.len()).filter(is_gap).take(letters);
    let zeros = |row: &&&[u64]| row.iter().all(|number| *number == 0);
    let some = !entries.is_empty();
    let between = at.clone().any(|row| (first..last).contains(&row));
    let behind = at.clone().any(|row| some && row > last);
    let holds = [
        gaps.len() == letters && look.spare.is_empty(),
        gaps.len() > letters,
        !gaps.is_empty() && gaps.len() < letters,
        gaps.is_empty(),
        at.any(|row| some && row < first),
        between,
        behind,
        used.iter().any(|row| row.iter().all(|number| *number != 0)),
        used.iter().filter(zeros).count() > 0,
    ];
    named(GAPS, holds, Point::Gap)
}

const NO_DUPLICATES: [&str; 12] = [
    "behind those claimed",
    "zeros behind",
    "the low half",
    "the high half",
    "an entry number",
    "a row of the owner's has it",
    "a row behind those claimed has it",
    "owner 2's, entered for owner 1",
    "owner 1's, entered for owner 2",
    "one of neither's",
    "a place turned round",
    "the places claimed",
];

const ENTERED: [&str; 25] = [
    "one letter",
    "two letters",
    "nine letters or more",
    "2,000 letters",
    "a letter of nothing",
    "ASCII",
    "EBCDIC",
    "file number 0",
    "file number 2^64 - 1",
    "number 1",
    "numbered on",
    "last number unlike that of the last row",
    "a number that a row has",
    "exactly enough rows for the records",
    "rows to spare",
    "into zeros",
    "over something",
    "beside a row of neither",
    "behind the other owner's alone",
    "with a number that the other has",
    "a net position below 0",
    "a net position above 0",
    "a net position from above 0 to below",
    "a net position from below 0 to above",
    "before a part of a row",
];

fn entered(look: &Looked, paper: &Paper, file_number: u64, owner: u64, rows: usize) -> Vec<Point> {
    let letters = &paper.letters;
    let first = look.head(last(owner)) + 1;
    let others = look.rows_of(other(owner));
    let net_after = look.net(owner) + net_of(paper.sums());
    let taken = look.rows_for(letters.len());
    let enough = 7 * paper.reading.rows.len();
    let ebcdic = Set::of(&paper.bytes) == Set::Ebcdic;
    let holds = [
        letters.len() == 1,
        letters.len() == 2,
        letters.len() >= 9,
        letters.len() == 2_000,
        letters.contains(&[0; SIX]),
        !ebcdic,
        ebcdic,
        file_number == 0,
        file_number == u64::MAX,
        first == 1,
        first > 1,
        look.rows_of(owner).last().is_some_and(|row| row[NUMBER] != look.head(last(owner))),
        !look.with(owner, NUMBER, first).is_empty(),
        rows == enough,
        rows >= enough + 7,
        taken.iter().all(|row| row.iter().all(|number| *number == 0)),
        taken.iter().all(|row| row.iter().any(|number| *number != 0)),
        !look.strays().is_empty(),
        !others.is_empty() && look.rows_of(owner).is_empty(),
        others.iter().any(|row| row[NUMBER] == first),
        net_after < 0,
        net_after > 0,
        look.net(owner) > 0 && net_after < 0,
        look.net(owner) < 0 && net_after > 0,
        look.book.len() > row_start(look.there),
    ];
    let mut points = named(ENTERED, holds, Point::Entered);
    points.extend(no_duplicate(look, owner, file_number));
    points.extend(into_gaps(look, letters.len()));
    points.extend(within_range(look, owner, letters));
    for figure in 0..SIX {
        let mut figures: Vec<u64> = letters.iter().map(|letter| letter[figure]).filter(|number| *number > 0).collect();
        figures.dedup();
        points.extend((figures.len() > 1).then_some(Point::Unlike(figure)));
    }
    points.extend(paper.reading.rows.windows(2).filter_map(|pair| credit(paper, ebcdic, pair)));
    for cause in 0..CAUSES {
        let ((would_be, most), (before, _)) =
            (measured(look, owner, cause, letters), measured(look, owner, cause, &[]));
        points.extend((would_be == most && before < most).then_some(Point::Full(owner, cause, JUST_NOT)));
        let (for_the_other, most) = measured(look, other(owner), cause, letters);
        points.extend((for_the_other > most).then_some(Point::FullForTheOther(owner, cause)));
    }
    points
}

/// A 61 and what stands behind it.
fn credit(paper: &Paper, ebcdic: bool, pair: &[Row]) -> Option<Point> {
    let [code, offset, _, _, bundle, ..] = pair[0];
    let usage = if ebcdic { 0xF9 } else { b'9' };
    let debit = paper.bytes[offset as usize + 6] == usage;
    (code == 61).then_some(Point::Credit(ebcdic, bundle == 0, debit, pair[1][0] == 50))
}

fn no_duplicate(look: &Looked, owner: u64, file_number: u64) -> Vec<Point> {
    let (low, high) = (file_number % (1 << 32), file_number >> 32);
    let claimed = |holds: &dyn Fn(&[u64]) -> bool| look.places.iter().any(|place| holds(place));
    let own = |holds: &dyn Fn(u64) -> bool| claimed(&|place| place[0] == owner && holds(place[1]));
    let behind = |owner: u64| look.free_places.iter().any(|place| **place == [owner, file_number]);
    let others = !look.taken_by(other(owner), file_number).is_empty();
    let row = |row: &&[u64]| row[OWNER] == owner && row[FILE_NUMBER] == file_number;
    let holds = [
        behind(owner),
        file_number == 0 && behind(0),
        own(&|number| number % (1 << 32) == low),
        high > 0 && own(&|number| number >> 32 == high),
        look.rows_of(owner).iter().any(|row| row[NUMBER] == file_number),
        look.rows.iter().any(row),
        look.spare.iter().any(row),
        owner == OWNERS[0] && others,
        owner == OWNERS[1] && others,
        claimed(&|place| !is_owner(place[0]) && place[1] == file_number),
        claimed(&|place| place[0] == file_number && place[1] == owner),
        file_number == places_claimed(look.taken),
    ];
    named(NO_DUPLICATES, holds, Point::NoDuplicate)
}

const FOUND: [&str; 13] = [
    "first row",
    "middle row",
    "last row",
    "only row",
    "number 0",
    "number 2^64 - 1",
    "the first of two, side by side",
    "the first of two, apart",
    "and behind those claimed",
    "owner 1's behind one of owner 2's",
    "owner 2's behind one of owner 1's",
    "behind one of neither's",
    "before one of the other's",
];

fn found(look: &Looked, owner: u64, entry_number: u64, point: impl Fn(&'static str) -> Point) -> Vec<Point> {
    let having = look.with(owner, NUMBER, entry_number);
    let others = look.with(other(owner), NUMBER, entry_number);
    let strays = look.rows[..having[0]].iter().filter(|row| !is_owner(row[OWNER]));
    let at = |name| which(having[0], look.rows.len()) == Some(name);
    let unlike = having.len() == 2 && look.rows[having[0]][FILE_NUMBER..] != look.rows[having[1]][FILE_NUMBER..];
    let behind_the_others = others.iter().any(|row| *row < having[0]);
    let holds = [
        at(OF_THREE[0]),
        at(OF_THREE[1]),
        at(OF_THREE[2]),
        look.rows.len() == 1,
        entry_number == 0,
        entry_number == u64::MAX,
        unlike && having[0] + 1 == having[1],
        unlike && having[0] + 1 < having[1],
        look.spare.iter().any(|row| row[NUMBER] == entry_number),
        behind_the_others && owner == OWNERS[0],
        behind_the_others && owner == OWNERS[1],
        strays.into_iter().any(|row| row[NUMBER] == entry_number),
        others.iter().any(|row| *row > having[0]),
    ];
    named(FOUND, holds, point)
}

const NOT_FOUND: [&str; 12] = [
    "empty book",
    "number 0",
    "one above the last",
    "behind those claimed",
    "the low half",
    "the high half",
    "a file number",
    "number 2^64 - 1",
    "owner 2's, asked for owner 1",
    "owner 1's, asked for owner 2",
    "one of neither's",
    "no entry of the owner's in a book of the other's",
];

fn not_found(look: &Looked, owner: u64, entry_number: u64, point: impl Fn(&'static str) -> Point) -> Vec<Point> {
    let (low, high) = (entry_number % (1 << 32), entry_number >> 32);
    let own = look.rows_of(owner);
    let claimed = |holds: &dyn Fn(&[u64]) -> bool| own.iter().any(|row| holds(row));
    let others = !look.with(other(owner), NUMBER, entry_number).is_empty();
    let holds = [
        look.rows.is_empty(),
        entry_number == 0 && !own.is_empty(),
        look.head(last(owner)).checked_add(1) == Some(entry_number) && !own.is_empty(),
        look.spare.iter().any(|row| row[NUMBER] == entry_number && row[OWNER] == owner),
        claimed(&|row| row[NUMBER] % (1 << 32) == low),
        high > 0
            && claimed(&|row| row[NUMBER] >> 32 > 0 && row[NUMBER] >> 32 != high && row[NUMBER] << 32 == low << 32),
        claimed(&|row| row[FILE_NUMBER] == entry_number),
        entry_number == u64::MAX,
        owner == OWNERS[0] && others,
        owner == OWNERS[1] && others,
        look.strays().iter().any(|row| row[NUMBER] == entry_number),
        own.is_empty() && others,
    ];
    named(NOT_FOUND, holds, point)
}

/// What a withdrawal shows, by everything that is due.
fn withdrawing(look: &Looked, owner: u64, entry_number: u64, number: u64) -> Vec<Point> {
    let mut points = withdraw_order(look, owner, entry_number, number);
    match number {
        ACCEPTED => {
            points.extend(found(look, owner, entry_number, Point::Withdrawn));
            points.extend(withdrawal(look, owner, entry_number));
        }
        NOENTRY if is_owner(owner) => points.extend(not_found(look, owner, entry_number, Point::NotWithdrawn)),
        _ => {}
    }
    if number == ACCEPTED || number == RANGE {
        points.extend(withdraw_range(look, owner, entry_number, number == RANGE));
    }
    points
}

const WITHDRAWALS: [&str; 11] = [
    "a row with nothing in it",
    "a file number that another row has",
    "a file number that no place has",
    "a running total of 2^64 - 1",
    "a net position from above 0 to below",
    "a net position from below 0 to above",
    "the owner's only entry",
    "beside a gap before it",
    "beside a gap behind it",
    "the last number given",
    "with no free place in the list",
];

fn withdrawal(look: &Looked, owner: u64, entry_number: u64) -> Vec<Point> {
    let at = look.with(owner, NUMBER, entry_number)[0];
    let row = look.rows[at];
    let after = look.net(owner) - net_in(&[row]);
    let gap = |rows: &[&[u64]]| rows.iter().any(|row| !is_owner(row[OWNER]));
    let holds = [
        row[FIGURES..].iter().all(|figure| *figure == 0),
        look.with(owner, FILE_NUMBER, row[FILE_NUMBER]).len() > 1,
        look.taken_by(owner, row[FILE_NUMBER]).is_empty(),
        (0..SIX).any(|figure| look.head(total(owner, figure)) == u64::MAX && row[FIGURES + figure] > 0),
        look.net(owner) > 0 && after < 0,
        look.net(owner) < 0 && after > 0,
        look.rows_of(owner).len() == 1,
        gap(&look.rows[..at]),
        gap(&look.rows[at + 1..]),
        look.head(last(owner)) == entry_number,
        look.free_places.is_empty(),
    ];
    named(WITHDRAWALS, holds, Point::Withdrawal)
}

const WITHDRAW_OUT: [&str; 5] = [
    "by a cent",
    "a cent short of back",
    "from beyond by nothing",
    "from the end of an i64",
    "to where 64 bits leave something in range",
];
const WITHDRAW_IN: [&str; 3] = ["at the bound", "back to the bound", "though the other owner is beyond"];

/// What a withdrawal shows of the range that it keeps, or would not keep.
fn withdraw_range(look: &Looked, owner: u64, entry_number: u64, out: bool) -> Vec<Point> {
    let row = look.rows[look.with(owner, NUMBER, entry_number)[0]];
    let (before, own) = (look.net(owner), net_in(&[row]));
    let after = before - own;
    let ends = [i128::from(i64::MAX), i128::from(i64::MIN)];
    let beyond = look.net(other(owner));
    let above = if out || in_range(beyond) { after > 0 } else { beyond > 0 };
    let point = |name| Point::WithdrawRange(owner, above, name);
    let (by_a_cent, at_the_bound) = (after.abs() == BOUND + 1, after.abs() == BOUND);
    let outward = [
        by_a_cent && in_range(before),
        by_a_cent && !in_range(before) && own != 0,
        !in_range(before) && own == 0,
        ends.contains(&before) && !ends.contains(&after) && (after > ends[0] || after < ends[1]),
        in_range(i128::from(after as i64)),
    ];
    let inward = [at_the_bound && in_range(before) && own != 0, at_the_bound && !in_range(before), !in_range(beyond)];
    match out {
        true => named(WITHDRAW_OUT, outward, point),
        false => named(WITHDRAW_IN, inward, point),
    }
}

const WITHDRAW_ORDER: [&str; 8] = [
    "BOOK for the table before the owner",
    "BOOK for the table before the number",
    "BOOK for the table before RANGE",
    "BOOK for the list before the owner",
    "BOOK for the list before the number",
    "BOOK for the list before RANGE",
    "the owner before RANGE",
    "the number before RANGE",
];

fn withdraw_order(look: &Looked, owner: u64, entry_number: u64, number: u64) -> Vec<Point> {
    let (no_book, no_list) = (!look.is_book(), look.list_claims_too_much());
    let nobody = !is_owner(owner);
    let having = look.with(owner, NUMBER, entry_number);
    let absent = !nobody && having.is_empty();
    let out = |owner: u64| !in_range(look.net(owner));
    let range = match having.first() {
        Some(row) if !nobody => !in_range(look.net(owner) - net_in(&[look.rows[*row]])),
        _ if nobody => OWNERS.into_iter().all(out),
        _ => out(owner),
    };
    let (table, list) = (number == BOOK && !no_list, number == BOOK && !no_book);
    let holds = [
        table && nobody,
        table && absent,
        table && range && !nobody && !absent,
        list && nobody,
        list && absent,
        list && range && !nobody && !absent,
        number == NOENTRY && nobody && range,
        number == NOENTRY && absent && range,
    ];
    named(WITHDRAW_ORDER, holds, Point::WithdrawOrder)
}

const TIDIED: [&str; 17] = [
    "a table without a whole row",
    "no row claimed",
    "no gap",
    "gaps alone",
    "a gap first",
    "a gap in the middle",
    "a gap last",
    "gaps side by side",
    "gaps apart",
    "a gap with anything in it",
    "a gap of zeros",
    "something behind the rows claimed",
    "entries of both owners",
    "a number that stands twice",
    "entries that are not in the order of their numbers",
    "numbers behind the last row",
    "more gaps than entries",
];

fn tidied(look: &Looked) -> Vec<Point> {
    let is_gap = |row: &&[u64]| !is_owner(row[OWNER]);
    let gaps: Vec<usize> = (0..look.rows.len()).filter(|row| is_gap(&look.rows[*row])).collect();
    let at = |name| gaps.iter().any(|row| which(*row, look.rows.len()) == Some(name));
    let some = |rows: &[&[u64]]| rows.iter().any(|row| row.iter().any(|number| *number > 0));
    let entries = look.rows.len() - gaps.len();
    let numbers = |owner| look.rows_of(owner).iter().map(|row| row[NUMBER]).collect::<Vec<u64>>();
    let twice = |owner| numbers(owner).len() > numbers(owner).into_iter().collect::<BTreeSet<u64>>().len();
    let [one, two] = OWNERS.map(|owner| look.rows_of(owner).len());
    let holds = [
        look.there == 0,
        look.there > 0 && look.rows.is_empty(),
        entries > 0 && gaps.is_empty(),
        !gaps.is_empty() && entries == 0,
        at(OF_THREE[0]),
        at(OF_THREE[1]),
        at(OF_THREE[2]),
        gaps.windows(2).any(|two| two[0] + 1 == two[1]),
        gaps.windows(2).any(|two| two[0] + 1 < two[1]),
        gaps.iter().any(|row| look.rows[*row].iter().all(|number| *number > 0)),
        gaps.iter().any(|row| look.rows[*row].iter().all(|number| *number == 0)),
        !gaps.is_empty() && some(&look.spare),
        !gaps.is_empty() && one > 0 && two > 0,
        !gaps.is_empty() && OWNERS.into_iter().any(twice),
        !gaps.is_empty() && OWNERS.into_iter().any(|owner| !numbers(owner).is_sorted()),
        !gaps.is_empty() && look.book.len() > row_start(look.there),
        entries > 0 && gaps.len() > entries,
    ];
    named(TIDIED, holds, Point::Tidied)
}

const TOTALS_OF: [&str; 5] = ["no row", "one row", "several rows", "beside the other's", "beside rows of neither"];

fn totals(look: &Looked, owner: u64) -> Vec<Point> {
    let rows = look.rows_of(owner).len();
    let some = |rows: &[&[u64]]| (0..SIX).any(|figure| sum_of(rows, figure) > 0);
    let (others, strays) = (look.rows_of(other(owner)), look.strays());
    let holds = [rows == 0, rows == 1, rows > 1, rows > 0 && some(&others), rows > 0 && some(&strays)];
    let mut points = named(TOTALS_OF, holds, Point::Totals);
    let brim = (0..SIX).filter(|figure| rows > 1 && look.head(total(owner, *figure)) == u64::MAX);
    points.extend(brim.map(|figure| Point::Brim(owner, figure)));
    points.extend((rows > 0).then_some(Point::Held(owner, look.net(owner))));
    points
}

/// The numbers that each call can give to an owner.
fn answers(kind: Kind) -> Vec<u64> {
    match kind {
        Kind::Enter => REFUSALS.into_iter().chain([ACCEPTED, ROOM, DUPLICATE, RANGE, FULL, BOOK]).collect(),
        Kind::Find => vec![ACCEPTED, NOENTRY, BOOK],
        Kind::Totals | Kind::Tidy => vec![ACCEPTED, BOOK],
        Kind::Withdraw => vec![ACCEPTED, NOENTRY, RANGE, BOOK],
    }
}

/// Every answer of a kind of call, to either owner and to numbers that are none.
fn demanded_answers(kind: Kind) -> Vec<Point> {
    if kind == Kind::Tidy {
        return answers(kind).into_iter().map(|number| Point::Answer(kind, number, Caller::of(NO_OWNER))).collect();
    }
    let to = |caller: Caller| match caller {
        Caller::Owner(_) => answers(kind),
        Caller::Nobody(_) => vec![NOENTRY, BOOK],
    };
    let points = |caller| to(caller).into_iter().map(move |number| Point::Answer(kind, number, caller));
    Caller::all().into_iter().flat_map(points).collect()
}

/// What a changed owner of a row shows; nothing is off where the row has no figures, and then nobody can tell whose it was.
fn demanded_owner_changes(kind: Kind) -> Vec<Point> {
    let callers = [Caller::Owner(OWNERS[0]), Caller::Owner(OWNERS[1]), NOBODY];
    let mut points = Vec::new();
    for (from, to) in OWNER_CHANGES {
        let (from, to) = (callers[from], callers[to]);
        points.push(Point::OwnerChanged(kind, from, to, true, from != to));
        points.push(Point::OwnerChanged(kind, NOBODY, to, false, false));
    }
    points.sort();
    points.dedup();
    points
}

/// All points of a kind of call that turn on its table.
fn demanded_of_tables(kind: Kind) -> Vec<Point> {
    let mut points = demanded_answers(kind);
    points.extend(CLAIMS.map(|how| Point::Claim(kind, how)));
    for owner in OWNERS {
        (0..SIX).for_each(|figure| points.extend(SUMS.map(|how| Point::Sum(kind, owner, figure, how))));
        points.extend(NETS.map(|how| Point::Net(kind, owner, how)));
        let callers = [NOBODY, Caller::Owner(OWNERS[0]), Caller::Owner(OWNERS[1])];
        let callers = &callers[..if kind == Kind::Tidy { 1 } else { callers.len() }];
        points.extend(callers.iter().map(|caller| Point::Whose(kind, owner, *caller)));
    }
    points.extend(demanded_owner_changes(kind));
    points.extend((0..HEAD).map(|place| Point::Changed(kind, Place::Head(place), is_judged(place))));
    for row in OF_THREE {
        points.extend((1..WIDTH).map(|place| Point::Changed(kind, Place::Row(row, place), place >= FIGURES)));
    }
    points.extend((1..WIDTH).map(|place| Point::Changed(kind, Place::Stray(place), false)));
    points.extend([Place::Spare, Place::Tail].map(|place| Point::Changed(kind, place, false)));
    points.extend((0..SHORT).map(|length| Point::Short(kind, length, false)));
    points.extend((1..SHORT).map(|length| Point::Short(kind, length, true)));
    points.extend((0..HEAD).filter(|place| is_judged(*place)).map(|place| Point::ShortEnd(kind, place)));
    points
}

/// All points that a whole run is to meet.
pub fn demanded() -> Vec<Point> {
    let mut points: Vec<Point> = KINDS.into_iter().flat_map(demanded_of_tables).collect();
    for (owner, cause) in OWNERS.into_iter().flat_map(|owner| (0..CAUSES).map(move |cause| (owner, cause))) {
        // A file has one place however many letters it has.
        let edges = FULLS.into_iter().chain([JUST_NOT]).filter(|edge| cause != CAUSE_PLACES || *edge != FULLS[2]);
        points.extend(edges.map(|edge| Point::Full(owner, cause, edge)));
        points.extend((![CAUSE_ROWS, CAUSE_PLACES].contains(&cause)).then_some(Point::FullForTheOther(owner, cause)));
    }
    for (owner, above) in OWNERS.into_iter().flat_map(|owner| [(owner, true), (owner, false)]) {
        points.extend(OUT_OF_RANGE.into_iter().chain(IN_RANGE).map(|name| Point::Range(owner, above, name)));
        let withdrawals = WITHDRAW_OUT.into_iter().chain(WITHDRAW_IN);
        points.extend(withdrawals.map(|name| Point::WithdrawRange(owner, above, name)));
    }
    points.extend(OWNERS.into_iter().flat_map(|owner| HELD.map(|net| Point::Held(owner, net))));
    points.extend(DUPLICATES.map(Point::Duplicate));
    points.extend(NO_DUPLICATES.map(Point::NoDuplicate));
    points.extend(ordered_pairs().into_iter().map(|(first, second)| Point::Order(first, second)));
    points.extend(FOUND.map(Point::Found));
    points.extend(NOT_FOUND.map(Point::NotFound));
    points.extend(FOUND.map(Point::Withdrawn));
    points.extend(WITHDRAWALS.map(Point::Withdrawal));
    points.extend(NOT_FOUND.map(Point::NotWithdrawn));
    points.extend(WITHDRAW_ORDER.map(Point::WithdrawOrder));
    points.extend(TIDIED.map(Point::Tidied));
    points.extend(GAPS.into_iter().chain(THOUGH).map(Point::Gap));
    for kind in WITH_LIST {
        points.extend(LIST_CLAIMS.map(|how| Point::ListClaim(kind, how)));
        points.extend((0..SHORT_LIST).map(|length| Point::ShortList(kind, length, false)));
        points.extend((1..SHORT_LIST).map(|length| Point::ShortList(kind, length, true)));
    }
    points.extend(TOTALS_OF.map(Point::Totals));
    points.extend(OWNERS.into_iter().flat_map(|owner| (0..SIX).map(move |figure| Point::Brim(owner, figure))));
    points.extend(ENTERED.map(Point::Entered));
    points.extend((0..SIX).map(Point::Unlike));
    for sort in 0..16 {
        let bit = |place: usize| sort >> place & 1 == 1;
        points.push(Point::Credit(bit(0), bit(1), bit(2), bit(3)));
    }
    points.extend(ROOMS.map(Point::Room));
    points.extend(LATER.into_iter().chain(WITHDRAWN).map(Point::Later));
    points.extend(GROWN.map(Point::Grown));
    points.extend(APART.map(Point::Apart));
    points
}
