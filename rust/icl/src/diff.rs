//! `icl diff`: which cash letters, bundles and items of two accepted files are the same, changed or missing, by their own contents.

use std::collections::HashMap;
use std::ffi::OsStr;
use std::io::{stdout, BufWriter, Write};

use x9180::{Bundle, Item, Letter, Reading, Row};

use crate::args::Args;
use crate::diff_match::{pairs, Known, Pair};
use crate::diff_records::{differences, Side};
use crate::facts::{self, field_numbers, kind_told};
use crate::input;
use crate::screen::{be_quiet, complain, with_clock};
use crate::stop::{Stop, DONE, REFUSED};
use crate::words::{amount, counted, grouped, sums};

pub fn run(args: Args) -> Result<u8, Stop> {
    let [a, b] = args.exactly(["A", "B"])?;
    let ((a_bytes, a_reading), (b_bytes, b_reading)) = both(a, b)?;
    let (a, b) = (Side::new(&a_bytes, &a_reading), Side::new(&b_bytes, &b_reading));
    let mut diff = Diff { a: &a, b: &b, lines: Vec::new(), counts: [Count::default(); 3], elsewhere: HashMap::new() };
    with_clock("comparing", || diff.whole());
    let mut out = BufWriter::new(stdout().lock());
    let written = diff.lines.iter().try_for_each(|line| writeln!(out, "{line}"));
    written.and_then(|()| out.write_all(diff.told().as_bytes())).and_then(|()| out.flush()).map_err(Stop::output)?;
    Ok(if diff.is_same() { DONE } else { REFUSED })
}

type Read = (Vec<u8>, Reading);

/// Both files, read at once. Where both are refused, both are told.
fn both(a: &OsStr, b: &OsStr) -> Result<(Read, Read), Stop> {
    let (a, b) = std::thread::scope(|scope| {
        let other = scope.spawn(|| {
            be_quiet();
            input::accepted(b)
        });
        (input::accepted(a), other.join())
    });
    let b = b.unwrap_or_else(|panic| std::panic::resume_unwind(panic));
    match (a, b) {
        (Ok(a), Ok(b)) => Ok((a, b)),
        (Err(Stop::Message(one, message)), Err(Stop::Message(other, second))) => {
            complain(&message);
            Err(Stop::Message(one.max(other), second))
        }
        (Err(stop), _) | (_, Err(stop)) => Err(stop),
    }
}

/// How many parts are the same, changed, in A only, in B only.
#[derive(Clone, Copy, Default)]
struct Count {
    same: u64,
    changed: u64,
    a_only: u64,
    b_only: u64,
}

const LETTERS: usize = 0;
const BUNDLES: usize = 1;
const ITEMS: usize = 2;

struct Diff<'f> {
    a: &'f Side<'f>,
    b: &'f Side<'f>,
    lines: Vec<String>,
    counts: [Count; 3],
    /// Items by their contents: where they stand in A, and where in B.
    elsewhere: HashMap<u64, [Option<String>; 2]>,
}

impl<'f> Diff<'f> {
    fn whole(&mut self) {
        let (a, b) = (self.a, self.b);
        let [ends_a, ends_b] = [a, b].map(|side| ends(side.reading.rows()));
        let lines = differences(a, &ends_a, b, &ends_b);
        if a.reading.character_set() != b.reading.character_set() {
            let (one, other) = (a.reading.character_set(), b.reading.character_set());
            self.say(0, format!("character sets: {one} in A, {other} in B; compared by their characters"));
        }
        self.say(0, format!("file: header and control {}", if lines.is_empty() { "the same" } else { "changed" }));
        self.say_all(1, lines);
        let letters = [a, b].map(|side| side.reading.letters().collect::<Vec<Letter<'f>>>());
        self.note_items(&letters);
        let known =
            [0, 1].map(|of| letters[of].iter().map(|letter| know_letter([a, b][of], letter)).collect::<Vec<_>>());
        let is_same = |one: usize, other: usize| a.is_same(letters[0][one].rows(), b, letters[1][other].rows());
        for run in runs(&pairs(&known[0], &known[1], true, is_same)) {
            match run {
                Run::Same(one, other, length) => {
                    self.say(0, same("cash letter", "cash letters", one, other, length));
                    for letter in &letters[0][one..one + length] {
                        self.count_inside(letter, |count| &mut count.same);
                    }
                }
                Run::Changed(one, other) => {
                    self.say(0, format!("cash letter {}: changed", both_places(one, other)));
                    self.counts[LETTERS].changed += 1;
                    self.letter(&letters[0][one], &letters[1][other]);
                }
                Run::First(one) => self.letter_alone(&letters[0][one], "A", |count| &mut count.a_only),
                Run::Second(other) => self.letter_alone(&letters[1][other], "B", |count| &mut count.b_only),
            }
        }
    }

    /// Notes where every item stands, so that one that has moved is told.
    fn note_items(&mut self, letters: &[Vec<Letter<'f>>; 2]) {
        for (of, side) in [self.a, self.b].into_iter().enumerate() {
            for letter in &letters[of] {
                for (place, item) in places(letter) {
                    let noted = self.elsewhere.entry(side.content(item.rows())).or_default();
                    noted[of].get_or_insert(place);
                }
            }
        }
    }

    /// Counts a whole cash letter and all in it.
    fn count_inside(&mut self, letter: &Letter<'_>, which: fn(&mut Count) -> &mut u64) {
        let totals = letter.totals();
        *which(&mut self.counts[LETTERS]) += 1;
        *which(&mut self.counts[BUNDLES]) += totals.bundles;
        *which(&mut self.counts[ITEMS]) += totals.items;
    }

    fn letter_alone(&mut self, letter: &Letter<'_>, name: &str, which: fn(&mut Count) -> &mut u64) {
        let (bundles, sums) = (counted(letter.totals().bundles, "bundle"), sums(&letter.totals()));
        self.say(0, format!("cash letter {} in {name} only: {bundles}, {sums}", letter.ordinal()));
        self.count_inside(letter, which);
    }

    fn letter(&mut self, one: &Letter<'f>, other: &Letter<'f>) {
        let (a, b) = (self.a, self.b);
        self.say_all(1, differences(a, &ends(one.rows()), b, &ends(other.rows())));
        let bundles = [one, other].map(|letter| letter.bundles().collect::<Vec<Bundle<'f>>>());
        let known =
            [0, 1].map(|of| bundles[of].iter().map(|bundle| know_bundle([a, b][of], bundle)).collect::<Vec<_>>());
        let is_same = |one: usize, other: usize| a.is_same(bundles[0][one].rows(), b, bundles[1][other].rows());
        for run in runs(&pairs(&known[0], &known[1], true, is_same)) {
            match run {
                Run::Same(first, second, length) => {
                    self.say(1, same("bundle", "bundles", first, second, length));
                    let items = bundles[0][first..first + length].iter().map(|bundle| bundle.totals().items);
                    self.counts[ITEMS].same += items.sum::<u64>();
                    self.counts[BUNDLES].same += length as u64;
                }
                Run::Changed(first, second) => {
                    self.say(1, format!("bundle {}: changed", both_places(first, second)));
                    self.counts[BUNDLES].changed += 1;
                    let (first, second) = (&bundles[0][first], &bundles[1][second]);
                    self.say_all(2, differences(a, &ends(first.rows()), b, &ends(second.rows())));
                    self.items(2, "item", &first.items().collect::<Vec<_>>(), &second.items().collect::<Vec<_>>());
                }
                Run::First(first) => {
                    self.bundle_alone(&bundles[0][first], "A");
                    self.counts[BUNDLES].a_only += 1;
                    self.counts[ITEMS].a_only += bundles[0][first].totals().items;
                }
                Run::Second(second) => {
                    self.bundle_alone(&bundles[1][second], "B");
                    self.counts[BUNDLES].b_only += 1;
                    self.counts[ITEMS].b_only += bundles[1][second].totals().items;
                }
            }
        }
        let credits = [one, other].map(|letter| letter.credits().collect::<Vec<Item<'f>>>());
        self.items(1, "credit record", &credits[0], &credits[1]);
    }

    fn bundle_alone(&mut self, bundle: &Bundle<'_>, name: &str) {
        self.say(1, format!("bundle {} in {name} only: {}", bundle.ordinal(), sums(&bundle.totals())));
    }

    fn items(&mut self, level: usize, name: &str, first: &[Item<'f>], second: &[Item<'f>]) {
        let (a, b) = (self.a, self.b);
        let known = [(a, first), (b, second)]
            .map(|(side, items)| items.iter().map(|item| know_item(side, item)).collect::<Vec<_>>());
        let is_same = |one: usize, other: usize| a.is_same(first[one].rows(), b, second[other].rows());
        for run in runs(&pairs(&known[0], &known[1], false, is_same)) {
            match run {
                Run::Same(one, other, length) => {
                    self.say(level, same(name, &format!("{name}s"), one, other, length));
                    self.counts[ITEMS].same += length as u64;
                }
                Run::Changed(one, other) => {
                    let told = told(a, &first[one]);
                    self.say(level, format!("{name} {}: changed: {told}", both_places(one, other)));
                    self.say_all(level + 1, differences(a, first[one].rows(), b, second[other].rows()));
                    self.counts[ITEMS].changed += 1;
                }
                Run::First(one) => {
                    let moved = self.moved(&first[one], a, 1);
                    self.say(level, format!("{name} {} in A only: {}{moved}", one + 1, told(a, &first[one])));
                    self.counts[ITEMS].a_only += 1;
                }
                Run::Second(other) => {
                    let moved = self.moved(&second[other], b, 0);
                    self.say(level, format!("{name} {} in B only: {}{moved}", other + 1, told(b, &second[other])));
                    self.counts[ITEMS].b_only += 1;
                }
            }
        }
    }

    /// Where an item stands in the other file that is the same.
    fn moved(&self, item: &Item<'_>, side: &Side<'_>, other: usize) -> String {
        let place = self.elsewhere.get(&side.content(item.rows())).and_then(|places| places[other].as_ref());
        place.map_or_else(String::new, |place| format!("; the same stands in {} as {place}", ["A", "B"][other]))
    }

    fn say(&mut self, level: usize, line: String) {
        self.lines.push(format!("{:indent$}{line}", "", indent = 2 * level));
    }

    fn say_all(&mut self, level: usize, lines: Vec<String>) {
        lines.into_iter().for_each(|line| self.say(level, line));
    }

    /// The last lines: how many of each.
    fn told(&self) -> String {
        let line = |name: &str, count: &Count| {
            let [same, changed, a_only, b_only] = [count.same, count.changed, count.a_only, count.b_only].map(grouped);
            format!("{name}: {same} the same, {changed} changed, {a_only} in A only, {b_only} in B only\n")
        };
        ["cash letters", "bundles", "items"].iter().zip(&self.counts).map(|(name, count)| line(name, count)).collect()
    }

    fn is_same(&self) -> bool {
        let whole = |count: &Count| count.changed + count.a_only + count.b_only == 0;
        self.a.is_same(self.a.reading.rows(), self.b, self.b.reading.rows()) && self.counts.iter().all(whole)
    }
}

/// Neighbours that are the same in both files, or one pair of another sort.
enum Run {
    Same(usize, usize, usize),
    Changed(usize, usize),
    First(usize),
    Second(usize),
}

fn runs(pairs: &[Pair]) -> Vec<Run> {
    let mut runs: Vec<Run> = Vec::new();
    for pair in pairs {
        match (*pair, runs.last_mut()) {
            (Pair::Same(one, other), Some(Run::Same(first, second, length)))
                if one == *first + *length && other == *second + *length =>
            {
                *length += 1;
            }
            (Pair::Same(one, other), _) => runs.push(Run::Same(one, other, 1)),
            (Pair::Changed(one, other), _) => runs.push(Run::Changed(one, other)),
            (Pair::First(one), _) => runs.push(Run::First(one)),
            (Pair::Second(other), _) => runs.push(Run::Second(other)),
        }
    }
    runs
}

/// `3 in A and B`, or `3 in A, 4 in B`.
fn both_places(one: usize, other: usize) -> String {
    match one == other {
        true => format!("{} in A and B", one + 1),
        false => format!("{} in A, {} in B", one + 1, other + 1),
    }
}

fn same(name: &str, names: &str, one: usize, other: usize, length: usize) -> String {
    if length == 1 {
        return format!("{name} {}: the same", both_places(one, other));
    }
    let range = |start: usize| format!("{} to {}", start + 1, start + length);
    match one == other {
        true => format!("{names} {} in A and B: the same", range(one)),
        false => format!("{names} {} in A, {} in B: the same", range(one), range(other)),
    }
}

/// An item in few words.
fn told(side: &Side<'_>, item: &Item<'_>) -> String {
    let sequence = facts::text(item, side.bytes, field_numbers(item.kind()).sequence);
    format!("{} of {}, sequence number \"{sequence}\"", kind_told(item), amount(item.amount()))
}

/// A level's header and its control.
fn ends(rows: &[Row]) -> Vec<Row> {
    rows.first().into_iter().chain(rows.last()).copied().collect()
}

/// Every item of a cash letter with its place in words.
fn places<'r>(letter: &Letter<'r>) -> Vec<(String, Item<'r>)> {
    let mut places = Vec::new();
    for bundle in letter.bundles() {
        let place = |item: &Item<'_>| {
            format!("cash letter {}, bundle {}, item {}", letter.ordinal(), bundle.ordinal(), item.ordinal())
        };
        places.extend(bundle.items().map(|item| (place(&item), item)));
    }
    let place = |item: &Item<'_>| format!("cash letter {}, credit record {}", letter.ordinal(), item.ordinal());
    places.extend(letter.credits().map(|item| (place(&item), item)));
    places
}

/// An item is named by its kind and sequence number, or else by what stands on the check.
fn know_item(side: &Side<'_>, item: &Item<'_>) -> Known {
    let Some(row) = item.rows().first() else { return Known::default() };
    let fields = field_numbers(item.kind());
    let by_sequence = side.name(row, &[fields.sequence], &[fields.sequence]);
    let by_face = side.name(row, &[fields.account, fields.routing, fields.amount], &[]);
    Known { content: side.content(item.rows()), holds: Vec::new(), names: vec![by_sequence, by_face] }
}

/// A bundle by its items, its header, or its routing numbers, date and identity (clause 9).
fn know_bundle(side: &Side<'_>, bundle: &Bundle<'_>) -> Known {
    let items: Vec<Known> = bundle.items().map(|item| know_item(side, &item)).collect();
    Known {
        content: side.content(bundle.rows()),
        holds: held(&items),
        names: names(side, bundle.rows(), &[3, 4, 5, 7, 8]),
    }
}

/// A cash letter by its items, its header, or its routing numbers, date and identity (clause 8).
fn know_letter(side: &Side<'_>, letter: &Letter<'_>) -> Known {
    let items: Vec<Known> = places(letter).iter().map(|(_, item)| know_item(side, item)).collect();
    Known {
        content: side.content(letter.rows()),
        holds: held(&items),
        names: names(side, letter.rows(), &[3, 4, 5, 10]),
    }
}

fn held(items: &[Known]) -> Vec<u64> {
    items.iter().flat_map(|item| [item.content, item.names.first().copied().unwrap_or(0)]).collect()
}

fn names(side: &Side<'_>, rows: &[Row], fields: &[u64]) -> Vec<u64> {
    let header = rows.get(..1).unwrap_or_default();
    header.iter().flat_map(|row| [side.content(header), side.name(row, fields, &[])]).collect()
}
