//! What the files of a run have covered, as the independent side saw them, in either set.

use std::collections::BTreeMap;

use peer_reader::charset::Set;
use peer_reader::descent::{read, Number};
use peer_reader::judge::all_blank;
use peer_reader::layout::{layout, NOT_CARRIED};

use crate::asked::SORTS;
use crate::runs::{Run, Sort};
use crate::salvage::{free_field, Outcome, FREE, NOTHING};
use crate::sound::{content_of, fault_alone, first_fault};
use crate::survey::{Judged, Survey};
use crate::walk::End;

/// One thing that a run is to show.
#[derive(Clone, Copy, Debug, PartialEq, Eq, PartialOrd, Ord)]
pub enum Point {
    /// SIZE for no byte.
    Empty,
    /// NOTHING, and why.
    Nothing(&'static str),
    /// TOTAL: a sum that a new control cannot state.
    TooLong(u64, u64),
    /// ROOM: for the bytes or the rows.
    Room(&'static str),
    /// Why the walk ended of a file from which something was left.
    WalkEnd(End),
    /// The first fault of a run under a sound header, and the type of the record it is at; none behind a 50 at the end, and at a type that
    /// is not carried.
    Fault(Sort, Number, Option<u8>),
    /// A record dropped with PLACE where something was left, and for which reason.
    Dropped(&'static str),
    /// A stray under a kept header, by its type; none is no type.
    Stray(Option<u8>),
    /// A record under no header, by its type.
    Outside(u8),
    /// A kept letter: its field 8 as it stands, and what ends the records under it.
    Letter(u8, &'static str),
    /// A letter dropped by Annex B.
    WithoutBundle(u8),
    /// A kept letter of this content with so many bundles (2 for more) and some 61s or none.
    Holds(u8, usize, bool),
    /// Side by side in a kept letter, or in one file.
    Beside(&'static str),
    /// A free field of a new control: type, field, and how it came to what it holds.
    Free(u8, u8, &'static str),
    /// A kept 61 directly under a header.
    Credit(&'static str),
    /// What stands right before a kept 61, where it is a stray of this type.
    Behind(Option<u8>),
    /// What a kept record holds, or a wrong salvage would take another way.
    Kept(&'static str),
    /// How buffer and list were lent.
    Lent(&'static str),
    /// On a refusal.
    LentRefused(u64, &'static str),
    /// An accepted file, with a letter of this content.
    Accepted(u8),
}

/// How often each point was met.
#[derive(Clone, Debug, Default)]
pub struct Tally {
    met: BTreeMap<(Set, Point), u64>,
}

const IN_BUNDLES: [u8; 15] = [20, 25, 26, 27, 28, 31, 32, 33, 34, 35, 50, 52, 54, 61, 70];

/// Types that can stand under a header and lie in no run.
const STRAYS: [u8; 14] = [1, 25, 26, 27, 28, 31, 32, 33, 34, 35, 50, 52, 54, 70];

const NOTHINGS: [&str; 7] =
    ["no record walked", "no 01 first", "01 of wrong length", "01 against a rule", "no 10", "10s unsound", "Annex B"];

const DROPPED: [&str; 24] = [
    "before the first 10",
    "behind a 90",
    "second 01",
    "second 90",
    "unsound header",
    "unsound header: bundle",
    "unsound header: 61",
    "unsound header: torn",
    "unsound header: stray",
    "unsound header: 90",
    "Annex B: header",
    "Annex B: sound 61",
    "Annex B: torn",
    "Annex B: stray",
    "Annex B: 90",
    "torn before a 20",
    "torn before a 10",
    "torn before a 90",
    "torn before a 99",
    "torn at the end",
    "torn, with a 61",
    "torn, with a 61 and its views",
    "61 behind a 50",
    "stray",
];

const BESIDE: [&str; 14] = [
    "a sound bundle behind an unsound one",
    "a sound bundle before an unsound one",
    "a sound bundle behind a torn one",
    "a sound bundle before a torn one",
    "a sound 61 behind an unsound one",
    "a sound 61 before an unsound one",
    "a sound 61 behind a torn one",
    "a sound bundle behind a stray",
    "an unsound 61 in a kept letter",
    "a bundle under N",
    "an unsound run in a letter dropped by Annex B",
    "a kept letter behind one dropped",
    "a kept letter before one dropped",
    "two kept letters",
];

const FREE_HOWS: [&str; 8] = [
    "kept",
    "was blank",
    "against its rule",
    "outside the record",
    "a byte outside the record",
    "to the record's last byte",
    "kept of an unsound control",
    "no old control",
];

const CREDITS: [&str; 11] = [
    "behind the 10",
    "behind a kept bundle",
    "behind an unsound bundle",
    "behind a kept 61",
    "behind an unsound 61",
    "behind a stray",
    "without a view",
    "with a view",
    "with views",
    "ends with a 54",
    "in a kept bundle",
];

const KEPT: [&str; 14] = [
    "blank 70.4",
    "70.4",
    "view under N",
    "debit 61",
    "credit 61",
    "returns",
    "90 that stated other sums",
    "99 that stated other sums",
    "90 unsound",
    "99 unsound",
    "no 99",
    "records behind the 99",
    "dropped, but sound under the 10 before",
    "dropped under an unsound 10, but sound under the 10 before",
];

/// What a run is to show of files in this set.
pub fn demanded(set: Set) -> Vec<Point> {
    let mut points = Vec::new();
    if set == Set::Ascii {
        points.extend([Point::Empty, Point::LentRefused(1, "nothing"), Point::LentRefused(1, "more of both")]);
    }
    // An EBCDIC file begins with a 01, or with no record.
    points.extend(NOTHINGS.into_iter().filter(|why| set == Set::Ascii || *why != "no 01 first").map(Point::Nothing));
    points.extend([(90, 4), (90, 9), (99, 5), (99, 8)].map(|(code, field)| Point::TooLong(code, field)));
    points.extend(["bytes", "rows", "bytes before rows"].map(Point::Room));
    let ends = [End::Bytes, End::CutInLength, End::CutInRecord, End::BelowTwo(0), End::BelowTwo(1)];
    points.extend(ends.into_iter().chain([true, false].map(End::Behind99)).map(Point::WalkEnd));
    points.extend(faults());
    points.extend(DROPPED.map(Point::Dropped));
    points.extend(STRAYS.into_iter().chain(NOT_CARRIED).chain([0]).map(|code| Point::Stray(Some(code))));
    points.push(Point::Stray(None));
    points.extend([1, 20, 25, 31, 50, 52, 54, 61, 70, 90].map(Point::Outside));
    for letter in *b"NnEeIiFf" {
        points.extend(["10", "90", "99", "the end"].map(|end| Point::Letter(letter, end)));
        let content = letter.to_ascii_uppercase();
        if content != b'N' {
            points.push(Point::WithoutBundle(letter));
        }
        if content == letter {
            let bundles: &[usize] = if content == b'N' { &[0] } else { &[1, 2] };
            points
                .extend(bundles.iter().flat_map(|count| [true, false].map(|some| Point::Holds(content, *count, some))));
            points.push(Point::Accepted(content));
        }
    }
    points.extend(BESIDE.map(Point::Beside));
    for code in [90, 99] {
        points.extend(FREE.into_iter().flat_map(|field| FREE_HOWS.map(|how| Point::Free(code, field, how))));
    }
    points.extend(CREDITS.map(Point::Credit));
    points
        .extend(STRAYS.into_iter().filter(|code| !matches!(code, 50 | 52 | 54)).map(|code| Point::Behind(Some(code))));
    points.extend([Point::Behind(None), Point::Behind(Some(NOT_CARRIED[0]))]);
    points.extend(KEPT.map(Point::Kept));
    points.extend(SORTS.map(Point::Lent));
    for number in [9, NOTHING] {
        points.extend(["nothing", "more of both"].map(|sort| Point::LentRefused(number, sort)));
    }
    points
}

/// The first faults that runs can have, by the type they are at. PLACE comes at every type but the 20, which a run begins with, and the three
/// that end what is under a header.
fn faults() -> Vec<Point> {
    let mut points =
        vec![Point::Fault(Sort::Bundle, Number::Type, None), Point::Fault(Sort::Bundle, Number::Total, Some(70))];
    let mut add = |sort: Sort, number: Number, codes: &[u8]| {
        points.extend(codes.iter().map(|code| Point::Fault(sort, number, Some(*code))));
    };
    add(Sort::Bundle, Number::Place, &[1, 25, 26, 27, 28, 31, 32, 33, 34, 35, 50, 52, 54, 61, 70]);
    add(Sort::Bundle, Number::Length, &IN_BUNDLES);
    add(Sort::Bundle, Number::Field, &IN_BUNDLES);
    add(Sort::Bundle, Number::Link, &[20, 25, 26, 27, 28, 31, 32, 33, 34, 35, 50, 52, 61, 70]);
    add(Sort::Credit, Number::Place, &[50, 52, 54]);
    add(Sort::Credit, Number::Length, &[50, 52, 54, 61]);
    add(Sort::Credit, Number::Field, &[50, 52, 54, 61]);
    add(Sort::Credit, Number::Link, &[50, 52]);
    points.push(Point::Fault(Sort::Credit, Number::Place, None));
    points
}

/// Where a record stands among those walked.
#[derive(Clone, Copy, PartialEq, Eq)]
enum Place {
    Outside,
    Header(usize),
    /// In this run of a letter.
    Run(usize, usize),
    /// In a stretch without a 70, which ends here.
    Torn(usize, usize),
    Stray(usize),
    /// The 90 that ends what is under a header.
    Control(usize),
}

fn places(survey: &Survey) -> Vec<Place> {
    let mut places = vec![Place::Outside; survey.walked.len()];
    for (index, judged) in survey.letters.iter().enumerate() {
        let letter = &judged.letter;
        places[letter.header] = Place::Header(index);
        places[letter.header + 1..letter.end].fill(Place::Stray(index));
        for (number, run) in letter.runs.iter().enumerate() {
            places[run.first..run.end].fill(Place::Run(index, number));
        }
        for (first, end) in &letter.torn {
            places[*first..*end].fill(Place::Torn(index, *end));
        }
        if let Some(at) = letter.control(&survey.walked) {
            places[at] = Place::Control(index);
        }
    }
    places
}

impl Tally {
    fn meet(&mut self, set: Set, point: Point) {
        *self.met.entry((set, point)).or_insert(0) += 1;
    }

    pub fn add(&mut self, other: &Tally) {
        for (point, count) in &other.met {
            *self.met.entry(*point).or_insert(0) += count;
        }
    }

    /// How a buffer and a list were lent.
    pub fn note_lent(&mut self, set: Set, outcome: &Outcome, sort: &'static str, (bytes, numbers): (usize, usize)) {
        if !outcome.is_written() {
            return self.meet(set, Point::LentRefused(outcome.answer[0], sort));
        }
        self.meet(set, Point::Lent(sort));
        let (short_bytes, short_rows) = (bytes < outcome.file.len(), numbers / 4 < outcome.list.len());
        match (short_bytes, short_rows) {
            (true, true) => self.meet(set, Point::Room("bytes before rows")),
            (true, false) => self.meet(set, Point::Room("bytes")),
            (false, true) => self.meet(set, Point::Room("rows")),
            _ => {}
        }
    }

    /// A file and what it came to. There is no survey of a file of no byte, or of too many.
    pub fn note(&mut self, file: &[u8], survey: Option<&Survey>, outcome: &Outcome) {
        let set = Set::of(file);
        let Some(survey) = survey else {
            if file.is_empty() {
                self.meet(set, Point::Empty);
            }
            return;
        };
        self.note_faults(set, survey);
        match outcome.answer[0] {
            NOTHING => self.meet(set, Point::Nothing(why_nothing(survey))),
            9 => self.meet(set, Point::TooLong(code_too_long(outcome), outcome.answer[2])),
            0 => self.note_written(set, file, survey),
            _ => {}
        }
    }

    fn note_faults(&mut self, set: Set, survey: &Survey) {
        for judged in survey.letters.iter().flat_map(|letter| &letter.runs) {
            if let Some((number, code)) = judged.fault {
                let code = if number == Number::Type { None } else { code };
                self.meet(set, Point::Fault(judged.run.sort, number, code));
            }
        }
    }

    fn note_written(&mut self, set: Set, file: &[u8], survey: &Survey) {
        self.meet(set, Point::WalkEnd(survey.end));
        let reading = read(file);
        let accepted = reading.answer.number == Number::Accepted;
        for judged in &survey.letters {
            self.note_letter(set, survey, judged, accepted);
        }
        let kept: Vec<bool> = survey.letters.iter().map(Judged::is_kept).collect();
        let pairs = [([true, true], "two kept letters"), ([false, true], "a kept letter behind one dropped")];
        for (pair, name) in pairs.into_iter().chain([([true, false], "a kept letter before one dropped")]) {
            if kept.windows(2).any(|two| two == pair) {
                self.meet(set, Point::Beside(name));
            }
        }
        self.note_free(set, 99, survey.control());
        if survey.control().is_none() {
            self.meet(set, Point::Kept("no 99"));
        }
        if survey.end == End::Behind99(true) {
            self.meet(set, Point::Kept("records behind the 99"));
        }
        self.note_records(set, survey);
        self.note_elsewhere(set, survey);
    }

    fn note_letter(&mut self, set: Set, survey: &Survey, judged: &Judged, accepted: bool) {
        let letter = &judged.letter;
        let header = survey.walked[letter.header].body;
        if !judged.sound {
            return;
        }
        let as_it_stands = set.character(layout(10).field(8).of(header)[0]);
        if !judged.is_kept() {
            self.meet(set, Point::WithoutBundle(as_it_stands));
            if judged.runs.iter().any(|run| run.fault.is_some()) {
                self.meet(set, Point::Beside("an unsound run in a letter dropped by Annex B"));
            }
            return;
        }
        let end = match survey.walked.get(letter.end).and_then(|record| record.kind) {
            Some(10) => "10",
            Some(90) => "90",
            Some(99) => "99",
            _ => "the end",
        };
        self.meet(set, Point::Letter(as_it_stands, end));
        let content = content_of(set, header);
        if accepted {
            self.meet(set, Point::Accepted(content));
        }
        let bundles = judged.sound_runs().filter(|run| run.sort == Sort::Bundle).count().min(2);
        let credits = judged.sound_runs().any(|run| run.sort == Sort::Credit);
        self.meet(set, Point::Holds(content, bundles, credits));
        let control = letter.control(&survey.walked).map(|at| survey.walked[at].body);
        self.note_free(set, 90, control);
        self.note_beside(set, judged, content);
    }

    /// Sound, unsound and torn side by side under a kept header. One stands behind another of a kind if the last of the one does behind the
    /// first of the other.
    fn note_beside(&mut self, set: Set, judged: &Judged, content: u8) {
        let runs = &judged.runs;
        let torn: Vec<usize> = judged.letter.torn.iter().map(|(first, _)| *first).collect();
        for sort in [Sort::Bundle, Sort::Credit] {
            let places = |sound: bool| -> Vec<usize> {
                let alike = runs.iter().filter(|run| run.run.sort == sort && run.fault.is_none() == sound);
                alike.map(|run| run.run.first).collect()
            };
            let (sound, unsound) = (places(true), places(false));
            let (behind, before, behind_torn) = match sort {
                Sort::Bundle => (
                    "a sound bundle behind an unsound one",
                    "a sound bundle before an unsound one",
                    "a sound bundle behind a torn one",
                ),
                Sort::Credit => (
                    "a sound 61 behind an unsound one",
                    "a sound 61 before an unsound one",
                    "a sound 61 behind a torn one",
                ),
            };
            let shown = [
                (one_behind(&sound, &unsound), behind),
                (one_behind(&unsound, &sound), before),
                (one_behind(&sound, &torn), behind_torn),
                (sort == Sort::Bundle && one_behind(&torn, &sound), "a sound bundle before a torn one"),
            ];
            shown.into_iter().filter(|(met, _)| *met).for_each(|(_, name)| self.meet(set, Point::Beside(name)));
        }
        if runs.iter().any(|run| run.run.sort == Sort::Credit && run.fault.is_some()) {
            self.meet(set, Point::Beside("an unsound 61 in a kept letter"));
        }
        if content == b'N' && runs.iter().any(|run| run.run.sort == Sort::Bundle) {
            self.meet(set, Point::Beside("a bundle under N"));
        }
    }

    /// Where the free fields of a new control come from.
    fn note_free(&mut self, set: Set, code: u8, old: Option<&[u8]>) {
        for number in FREE {
            let field = layout(code).field(number);
            let Some(body) = old else {
                self.meet(set, Point::Free(code, number, "no old control"));
                continue;
            };
            if body.len() == field.last {
                self.meet(set, Point::Free(code, number, "to the record's last byte"));
            }
            if body.len() + 1 == field.last {
                self.meet(set, Point::Free(code, number, "a byte outside the record"));
            }
            let how = match free_field(set, code, number, old) {
                _ if body.len() < field.last => "outside the record",
                None => "against its rule",
                Some(bytes) if all_blank(peer_reader::charset::Text::new(set, bytes)) => "was blank",
                Some(_) => "kept",
            };
            self.meet(set, Point::Free(code, number, how));
            if how == "kept" && fault_alone(set, code, body).is_some() {
                self.meet(set, Point::Free(code, number, "kept of an unsound control"));
            }
        }
    }

    fn note_records(&mut self, set: Set, survey: &Survey) {
        let places = places(survey);
        let lost = survey.letters.iter().any(|letter| letter.runs.iter().any(|run| run.fault.is_some()));
        let other = |name: &'static str| lost.then_some(name);
        for (at, place) in places.iter().enumerate() {
            for name in dropped(survey, &places, at) {
                self.meet(set, Point::Dropped(name));
            }
            match place {
                Place::Stray(index) if survey.letters[*index].is_kept() => {
                    self.meet(set, Point::Stray(survey.walked[at].kind));
                }
                Place::Outside if at > 0 => {
                    if let Some(kind) = survey.walked[at].kind {
                        self.meet(set, Point::Outside(kind));
                    }
                }
                Place::Run(index, number) if survey.letters[*index].is_kept() => {
                    let judged = survey.letters[*index].runs[*number];
                    if judged.fault.is_none() && judged.run.first == at {
                        self.note_kept_run(set, survey, &places, judged.run);
                    }
                }
                Place::Control(index) if survey.letters[*index].is_kept() => {
                    self.note_old_control(
                        set,
                        90,
                        survey.walked[at].body,
                        "90 unsound",
                        other("90 that stated other sums"),
                    );
                }
                _ => {}
            }
        }
        if let Some(body) = survey.control() {
            self.note_old_control(set, 99, body, "99 unsound", other("99 that stated other sums"));
        }
    }

    /// A control that is made new: unsound, or one whose sums are those of more than is kept, since something was dropped.
    fn note_old_control(
        &mut self,
        set: Set,
        code: u8,
        body: &[u8],
        unsound: &'static str,
        other: Option<&'static str>,
    ) {
        let name = if fault_alone(set, code, body).is_some() { Some(unsound) } else { other };
        name.into_iter().for_each(|name| self.meet(set, Point::Kept(name)));
    }

    fn note_kept_run(&mut self, set: Set, survey: &Survey, places: &[Place], run: Run) {
        let records = &survey.walked[run.first..run.end];
        for record in records {
            match record.kind {
                Some(70) => {
                    let blank = all_blank(peer_reader::charset::Text::new(set, layout(70).field(4).of(record.body)));
                    self.meet(set, Point::Kept(if blank { "blank 70.4" } else { "70.4" }));
                }
                Some(31) => self.meet(set, Point::Kept("returns")),
                Some(61) => {
                    let debit = set.character(layout(61).field(2).of(record.body)[0]) == b'9';
                    self.meet(set, Point::Kept(if debit { "debit 61" } else { "credit 61" }));
                    if run.sort == Sort::Bundle {
                        self.meet(set, Point::Credit("in a kept bundle"));
                    }
                }
                _ => {}
            }
        }
        if run.sort == Sort::Bundle {
            if run.first > 0 && matches!(places[run.first - 1], Place::Stray(_)) {
                self.meet(set, Point::Beside("a sound bundle behind a stray"));
            }
            return;
        }
        let views = records.iter().filter(|record| record.is(50)).count();
        self.meet(set, Point::Credit(["without a view", "with a view", "with views"][views.min(2)]));
        if records[records.len() - 1].is(54) {
            self.meet(set, Point::Credit("ends with a 54"));
        }
        let index = match places[run.first] {
            Place::Run(index, _) => index,
            _ => return,
        };
        if views > 0 && survey.letters[index].content == Some(b'N') {
            self.meet(set, Point::Kept("view under N"));
        }
        let before = match places[run.first - 1] {
            Place::Header(_) => "behind the 10",
            Place::Run(index, number) => {
                let judged = survey.letters[index].runs[number];
                match (judged.run.sort, judged.fault.is_none()) {
                    (Sort::Bundle, true) => "behind a kept bundle",
                    (Sort::Bundle, false) => "behind an unsound bundle",
                    (Sort::Credit, true) => "behind a kept 61",
                    (Sort::Credit, false) => "behind an unsound 61",
                }
            }
            _ => {
                self.meet(set, Point::Behind(survey.walked[run.first - 1].kind));
                "behind a stray"
            }
        };
        self.meet(set, Point::Credit(before));
    }

    /// Runs that are dropped, and would be sound under the header before theirs.
    fn note_elsewhere(&mut self, set: Set, survey: &Survey) {
        for pair in survey.letters.windows(2) {
            let [before, own] = [&pair[0], &pair[1]];
            if !before.sound {
                continue;
            }
            let header = survey.walked[before.letter.header].body;
            for judged in &own.runs {
                let run = judged.run;
                let dropped = !own.sound || judged.fault.is_some();
                if dropped && first_fault(set, header, run.sort, &survey.walked[run.first..run.end]).is_none() {
                    let name = match own.sound {
                        true => "dropped, but sound under the 10 before",
                        false => "dropped under an unsound 10, but sound under the 10 before",
                    };
                    self.meet(set, Point::Kept(name));
                }
            }
        }
    }

    pub fn missing(&self) -> Vec<(Set, Point)> {
        let both = [Set::Ascii, Set::Ebcdic].into_iter();
        let all = both.flat_map(|set| demanded(set).into_iter().map(move |point| (set, point)));
        all.filter(|point| !self.met.contains_key(point)).collect()
    }

    /// A line for each group of points: how many of those demanded were met, and the rarest of them.
    pub fn report(&self) -> String {
        let mut groups: BTreeMap<&str, Vec<(u64, Set, Point)>> = BTreeMap::new();
        for set in [Set::Ascii, Set::Ebcdic] {
            for point in demanded(set) {
                let met = self.met.get(&(set, point)).copied().unwrap_or(0);
                groups.entry(group_of(&point)).or_default().push((met, set, point));
            }
        }
        let line = |(name, points): (&str, Vec<(u64, Set, Point)>)| {
            let met = points.iter().filter(|(met, ..)| *met > 0).count();
            let (times, set, point) = points.iter().min().expect("a group has a point");
            format!("  {name}: {met} of {}, the rarest {times} times ({point:?} in {set:?})\n", points.len())
        };
        groups.into_iter().map(line).collect()
    }

    /// All points that were met.
    pub fn met(&self) -> impl Iterator<Item = (Set, Point)> + '_ {
        self.met.keys().copied()
    }
}

/// Whether some of these rising places is behind some of those.
fn one_behind(these: &[usize], those: &[usize]) -> bool {
    matches!((these.last(), those.first()), (Some(last), Some(first)) if last > first)
}

fn why_nothing(survey: &Survey) -> &'static str {
    let Some(first) = survey.walked.first() else { return "no record walked" };
    if !first.is(1) {
        return "no 01 first";
    }
    match fault_alone(survey.set, 1, first.body) {
        Some(Number::Length) => return "01 of wrong length",
        Some(_) => return "01 against a rule",
        None => {}
    }
    match survey.letters.iter().any(|letter| letter.sound) {
        _ if survey.letters.is_empty() => "no 10",
        true => "Annex B",
        false => "10s unsound",
    }
}

/// The control at which a sum is too long, told by its field: 5 and 8 are those of a 99, 4 and 9 those of a 90.
fn code_too_long(outcome: &Outcome) -> u64 {
    match outcome.answer[2] {
        5 | 8 => 99,
        _ => 90,
    }
}

/// The reasons for which a record is dropped with PLACE, by where it stands.
fn dropped(survey: &Survey, places: &[Place], at: usize) -> Vec<&'static str> {
    let record = &survey.walked[at];
    let letter = |index: usize| &survey.letters[index];
    let mut names = Vec::new();
    if record.is(1) && at > 0 {
        names.push("second 01");
    }
    match places[at] {
        Place::Outside if at == 0 || record.is(99) => {}
        Place::Outside if record.is(90) => names.push("second 90"),
        Place::Outside => {
            let before_all = survey.letters.first().is_none_or(|letter| at < letter.letter.header);
            names.push(if before_all { "before the first 10" } else { "behind a 90" });
        }
        Place::Header(index) if !letter(index).sound => names.push("unsound header"),
        Place::Header(index) if !letter(index).is_kept() => names.push("Annex B: header"),
        Place::Control(index) if !letter(index).sound => names.push("unsound header: 90"),
        Place::Control(index) if !letter(index).is_kept() => names.push("Annex B: 90"),
        Place::Stray(index) if !letter(index).sound => names.push("unsound header: stray"),
        Place::Stray(index) if !letter(index).is_kept() => names.push("Annex B: stray"),
        Place::Stray(_) => names.push("stray"),
        Place::Torn(index, _) if !letter(index).sound => names.push("unsound header: torn"),
        Place::Torn(index, _) if !letter(index).is_kept() => names.push("Annex B: torn"),
        Place::Torn(_, end) => {
            names.push(match survey.walked.get(end).and_then(|record| record.kind) {
                Some(20) => "torn before a 20",
                Some(10) => "torn before a 10",
                Some(90) => "torn before a 90",
                Some(99) => "torn before a 99",
                _ => "torn at the end",
            });
            if record.is(61) {
                names.push("torn, with a 61");
                if at + 1 < end && survey.walked[at + 1].is(50) {
                    names.push("torn, with a 61 and its views");
                }
            }
        }
        Place::Run(index, number) => {
            let judged = letter(index).runs[number];
            match (judged.run.sort, judged.fault) {
                (Sort::Bundle, _) if !letter(index).sound => names.push("unsound header: bundle"),
                (Sort::Credit, _) if !letter(index).sound => names.push("unsound header: 61"),
                (_, None) if !letter(index).is_kept() => names.push("Annex B: sound 61"),
                (Sort::Credit, Some((Number::Place, None))) => names.push("61 behind a 50"),
                _ => {}
            }
        }
        _ => {}
    }
    names
}

fn group_of(point: &Point) -> &'static str {
    match point {
        Point::Empty | Point::Nothing(_) | Point::TooLong(..) | Point::Room(_) => "refusals",
        Point::WalkEnd(_) => "ends of the walk",
        Point::Fault(..) => "first faults of runs",
        Point::Dropped(_) => "reasons for PLACE",
        Point::Stray(_) | Point::Outside(_) => "strays",
        Point::Letter(..) | Point::WithoutBundle(_) | Point::Holds(..) => "letters",
        Point::Beside(_) => "side by side",
        Point::Free(..) => "free fields of new controls",
        Point::Credit(_) | Point::Behind(_) => "61s",
        Point::Kept(_) => "what kept records hold",
        Point::Lent(_) | Point::LentRefused(..) => "buffers and lists",
        Point::Accepted(_) => "accepted files",
    }
}
