//! The edges of the rules: for each field of the table the contents on both sides of each edge, and which of them pass. Worked out from
//! the field's row in `fields.tsv`, clause 5, document 01 and request 1 (`routing.rs`) alone; nothing here asks the judge.

use crate::generate::{all_digits, check_digit, digits_of, value_of};
use crate::routing::{self, Taken};
use crate::table::{Field, Kind, Table, Values};
use std::collections::BTreeSet;

/// An edge of a field's rule: contents of the field on its two sides.
#[derive(Clone)]
pub struct Edge {
    /// What lies at the edge, for the count.
    pub rule: &'static str,
    /// Contents that leave a sound record sound.
    pub inside: Vec<u8>,
    /// The nearest contents past the edge.
    pub beyond: Vec<u8>,
    /// Whether these pass too, since other defined values, or another form of a routing number, begin right there. Otherwise they are a FIELD
    /// fault.
    pub beyond_passes: bool,
}

/// What is asked of a field beyond its data type.
#[derive(Clone, Copy, PartialEq, Eq)]
pub enum Asked {
    TypeAlone,
    Values,
    Date,
    Time,
    Routing,
    /// 70.4: digits alone (document 01).
    Digits,
    /// 50.11 and 50.12: '0' through '99' in two characters (clauses 21.11 and 21.12).
    OneOrTwoDigits,
}

/// Every position of a variable part would be too many: a part of so many bytes is tried at its first and at its last.
const PART: usize = 3;

/// The byte below the blank, outside of every data type but Binary (clause 5.1.5).
pub const NO_CHARACTER: u8 = 0x1F;

/// P3 of document 01: no calendar.
const DATE: &[u8] = b"20050230";
/// P1 of document 01.
const ROUTING: &[u8] = b"123456780";
/// P2 of document 01.
const WRONG_ROUTING: &[u8] = b"123456781";

/// 50.11 and 50.12: a character at an edge and its neighbour, and what may stand beside it.
pub const DIGIT_OR_BLANK: [(u8, u8); 8] = [
    (b' ', NO_CHARACTER),
    (b' ', b'!'),
    (b'0', b'/'),
    (b'9', b':'),
    (b'9', b'A'),
    (b'9', b'Z'),
    (b'9', b'a'),
    (b'9', b'z'),
];
pub const BESIDE: &[u8] = b" 09";

impl Asked {
    pub fn of(kind: &Kind, field: &Field) -> Asked {
        match (kind.code, field.number, field.format) {
            ("50", 11 | 12, _) => Asked::OneOrTwoDigits,
            ("70", 4, _) => Asked::Digits,
            _ if !field.values.is_empty() => Asked::Values,
            (_, _, "none") => Asked::TypeAlone,
            (_, _, "date") => Asked::Date,
            (_, _, "hhmm" | "hhmmss") => Asked::Time,
            _ => Asked::Routing,
        }
    }

    pub fn is_format(self) -> bool {
        matches!(self, Asked::Date | Asked::Time | Asked::Routing)
    }

    /// What has to stand before digits for the type alone to judge them: nothing, or a mark; none where it never does.
    pub fn marks_before_digits(self, data_type: &str) -> Option<Vec<u8>> {
        match self {
            Asked::TypeAlone => Some(Vec::new()),
            _ => marks_of(data_type).pop().filter(|_| self.is_format()).map(|mark| vec![mark]),
        }
    }

    /// The characters at the data type's ends that are to be tried in a value. Blanks and marks have rules of their own; so have the
    /// digits of a date, a time or a routing number, and 50.11 and 50.12 have all.
    pub fn characters_to_try(self, data_type: &str) -> BTreeSet<u8> {
        let tried = |byte: &u8| match self {
            Asked::TypeAlone | Asked::OneOrTwoDigits => false,
            Asked::Values => !b" *?".contains(byte),
            _ => !b" *?".contains(byte) && !byte.is_ascii_digit(),
        };
        ends_of(data_type).map(|(end, _)| end).filter(tried).collect()
    }
}

/// The characters of a data type as runs of ASCII codes (clause 5.3, Table 1), neighbours joined: '#' with '$', '/' with the digits. None
/// for Binary, where every byte goes.
pub fn runs_of(data_type: &str) -> &'static [(u8, u8)] {
    match data_type {
        "AB" => &[(b' ', b' ')],
        "A" => &[(b' ', b' '), (b'A', b'Z'), (b'a', b'z')],
        "AN" => &[(b' ', b' '), (b'0', b'9'), (b'A', b'Z'), (b'a', b'z')],
        "ANS" => &[(0x20, 0x7E)],
        "N" => &[(b'0', b'9')],
        "NB" => &[(b' ', b' '), (b'0', b'9')],
        "NBD" => &[(b' ', b' '), (b'-', b'-'), (b'0', b'9')],
        "NBQ" => &[(b' ', b' '), (b'0', b'9'), (b'?', b'?')],
        "NBMc" => &[(b' ', b' '), (b'*', b'*'), (b'0', b'9')],
        "NBMcd" => &[(b' ', b' '), (b'*', b'*'), (b'-', b'-'), (b'0', b'9')],
        "NBMcdo" => &[(b' ', b' '), (b'*', b'*'), (b'-', b'-'), (b'/', b'9')],
        "NBMU" => &[(b' ', b' '), (b'#', b'$'), (b'*', b'*'), (b'-', b'-'), (b'/', b'9')],
        "Binary" => &[],
        other => panic!("no data type {other}"),
    }
}

const DATA_TYPES: [&str; 12] = ["AB", "A", "AN", "ANS", "N", "NB", "NBD", "NBQ", "NBMc", "NBMcd", "NBMcdo", "NBMU"];

/// The bytes at the ends of all data types that are not in this one.
pub fn strangers_to(data_type: &str) -> BTreeSet<u8> {
    let ends = DATA_TYPES.iter().flat_map(|other| ends_of(other)).map(|(end, _)| end);
    ends.filter(|byte| !has(data_type, *byte)).collect()
}

/// Can't read (clause 5.2.2) and questionable (clause 5.1.4), where the data type has them.
pub fn marks_of(data_type: &str) -> Vec<u8> {
    b"*?".iter().copied().filter(|mark| has(data_type, *mark)).collect()
}

/// Clauses 5.3.8 to 5.3.10.
pub fn no_blank_among_digits(data_type: &str) -> bool {
    ["NB", "NBD", "NBQ"].contains(&data_type)
}

/// Whether a data type has this byte.
pub fn has(data_type: &str, byte: u8) -> bool {
    data_type == "Binary" || runs_of(data_type).iter().any(|(low, high)| (*low..=*high).contains(&byte))
}

/// Each end of each run of a data type, with the byte past it.
fn ends_of(data_type: &str) -> impl Iterator<Item = (u8, u8)> {
    runs_of(data_type).iter().flat_map(|(low, high)| [(*low, low - 1), (*high, high + 1)])
}

/// Digits in plain order: 50.11 and 50.12 aside, values are compared with others of their own width only.
fn is_listed(values: &[Values], bytes: &[u8]) -> bool {
    let capital = bytes.to_ascii_uppercase();
    let alike = |run: &&Values| run.low.len() == bytes.len() && run.low[0].is_ascii_digit() == all_digits(bytes);
    values.iter().filter(alike).any(|run| (run.low..=run.high).contains(&capital.as_slice()))
}

/// Every byte on either side of an end of a data type or of a one-character value, in either case; the digits; the ends of all bytes.
pub fn bytes_at_edges(table: &Table) -> Vec<u8> {
    let mut bytes: BTreeSet<u8> = (b'0'..=b'9').chain([0x00, 0x7F, 0x80, 0xFF]).collect();
    for field in table.kinds.iter().flat_map(|kind| &kind.fields) {
        bytes.extend(ends_of(field.data_type).flat_map(|(end, past)| [end, past]));
        for run in field.values.iter().filter(|run| run.low.len() == 1 && run.high.len() == 1) {
            bytes.extend(ends_of_values(run).iter().flat_map(|(end, past)| [end[0], past[0]]));
        }
    }
    bytes.into_iter().collect()
}

/// Each end of a printed value or run of values, with what comes past it. A letter is tried in either case (clause 5.1.1).
fn ends_of_values(run: &Values) -> Vec<(Vec<u8>, Vec<u8>)> {
    if all_digits(run.low) {
        return vec![(run.low.to_vec(), digits_past(run.low, -1)), (run.high.to_vec(), digits_past(run.high, 1))];
    }
    let cases = |end: u8| [end, end.to_ascii_lowercase()];
    let low = cases(run.low[0]).map(|letter| (vec![letter], vec![letter - 1]));
    let high = cases(run.high[0]).map(|letter| (vec![letter], vec![letter + 1]));
    [low, high].concat()
}

/// The number before or after, in as many digits. Past the first and the last that fit comes the character past the digits.
fn digits_past(digits: &[u8], step: i8) -> Vec<u8> {
    let outermost = if step < 0 { b'0' } else { b'9' };
    if digits.iter().all(|digit| *digit == outermost) {
        return with(digits, digits.len() - 1, outermost.wrapping_add_signed(step));
    }
    digits_of(value_of(digits).wrapping_add_signed(step.into()), digits.len())
}

/// Digits and the characters of a pattern; those of `123456781`, so that nine of them break the ABA rule.
fn example_of(pattern: &[u8]) -> Vec<u8> {
    let digits = WRONG_ROUTING.iter();
    pattern.iter().zip(digits).map(|(character, digit)| if *character == b'9' { *digit } else { *character }).collect()
}

/// 50.11 and 50.12: a digit, or a blank, at either place, whatever of these stands at the other.
fn one_or_two_digits() -> Vec<Edge> {
    let pairs = BESIDE.iter().flat_map(|beside| DIGIT_OR_BLANK.map(|(end, past)| (*beside, end, past)));
    let both_places = |(beside, end, past): (u8, u8, u8)| {
        let rule = "one digit or two";
        [edge(rule, &[end, beside], &[past, beside]), edge(rule, &[beside, end], &[beside, past])]
    };
    pairs.flat_map(both_places).collect()
}

fn with(contents: &[u8], at: usize, byte: u8) -> Vec<u8> {
    let mut changed = contents.to_vec();
    changed[at] = byte;
    changed
}

fn edge(rule: &'static str, inside: &[u8], beyond: &[u8]) -> Edge {
    Edge { rule, inside: inside.to_vec(), beyond: beyond.to_vec(), beyond_passes: false }
}

/// A field with what is asked of it, and contents that pass.
struct Ruled<'t> {
    field: &'t Field,
    asked: Asked,
    sound: Vec<u8>,
    blank: Vec<u8>,
}

/// All edges of a field. Field 1 has others: another type number is TYPE, or another kind of record.
pub fn edges(kind: &Kind, field: &Field) -> Vec<Edge> {
    let asked = Asked::of(kind, field);
    let size = if field.stated_by.is_some() { PART } else { field.size };
    let sound = match asked {
        Asked::TypeAlone if field.data_type != "N" => vec![b' '; size],
        Asked::Values => field.values[0].low.to_vec(),
        Asked::Date => DATE.to_vec(),
        Asked::Routing => ROUTING.to_vec(),
        _ => vec![b'0'; size],
    };
    let ruled = Ruled { field, asked, sound, blank: vec![b' '; size] };
    let of_type = [ruled.characters(), ruled.characters_in_values(), ruled.blanks(), ruled.blanks_among_digits()];
    of_type.into_iter().chain([ruled.forms(), ruled.marks()]).flatten().collect()
}

impl Ruled<'_> {
    /// Clause 5: each end of the data type's characters, and each end of another's that this one lacks. Where more is asked, the end
    /// itself may be no value, so sound contents stand on the inner side.
    fn characters(&self) -> Vec<Edge> {
        let (data_type, sound, size) = (self.field.data_type, &self.sound, self.sound.len());
        if data_type == "Binary" {
            let bytes = edge("bytes of Binary", &vec![0x00; size], &vec![0xFF; size]);
            return vec![Edge { beyond_passes: true, ..bytes }];
        }
        let mut edges = Vec::new();
        for at in (0..size).filter(|at| self.field.stated_by.is_none() || [0, size - 1].contains(at)) {
            for (end, past) in ends_of(data_type) {
                let inside = if self.asked == Asked::TypeAlone { with(sound, at, end) } else { sound.clone() };
                edges.push(edge("characters of the data type", &inside, &with(sound, at, past)));
            }
            let strangers = strangers_to(data_type).into_iter();
            edges.extend(strangers.map(|byte| edge("characters of other data types", sound, &with(sound, at, byte))));
        }
        edges
    }

    /// Characters that the data type has: each may make another defined value, or none.
    fn characters_in_values(&self) -> Vec<Edge> {
        let characters = self.asked.characters_to_try(self.field.data_type);
        let places = (0..self.sound.len()).flat_map(|at| characters.iter().map(move |character| (at, *character)));
        let tried = |(at, character)| {
            let beyond = with(&self.sound, at, character);
            self.passing(edge("characters in a value", &self.sound, &beyond))
        };
        places.map(tried).collect()
    }

    /// The edge, with contents beyond it that may be another value, or another form, and pass.
    fn passing(&self, edge: Edge) -> Edge {
        let beyond_passes = match self.asked {
            Asked::Values => is_listed(&self.field.values, &edge.beyond),
            Asked::Routing => Taken::by(self.field).passes(&edge.beyond),
            _ => false,
        };
        Edge { beyond_passes, ..edge }
    }

    /// Whether all blank passes: a conditional field, or one whose type may be blank and of which nothing more is asked (document 01).
    fn may_be_blank(&self) -> bool {
        !self.field.mandatory || (self.asked == Asked::TypeAlone && self.field.data_type != "N")
    }

    /// All blank, and blank in part. Where the type alone is asked and takes blanks, `characters` starts from all blank.
    fn blanks(&self) -> Vec<Edge> {
        if self.asked == Asked::TypeAlone && self.field.data_type != "N" {
            return Vec::new();
        }
        let Ruled { sound, blank, .. } = self;
        let last = sound.len() - 1;
        let mut edges = vec![match self.may_be_blank() {
            true => edge("all blank", blank, &with(blank, last, NO_CHARACTER)),
            false => edge("all blank", sound, blank),
        }];
        if last > 0 && self.asked != Asked::OneOrTwoDigits {
            // A routing number may have a blank at an end, in some forms.
            let in_value = |at| edge("a blank in a value", sound, &with(sound, at, b' '));
            edges.extend((0..=last).map(|at| match self.asked {
                Asked::Routing => self.passing(in_value(at)),
                _ => in_value(at),
            }));
            let lone = (0..=last).filter(|_| self.may_be_blank());
            edges.extend(lone.map(|at| edge("a lone character", blank, &with(blank, at, sound[at]))));
        }
        edges
    }

    /// Clauses 5.3.8 to 5.3.10: blanks fill a field up, but have no digit on both sides. A mark or a dash is no digit. Where a date or
    /// the like is asked, this shows behind a mark only, which leaves the type alone to judge.
    fn blanks_among_digits(&self) -> Vec<Edge> {
        let (rule, data_type) = ("a blank among digits", self.field.data_type);
        let (Some(marks), true) = (self.asked.marks_before_digits(data_type), no_blank_among_digits(data_type)) else {
            return Vec::new();
        };
        let last = self.sound.len() - 1;
        let digits = [&marks[..], &vec![b'1'; self.sound.len() - marks.len()]].concat();
        let mut edges = Vec::new();
        for at in marks.len() + 1..last {
            edges.push(edge(rule, &digits, &with(&digits, at, b' ')));
            let filled = [&digits[..at], &self.blank[at..]].concat();
            edges.push(edge(rule, &filled, &with(&filled, last, b'1')));
            for other in b"-?".iter().filter(|other| has(data_type, **other)) {
                let ended = [&filled[..=at], &vec![*other; last - at]].concat();
                edges.push(edge(rule, &ended, &with(&ended, last, b'1')));
            }
        }
        edges
    }

    /// What is asked beyond the data type.
    fn forms(&self) -> Vec<Edge> {
        match self.asked {
            Asked::TypeAlone | Asked::Digits => Vec::new(),
            Asked::Values => self.values(),
            Asked::Date => self.ranges("dates"),
            Asked::Time => self.ranges("times"),
            Asked::Routing => [self.check_digits(), self.listed_forms(), self.all_forms()].concat(),
            Asked::OneOrTwoDigits => one_or_two_digits(),
        }
    }

    /// Each end of each printed value or run of values, and the value past it.
    fn values(&self) -> Vec<Edge> {
        let values = &self.field.values;
        let ends = values.iter().flat_map(ends_of_values);
        let judged = |(inside, beyond): (Vec<u8>, Vec<u8>)| self.passing(edge("defined values", &inside, &beyond));
        ends.map(judged).collect()
    }

    /// Each end of each part of a date or a time, the others being sound.
    fn ranges(&self, rule: &'static str) -> Vec<Edge> {
        let (mut edges, mut start) = (Vec::new(), 0);
        for range in &self.field.ranges {
            let put = |part: Vec<u8>| [&self.sound[..start], &part, &self.sound[start + part.len()..]].concat();
            edges.extend(ends_of_values(range).into_iter().map(|(end, past)| edge(rule, &put(end), &put(past))));
            start += range.low.len();
        }
        edges
    }

    /// The ABA rule: no digit can be another one, unless the check digit changes with it, or the field lists the non-financial number too.
    fn check_digits(&self) -> Vec<Edge> {
        let others = |at: usize| (b'0'..=b'9').filter(move |digit| *digit != self.sound[at]);
        let changed = |at: usize, digit: u8| {
            let beyond = with(&self.sound, at, digit);
            let mended = with(&beyond, 8, check_digit(&beyond[..8]));
            self.passing(edge("check digits", &mended, &beyond))
        };
        (0..9).flat_map(|at| others(at).map(move |digit| changed(at, digit))).collect()
    }

    /// The forms that the field lists: at each place of each of their patterns a character of the two other sorts, digit, dash and blank.
    fn listed_forms(&self) -> Vec<Edge> {
        let mut edges = Vec::new();
        let taken = |contents: &[u8]| Taken::by(self.field).passes(contents);
        let examples = self.field.routing_forms().flat_map(routing::patterns_of).map(|pattern| example_of(&pattern));
        for inside in examples.map(|example| if taken(&example) { example } else { self.sound.clone() }) {
            for at in 0..routing::SIZE {
                let sort = |byte: u8| if byte.is_ascii_digit() { b'1' } else { byte };
                let others = b"1- ".iter().filter(|other| **other != sort(inside[at]));
                edges.extend(
                    others.map(|other| self.passing(edge("listed routing forms", &inside, &with(&inside, at, *other)))),
                );
            }
        }
        edges
    }

    /// Every pattern of every form, whether the field lists it or not.
    fn all_forms(&self) -> Vec<Edge> {
        let examples = routing::patterns().into_iter().map(|pattern| example_of(&pattern));
        examples.map(|example| self.passing(edge("every routing form", &self.sound, &example))).collect()
    }

    /// A mark that the data type has leaves the type alone to judge the field (document 01): in wrong contents and in blank ones. Any
    /// other mark is a stranger to the type.
    fn marks(&self) -> Vec<Edge> {
        let wrong = match self.asked {
            Asked::Routing => WRONG_ROUTING.to_vec(),
            _ => vec![b'9'; self.sound.len()],
        };
        let mut edges = Vec::new();
        for mark in marks_of(self.field.data_type).into_iter().filter(|_| self.asked.is_format()) {
            for at in 0..wrong.len() {
                edges.push(edge("marks", &with(&wrong, at, mark), &wrong));
                edges.push(edge("marks", &with(&self.blank, at, mark), &with(&self.blank, at, b'1')));
            }
        }
        edges
    }
}
