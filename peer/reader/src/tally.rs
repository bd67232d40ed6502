//! What the files of a run have covered, as the independent reader judged them.

use std::collections::BTreeMap;

use crate::books::{self, Slip};
use crate::charset::{Set, EBCDIC_CARRIED};
use crate::copy::copy;
use crate::credits::{self, CreditPoint};
use crate::descent::{split_record, Inside, Number, Reading, Row};
use crate::harm::{field_targets, insides, key_fields, lawful_pairs, place_targets, slip_targets, total_targets};
use crate::layout::{carried, layout, name_of, CARRIED, LAYOUTS, NOT_CARRIED};
use crate::routing::{self, Shape};
use crate::sets::{self, SetPoint};
use crate::tails::{self, TailPoint};

/// One thing that a run is to show.
#[derive(Clone, Copy, Debug, PartialEq, Eq, PartialOrd, Ord)]
pub enum Point {
    Answer(Number),
    FieldRefused(u8, u8),
    /// Contents of this shape in a routing field of an accepted file.
    RoutingAccepted(u8, u8, Shape),
    /// FIELD at a routing field whose contents have this shape.
    RoutingRefused(u8, u8, Shape),
    /// LINK at a 52 whose routing number has this shape and is not the bundle header's.
    RoutingUnlike(Shape),
    /// Two types one after the other, and what the first belongs to.
    PairAccepted(Inside, u8, u8),
    PairRefused(Inside, u8, u8),
    /// LINK at a field of a type; for a 50 or 52 what it belongs to, otherwise what the record before it belongs to.
    LinkRefused(u8, u8, &'static str, Inside),
    TotalRefused(u8, u8),
    /// TOTAL at a control field whose number can have come about so.
    Slipped(u8, u8, Slip),
    /// What an accepted file shows of 61s, or a refused one of their views (request 2).
    Credit(CreditPoint),
    /// What the two character sets bring about (request 5).
    Sets(SetPoint),
    /// What the rest of a file can change, and what it cannot (request 7).
    Tail(TailPoint),
    LengthRefused(u8, &'static str),
    BelowTwo,
    CutIn(&'static str),
    OpenAfter(u8),
    TypeRefused(u8),
    Room,
    PictureAnswer(Number),
    PictureFieldRefused(u8),
}

/// How often each point was met, in ASCII files and in EBCDIC ones.
#[derive(Clone, Debug, Default)]
pub struct Tally {
    pub met: BTreeMap<Point, u64>,
    pub in_ebcdic: BTreeMap<Point, u64>,
}

impl Tally {
    pub fn note(&mut self, point: Point) {
        self.note_in(Set::Ascii, point);
    }

    pub fn note_in(&mut self, set: Set, point: Point) {
        *self.of(set).entry(point).or_insert(0) += 1;
    }

    fn of(&mut self, set: Set) -> &mut BTreeMap<Point, u64> {
        match set {
            Set::Ascii => &mut self.met,
            Set::Ebcdic => &mut self.in_ebcdic,
        }
    }

    pub fn add(&mut self, other: &Tally) {
        add(&mut self.met, &other.met);
        add(&mut self.in_ebcdic, &other.in_ebcdic);
    }

    /// Notes what one file shows, as the proved library is to read it. An EBCDIC file shows what its copy shows.
    pub fn note_reading(&mut self, file: &[u8], reading: &Reading) {
        match Set::by_library(file) {
            Set::Ascii => self.note_ascii(file, reading),
            Set::Ebcdic => {
                let mut shown = Tally::default();
                shown.note_ascii(&copy(file), reading);
                add(&mut self.in_ebcdic, &shown.met);
            }
        }
        if EBCDIC_CARRIED {
            sets::shown(file, reading).into_iter().for_each(|point| self.note(Point::Sets(point)));
        }
    }

    fn note_ascii(&mut self, file: &[u8], reading: &Reading) {
        let answer = &reading.answer;
        let field = answer.field as u8;
        self.note(Point::Answer(answer.number));
        match answer.number {
            Number::Accepted => {
                self.note_pairs(reading);
                reading.rows.iter().for_each(|row| self.note_routings(file, row));
                credits::shown(file, &reading.rows).into_iter().for_each(|point| self.note(Point::Credit(point)));
            }
            Number::Place => {
                if let Some(code) = code_at(file, answer.offset) {
                    self.note(Point::PairRefused(reading.inside, reading.last, code));
                }
            }
            Number::Field => {
                self.note_typed(file, answer.offset, |code| Point::FieldRefused(code, field));
                self.note_routing(file, answer.offset, field, Point::RoutingRefused);
            }
            Number::Link => {
                self.note_typed(file, answer.offset, |code| {
                    Point::LinkRefused(code, field, reading.why, reading.inside)
                });
                self.note_routing(file, answer.offset, field, |_, _, shape| Point::RoutingUnlike(shape));
                let unlike = credits::unlike(&bodies(file, answer.record), field, reading.inside);
                unlike.into_iter().for_each(|point| self.note(Point::Credit(point)));
            }
            Number::Total => {
                self.note_typed(file, answer.offset, |code| Point::TotalRefused(code, field));
                self.note_slips(file, answer.record, field);
            }
            Number::Length if reading.why == "below two" => self.note(Point::BelowTwo),
            Number::Length => self.note_typed(file, answer.offset, |code| Point::LengthRefused(code, reading.why)),
            Number::Cut => self.note(Point::CutIn(reading.why)),
            Number::Open => self.note(Point::OpenAfter(reading.last)),
            Number::Type => self.note_typed(file, answer.offset, Point::TypeRefused),
            Number::Size | Number::Room | Number::After => {}
        }
    }

    fn note_typed(&mut self, file: &[u8], offset: u64, point: impl Fn(u8) -> Point) {
        if let Some(code) = code_at(file, offset) {
            self.note(point(code));
        }
    }

    /// The shapes of all routing fields of a sound record.
    fn note_routings(&mut self, file: &[u8], row: &Row) {
        let fields = layout(row[0] as u8).fields.iter();
        for field in fields.filter(|field| routing::forms(field).is_some()) {
            self.note_routing(file, row[1], field.number, Point::RoutingAccepted);
        }
    }

    /// The shape of this field, if it is a routing field, in a record at least as long as its fixed part.
    fn note_routing(&mut self, file: &[u8], offset: u64, number: u8, point: impl Fn(u8, u8, Shape) -> Point) {
        let body = &file[offset as usize + 4..];
        let code = carried(&body[..2]).expect("a type that was read");
        let field = layout(code).fields.iter().find(|field| field.number == number && routing::forms(field).is_some());
        if let Some(shape) = field.and_then(|field| routing::shape(field.of(body))) {
            self.note(point(code, number, shape));
        }
    }

    fn note_pairs(&mut self, reading: &Reading) {
        let codes = || reading.rows.iter().map(|row| row[0] as u8);
        let (mut inside, mut last) = (Inside::File, 0);
        for (next, inside_of_next) in codes().zip(insides(codes())) {
            self.note(Point::PairAccepted(inside, last, next));
            (inside, last) = (inside_of_next, next);
        }
    }

    /// How the wrong number of a control record can have come about.
    fn note_slips(&mut self, file: &[u8], record: u64, field: u8) {
        let bodies = bodies(file, record);
        let at = bodies.len() - 1;
        let code = books::code_of(bodies[at]);
        let digits = layout(code).field(field).of(bodies[at]);
        for slip in books::slips(&bodies, at, field, digits) {
            self.note(Point::Slipped(code, field, slip));
        }
    }

    /// The points of a whole run that were not met, and in files of which set.
    pub fn missing(&self) -> Vec<(Set, Point)> {
        let in_ascii = demanded().into_iter().filter(|point| !self.met.contains_key(point));
        let in_ebcdic = demanded_in_ebcdic().into_iter().filter(|point| !self.in_ebcdic.contains_key(point));
        in_ascii.map(|point| (Set::Ascii, point)).chain(in_ebcdic.map(|point| (Set::Ebcdic, point))).collect()
    }

    /// A line for each group: met of demanded.
    pub fn report(&self) -> String {
        report_of("", &demanded(), &self.met) + &report_of("EBCDIC, ", &demanded_in_ebcdic(), &self.in_ebcdic)
    }
}

fn add(to: &mut BTreeMap<Point, u64>, counts: &BTreeMap<Point, u64>) {
    for (point, count) in counts {
        *to.entry(*point).or_insert(0) += count;
    }
}

fn report_of(of_set: &str, demanded: &[Point], met: &BTreeMap<Point, u64>) -> String {
    let mut groups: BTreeMap<&'static str, (usize, usize, u64)> = BTreeMap::new();
    for point in demanded {
        let group = groups.entry(group_of(point)).or_insert((0, 0, u64::MAX));
        let count = met.get(point).copied().unwrap_or(0);
        group.0 += usize::from(count > 0);
        group.1 += 1;
        group.2 = group.2.min(count);
    }
    let lines = groups
        .iter()
        .map(|(name, (met, of, least))| format!("  {of_set}{name}: {met} of {of}, the rarest met {least} times\n"));
    lines.collect()
}

/// The type that the record at this offset names by two digits.
fn code_at(file: &[u8], offset: u64) -> Option<u8> {
    let at = offset as usize + 4;
    let name = file.get(at..at + 2)?;
    (0..100).find(|code| name_of(*code) == name)
}

/// The first records of a file, as its lengths lead to them.
fn bodies(file: &[u8], count: u64) -> Vec<&[u8]> {
    let mut left = file;
    let mut next = || {
        let body = split_record(left)?;
        left = &left[4 + body.len()..];
        Some(body)
    };
    (0..count).map_while(|_| next()).collect()
}

/// The LINK points of document 01 and request 2.
fn link_points() -> Vec<Point> {
    use Inside::{CreditInBundle, CreditInLetter, Item, Letter};
    let mut points = Vec::new();
    let mut link = |code, field, why, inside| points.push(Point::LinkRefused(code, field, why, inside));
    for code in [26, 28, 32, 35] {
        link(code, 2, "record number", Item);
    }
    link(26, 2, "tenth of one digit", Item);
    link(32, 2, "tenth of one digit", Item);
    for code in [26, 27, 28, 32, 33, 34, 35] {
        link(code, 1, "addendum beyond the count", Item);
    }
    for code in [25, 31, 50, 61, 70] {
        link(code, 1, "addenda owed", Item);
    }
    let key = [(2, "routing number"), (3, "business date"), (4, "cycle number"), (5, "sequence number")];
    for inside in [Item, CreditInBundle, CreditInLetter] {
        let compared = key.into_iter().filter(|(field, _)| key_fields(inside).contains(field));
        for (field, why) in compared.chain([(7, "authenticator name"), (8, "key name")]) {
            link(52, field, why, inside);
        }
        link(50, 1, "view under E", inside);
    }
    for inside in [Letter, CreditInLetter] {
        link(20, 1, "bundle under N", inside);
        for why in ["no bundle under E", "no bundle under I", "no bundle under F"] {
            link(90, 1, why, inside);
        }
    }
    for code in [25, 31, 61, 70] {
        link(code, 1, "no view under I", Item);
        link(code, 1, "no view under F", Item);
    }
    points
}

/// Wrong numbers of control records that wrong readers would take for right.
fn slip_points() -> Vec<Point> {
    let counted = slip_targets().into_iter().map(|(code, field, way)| Point::Slipped(code, field, Slip::Counted(way)));
    let cents = [(70, 3), (70, 7), (90, 4), (90, 9), (99, 5), (99, 8)];
    let long = cents
        .into_iter()
        .flat_map(|(code, field)| [Slip::CutToField, Slip::AllNines].map(|slip| Point::Slipped(code, field, slip)));
    // A bundle has at most 9,999 debits and as many credits, and their sums do not reach 64 bits.
    let wrapped = [(90, 4), (90, 9), (99, 5), (99, 8)];
    counted.chain(long).chain(wrapped.map(|(code, field)| Point::Slipped(code, field, Slip::Wrapped))).collect()
}

/// Request 1: in each routing field each shape of contents, accepted or refused as it is to be; and 52s whose routing number, in
/// each shape that passes there, is not the bundle header's.
fn routing_points() -> Vec<Point> {
    let mut points = Vec::new();
    for (code, field) in routing::fields() {
        points.extend(routing::SHAPES.map(|shape| match routing::passes(field, shape) {
            true => Point::RoutingAccepted(code, field.number, shape),
            false => Point::RoutingRefused(code, field.number, shape),
        }));
    }
    let in_52 = routing::SHAPES.into_iter().filter(|shape| routing::passes(layout(52).field(2), *shape));
    points.extend(in_52.map(Point::RoutingUnlike));
    points
}

/// Everything that a run of 100,000 files is to show, once EBCDIC is carried with what two sets bring about.
pub fn demanded() -> Vec<Point> {
    let of_sets = if EBCDIC_CARRIED { sets::demanded() } else { Vec::new() };
    in_either_set().into_iter().chain(of_sets.into_iter().map(Point::Sets)).collect()
}

/// What its files in EBCDIC are to show, once it is carried.
pub fn demanded_in_ebcdic() -> Vec<Point> {
    if EBCDIC_CARRIED {
        in_either_set().into_iter().filter(can_be_in_ebcdic).collect()
    } else {
        Vec::new()
    }
}

/// A file is told as EBCDIC by a first record of type 01, so that no other type stands there out of place; and an empty file is ASCII.
fn can_be_in_ebcdic(point: &Point) -> bool {
    let not_first = matches!(point, Point::PairRefused(_, 0, _));
    let size = matches!(point, Point::Answer(Number::Size) | Point::PictureAnswer(Number::Size));
    !not_first && !size
}

fn in_either_set() -> Vec<Point> {
    use Number::{Accepted, After, Cut, Field, Length, Link, Open, Place, Size, Total, Type};
    let numbers = [Accepted, Size, Cut, Length, Type, Place, Field, Link, Total, Open, After];
    let mut points: Vec<Point> = numbers.into_iter().map(Point::Answer).collect();
    points.push(Point::Room);
    points.extend(field_targets().into_iter().map(|(code, field)| Point::FieldRefused(code, field)));
    points.extend(routing_points());
    points.extend(lawful_pairs().into_iter().map(|(inside, last, next)| Point::PairAccepted(inside, last, next)));
    points.extend(place_targets().into_iter().map(|(inside, last, next)| Point::PairRefused(inside, last, next)));
    points.extend(link_points());
    points.extend(total_targets().into_iter().map(|(code, field)| Point::TotalRefused(code, field)));
    points.extend(slip_points());
    points.extend(credits::demanded().into_iter().map(Point::Credit));
    for layout in &LAYOUTS {
        points.push(Point::LengthRefused(layout.code, "shorter than the fixed part"));
        let long = if layout.parts.is_empty() { "fixed record too long" } else { "stated parts" };
        points.push(Point::LengthRefused(layout.code, long));
    }
    points.push(Point::BelowTwo);
    points.push(Point::CutIn("cut in the length"));
    points.push(Point::CutIn("cut in the record"));
    points.extend(CARRIED.into_iter().filter(|code| *code != 99).map(Point::OpenAfter));
    points.extend(NOT_CARRIED.map(Point::TypeRefused));
    points.extend([Accepted, Size, Cut, Length, Type, Field].map(Point::PictureAnswer));
    let of_52 = field_targets().into_iter().filter(|(code, _)| *code == 52);
    points.extend(of_52.map(|(_, field)| Point::PictureFieldRefused(field)));
    points.extend(tails::demanded().into_iter().map(Point::Tail));
    points
}

fn group_of(point: &Point) -> &'static str {
    match point {
        Point::Answer(_) => "answers given",
        Point::FieldRefused(..) => "fields refused at FIELD",
        Point::RoutingAccepted(..) => "routing fields and shapes accepted",
        Point::RoutingRefused(..) => "routing fields and shapes refused",
        Point::RoutingUnlike(_) => "shapes of a routing number refused at LINK",
        Point::PairAccepted(..) => "lawful pairs accepted",
        Point::PairRefused(..) => "pairs refused at PLACE",
        Point::LinkRefused(..) => "LINK rules refused",
        Point::TotalRefused(..) => "control fields refused at TOTAL",
        Point::Slipped(..) => "control fields and slips refused at TOTAL",
        Point::Credit(point) => point.group(),
        Point::Sets(point) => point.group(),
        Point::Tail(point) => point.group(),
        Point::LengthRefused(..) => "types refused at LENGTH",
        Point::BelowTwo => "lengths below two",
        Point::CutIn(_) => "sorts of CUT",
        Point::OpenAfter(_) => "types after which OPEN",
        Point::TypeRefused(_) => "types not carried refused",
        Point::Room => "tables too short",
        Point::PictureAnswer(_) => "picture answers given",
        Point::PictureFieldRefused(_) => "picture fields refused",
    }
}

#[cfg(test)]
mod tests {
    use super::*;
    use crate::descent::read;
    use crate::stream;

    fn over(files: u64) -> Tally {
        let mut tally = Tally::default();
        for index in 0..files {
            let made = stream::file(18, index).bytes;
            tally.note_reading(&made, &read(&made));
        }
        tally
    }

    /// A tenth of a whole run, and what it says of routing numbers: nothing is accepted that is to be refused, nor the other way.
    #[test]
    fn routing_points_are_met_and_no_others() {
        let tally = over(10_000);
        let demanded = routing_points();
        assert_eq!(demanded.len(), 68 + 188 + 5);
        let of_routing = |point: &&Point| group_of(point).contains("routing");
        for point in tally.met.keys().filter(of_routing) {
            assert!(demanded.contains(point), "{point:?}");
        }
        let missing: Vec<&Point> = demanded.iter().filter(|point| !tally.met.contains_key(point)).collect();
        assert!(missing.is_empty(), "{missing:?}");
    }
}
