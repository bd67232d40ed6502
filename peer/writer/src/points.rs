//! What the drafts of a run have covered, as the independent writer judged them, in texts of either set.

use std::collections::BTreeMap;

use peer_reader::charset::Set;
use peer_reader::descent::{Inside, Number, LARGEST};
use peer_reader::harm::{insides, key_fields, lawful_pairs, place_targets};
use peer_reader::layout::{layout, CARRIED, LAYOUTS, NOT_CARRIED};

use crate::draft::{Draft, Row, ROW};
use crate::outgrow::{given_targets, length_targets, outside_targets, ENDS};
use crate::sheet::Made;
use crate::source::{source, Source};
use crate::write::{set_out_for_tally, Verdict};

/// One thing that a run is to show.
#[derive(Clone, Copy, Debug, PartialEq, Eq, PartialOrd, Ord)]
pub enum Point {
    Answer(Number),
    /// FIELD at a given field or part that breaks its rule.
    FieldRefused(u8, u8),
    /// FIELD at a given field or part whose characters do not all lie in the text: none of them, or some.
    Outside(u8, u8, Share),
    /// FIELD at a length whose part outgrows it, or at an addendum count.
    Outgrown(u8, u8, Reach),
    /// A length or an addendum count that is as large as its field can state.
    Filled(u8, u8),
    /// Two types one after the other, and what the first belongs to.
    PairWritten(Inside, u8, u8),
    PairRefused(Inside, u8, u8),
    /// Rows that end after this type, 0 for none at all.
    EndAfter(u8),
    /// PLACE at a number that is no carried type.
    NotCarried(Strange),
    /// PLACE at a carried type behind the 99, or at another (none).
    Behind(Option<u8>),
    LinkRefused(u8, u8, &'static str, Inside),
    /// TOTAL at a control field whose sum is too long.
    TooLong(u8, u8, Sum),
    /// A control field whose sum has all its digits, all nine.
    AllNines(u8, u8),
    /// A buffer of this length, and whether the file was written.
    Buffer(Buffer, bool),
    Flag(Flag),
    /// A worked-out field of a written draft whose place in the text holds something else.
    Junk(u8, u8),
    /// The same whose place lies outside the text, at least in part.
    PlaceOutside(u8, u8),
    /// A start, or a size, so near 2^64 that a sum of 64 bits would wrap, at a record of this type.
    NearStart(u8),
    NearSize(u8, u8),
    /// An edge of the draft as it is lent.
    Lent(Lent),
    /// A refusal at a record that would begin past the limit: it comes before SIZE.
    PastLimit(Number),
}

#[derive(Clone, Copy, Debug, PartialEq, Eq, PartialOrd, Ord)]
pub enum Share {
    None,
    Some,
}

/// How far something outgrows its field.
#[derive(Clone, Copy, Debug, PartialEq, Eq, PartialOrd, Ord)]
pub enum Reach {
    ByOne,
    ByFar,
}

#[derive(Clone, Copy, Debug, PartialEq, Eq, PartialOrd, Ord)]
pub enum Strange {
    /// A type of the standard that is not carried.
    Known(u8),
    Zero,
    /// Another number below a hundred.
    Small,
    /// A hundred or more, and its low 8, 16 or 32 bits are no carried type.
    Large,
    /// Its low bits, so many, are a carried type.
    LowBits(u8),
}

#[derive(Clone, Copy, Debug, PartialEq, Eq, PartialOrd, Ord)]
pub enum Sum {
    Within64Bits,
    Past64Bits,
}

#[derive(Clone, Copy, Debug, PartialEq, Eq, PartialOrd, Ord)]
pub enum Buffer {
    Empty,
    Short,
    OneShort,
    Exact,
    OneMore,
    Larger,
}

#[derive(Clone, Copy, Debug, PartialEq, Eq, PartialOrd, Ord)]
pub enum Flag {
    /// 1 at a 70: a blank total, whatever the text holds.
    Blank,
    /// 0 at a 70, and a number that is neither.
    Stated,
    AsksForNothing,
    /// 1 at another record.
    NotLookedAt,
}

#[derive(Clone, Copy, Debug, PartialEq, Eq, PartialOrd, Ord)]
pub enum Lent {
    NumbersBehind,
    NoRow,
    NoNumber,
    NoText,
    SharedStart,
    StartsFalling,
}

/// How often each point was met, in ASCII texts and in EBCDIC ones.
#[derive(Clone, Debug, Default)]
pub struct Tally {
    met: [BTreeMap<Point, u64>; 2],
}

impl Tally {
    fn note(&mut self, set: Set, point: Point) {
        *self.met[set as usize].entry(point).or_insert(0) += 1;
    }

    pub fn add(&mut self, other: &Tally) {
        for (met, more) in self.met.iter_mut().zip(&other.met) {
            more.iter().for_each(|(point, count)| *met.entry(*point).or_insert(0) += count);
        }
    }

    /// Notes what one draft shows.
    pub fn note_draft(&mut self, made: &Made, verdict: &Verdict) {
        let draft = Draft::new(&made.text, &made.numbers);
        let mut points = vec![Point::Answer(verdict.answer.number)];
        points.extend(lent(made).into_iter().map(Point::Lent));
        match verdict.answer.number {
            Number::Accepted => points.extend(written(&draft)),
            Number::Size => {}
            number => {
                points.extend(refused(&draft, verdict));
                points.extend((verdict.answer.offset > LARGEST).then_some(Point::PastLimit(number)));
            }
        }
        points.into_iter().for_each(|point| self.note(draft.set, point));
    }

    /// Notes the answer with a buffer of this length.
    pub fn note_buffer(&mut self, made: &Made, verdict: &Verdict, room: usize) {
        if verdict.answer.number != Number::Accepted {
            return;
        }
        let needed = verdict.answer.offset as usize;
        let buffer = match room {
            0 => Buffer::Empty,
            room if room == needed => Buffer::Exact,
            room if room + 1 == needed => Buffer::OneShort,
            room if room == needed + 1 => Buffer::OneMore,
            room if room < needed => Buffer::Short,
            _ => Buffer::Larger,
        };
        let set = Draft::new(&made.text, &made.numbers).set;
        self.note(set, Point::Answer(verdict.with_room(room).number));
        self.note(set, Point::Buffer(buffer, room >= needed));
    }

    /// The points of a whole run that were not met.
    pub fn missing(&self) -> Vec<(Set, Point)> {
        let of_set = |set: Set| demanded(set).into_iter().map(move |point| (set, point));
        let all = of_set(Set::Ascii).chain(of_set(Set::Ebcdic));
        all.filter(|(set, point)| !self.met[*set as usize].contains_key(point)).collect()
    }

    /// A line for each group and set: met of demanded.
    pub fn report(&self) -> String {
        let mut lines = String::new();
        for set in [Set::Ascii, Set::Ebcdic] {
            let mut groups: BTreeMap<&'static str, (usize, usize, u64)> = BTreeMap::new();
            for point in demanded(set) {
                let count = self.met[set as usize].get(&point).copied().unwrap_or(0);
                let group = groups.entry(group_of(&point)).or_insert((0, 0, u64::MAX));
                *group = (group.0 + usize::from(count > 0), group.1 + 1, group.2.min(count));
            }
            for (name, (met, of, least)) in groups {
                lines += &format!("  {set:?}, {name}: {met} of {of}, the rarest met {least} times\n");
            }
        }
        lines
    }
}

/// What a refusal shows.
fn refused(draft: &Draft, verdict: &Verdict) -> Vec<Point> {
    let index = verdict.answer.record as usize - 1;
    let field = verdict.answer.field as u8;
    let before: Vec<u8> = (0..index).map(|index| draft.type_of(index) as u8).collect();
    let last = before.last().copied().unwrap_or(0);
    let inside = insides(before).last().copied().unwrap_or(Inside::File);
    if index == draft.rows() {
        return vec![Point::EndAfter(last)];
    }
    let named = draft.type_of(index);
    let Some(code) = CARRIED.into_iter().find(|code| u64::from(*code) == named) else {
        let behind = (last == 99).then_some(Point::Behind(None));
        return behind.into_iter().chain([Point::NotCarried(strange(named))]).collect();
    };
    let row = draft.row(index, code);
    match verdict.answer.number {
        Number::Place if last == 99 => vec![Point::Behind(Some(code))],
        Number::Place => vec![Point::PairRefused(inside, last, code)],
        Number::Field => field_refused(draft, index, &row, field, verdict.why),
        Number::Link => vec![Point::LinkRefused(code, field, verdict.why, inside)],
        _ => vec![Point::TooLong(code, field, sum_at(draft, index, field))],
    }
}

fn strange(named: u64) -> Strange {
    let is_carried = |number: u64| CARRIED.into_iter().any(|code| u64::from(code) == number);
    let low = |bits: u32| is_carried(named & ((1 << bits) - 1));
    match named {
        0 => Strange::Zero,
        1..100 if NOT_CARRIED.contains(&(named as u8)) => Strange::Known(named as u8),
        1..100 => Strange::Small,
        _ if low(32) => Strange::LowBits(32),
        _ if low(16) => Strange::LowBits(16),
        _ if low(8) => Strange::LowBits(8),
        _ => Strange::Large,
    }
}

fn field_refused(draft: &Draft, index: usize, row: &Row, field: u8, why: &'static str) -> Vec<Point> {
    let code = row.layout.code;
    match why {
        "outgrown" => {
            let (size, number) = (row.layout.field(field).size(), worked_out(draft, index, row, field));
            let reach = if number == 10u64.pow(size as u32) { Reach::ByOne } else { Reach::ByFar };
            let near = (number > u64::MAX - 200).then_some(Point::NearSize(code, field));
            near.into_iter().chain([Point::Outgrown(code, field, reach)]).collect()
        }
        "outside the text" => {
            let near = row.starts_near_the_end_of_64_bits().then_some(Point::NearStart(code));
            let share = if row.begins_in_text(field) { Share::Some } else { Share::None };
            near.into_iter().chain([Point::Outside(code, field, share)]).collect()
        }
        _ => vec![Point::FieldRefused(code, field)],
    }
}

/// The number of a length or addendum count.
fn worked_out(draft: &Draft, index: usize, row: &Row, field: u8) -> u64 {
    match source(row.layout, field) {
        Source::PartLength(place) => row.size(place),
        _ => draft.addenda_behind(index),
    }
}

/// Whether the cents of the level that ends here pass 64 bits; other sums do not.
fn sum_at(draft: &Draft, index: usize, field: u8) -> Sum {
    let control = draft.type_of(index);
    let header = match control {
        70 => 20,
        90 => 10,
        _ => 1,
    };
    let credit = matches!((control, field), (70, 7) | (90, 9) | (99, 8));
    let mut cents = 0u128;
    for index in (0..index).rev().take_while(|index| draft.type_of(*index) != header) {
        let code = draft.type_of(index) as u8;
        let row = || draft.row(index, code);
        cents += match code {
            25 | 31 if !credit => u128::from(peer_reader::judge::number_in(row().characters(6))),
            61 if row().characters(2).is(b"9") != credit => {
                u128::from(peer_reader::judge::number_in(row().characters(7)))
            }
            _ => 0,
        };
    }
    let amount = matches!((control, field), (70, 3 | 7) | (90, 4 | 9) | (99, 5 | 8));
    if amount && cents >> 64 > 0 {
        Sum::Past64Bits
    } else {
        Sum::Within64Bits
    }
}

/// What a written draft shows.
fn written(draft: &Draft) -> Vec<Point> {
    let codes = || (0..draft.rows()).map(|index| draft.type_of(index) as u8);
    let mut points = Vec::new();
    let (mut inside, mut last) = (Inside::File, 0);
    for (next, inside_of_next) in codes().zip(insides(codes())) {
        points.push(Point::PairWritten(inside, last, next));
        (inside, last) = (inside_of_next, next);
    }
    set_out_for_tally(draft, |row, body| {
        points.extend(flag(row, body).map(Point::Flag));
        for field in row.layout.fields {
            let code = row.layout.code;
            if let Some(point) = place_shown(draft, row, field.number, field.of(body)) {
                points.push(point);
            }
            let all_nines = field.of(body).iter().all(|digit| *digit == b'9');
            match source(row.layout, field.number) {
                Source::PartLength(_) | Source::AddendumCount if all_nines => {
                    points.push(Point::Filled(code, field.number));
                }
                Source::Sum(_) if all_nines => points.push(Point::AllNines(code, field.number)),
                _ => {}
            }
        }
    });
    points
}

/// What a worked-out field's place in the text shows: something else than what is written, or nothing.
fn place_shown(draft: &Draft, row: &Row, number: u8, stated: &[u8]) -> Option<Point> {
    let code = row.layout.code;
    if source(row.layout, number) == Source::Given {
        return None;
    }
    match row.field(row.layout.field(number)) {
        None => Some(Point::PlaceOutside(code, number)),
        Some(bytes) if bytes.iter().map(|byte| draft.set.character(*byte)).eq(stated.iter().copied()) => None,
        Some(_) => Some(Point::Junk(code, number)),
    }
}

fn flag(row: &Row, body: &[u8]) -> Option<Flag> {
    let blank = |body: &[u8]| layout(70).field(4).of(body).iter().all(|byte| *byte == b' ');
    match (row.layout.code, row.flag()) {
        (70, 1) if blank(body) => Some(Flag::Blank),
        (70, 0) => Some(Flag::Stated),
        (70, _) => Some(Flag::AsksForNothing),
        (_, 1) => Some(Flag::NotLookedAt),
        _ => None,
    }
}

fn lent(made: &Made) -> Vec<Lent> {
    let starts: Vec<u64> = made.numbers.chunks_exact(ROW).map(|row| row[1]).collect();
    let behind = !made.numbers.len().is_multiple_of(ROW) && made.numbers.len() > ROW;
    let shown = [
        (Lent::NumbersBehind, behind),
        (Lent::NoRow, (1..ROW).contains(&made.numbers.len())),
        (Lent::NoNumber, made.numbers.is_empty()),
        (Lent::NoText, made.text.is_empty()),
        (Lent::SharedStart, starts.windows(2).any(|pair| pair[0] == pair[1])),
        (Lent::StartsFalling, starts.windows(2).any(|pair| pair[0] > pair[1])),
    ];
    shown.into_iter().filter(|(_, met)| *met).map(|(lent, _)| lent).collect()
}

/// The LINK points that are left to a writer: counts and record numbers are its own.
fn link_points() -> Vec<Point> {
    use Inside::{CreditInBundle, CreditInLetter, Item, Letter};
    let mut points = Vec::new();
    let mut link = |code, field, why, inside| points.push(Point::LinkRefused(code, field, why, inside));
    for code in [26, 32] {
        link(code, 2, "record number too long", Item);
    }
    let key = [(2, "routing number"), (3, "business date"), (4, "cycle number"), (5, "sequence number")];
    for inside in [Item, CreditInBundle, CreditInLetter] {
        let compared = key.into_iter().filter(|(field, _)| key_fields(inside).contains(field));
        for (field, why) in compared.chain([(7, "authenticator name"), (8, "key name")]) {
            link(52, field, why, inside);
        }
        link(50, 1, "view under E", inside);
    }
    for inside in [Letter, CreditInLetter] {
        link(20, 1, "bundle under N", inside);
        for why in ["no bundle under E", "no bundle under I", "no bundle under F"] {
            link(90, 1, why, inside);
        }
    }
    for code in [25, 31, 61, 70] {
        link(code, 1, "no view under I", Item);
        link(code, 1, "no view under F", Item);
    }
    points
}

/// Values, lengths and counts refused at FIELD.
fn field_points() -> Vec<Point> {
    let mut points: Vec<Point> =
        given_targets().into_iter().map(|(code, field)| Point::FieldRefused(code, field)).collect();
    for (code, field) in outside_targets() {
        points.push(Point::Outside(code, field, Share::None));
        if !one_character(code, field) {
            points.push(Point::Outside(code, field, Share::Some));
        }
    }
    for (code, field) in length_targets().into_iter().chain([(25, 12), (31, 8)]) {
        points.extend([Reach::ByOne, Reach::ByFar].map(|reach| Point::Outgrown(code, field, reach)));
    }
    // An image of 9,999,999 bytes stands in the large drafts, which are refused or not written.
    let filled = length_targets().into_iter().filter(|target| *target != (52, 20));
    points.extend(filled.chain([(25, 12), (31, 8)]).map(|(code, field)| Point::Filled(code, field)));
    points.extend(length_targets().into_iter().map(|(code, field)| Point::NearSize(code, field)));
    points.extend(CARRIED.map(Point::NearStart));
    points
}

fn one_character(code: u8, number: u8) -> bool {
    layout(code).fields.iter().any(|field| field.number == number && field.size() == 1)
}

fn place_points() -> Vec<Point> {
    let mut points: Vec<Point> =
        lawful_pairs().into_iter().map(|(i, last, next)| Point::PairWritten(i, last, next)).collect();
    points.extend(place_targets().into_iter().map(|(inside, last, next)| Point::PairRefused(inside, last, next)));
    points.extend(CARRIED.into_iter().filter(|code| *code != 99).map(Point::EndAfter));
    points.extend(CARRIED.map(|code| Point::Behind(Some(code))));
    points.push(Point::Behind(None));
    let bits = [8, 16, 32].map(Strange::LowBits);
    let strange = NOT_CARRIED.map(Strange::Known).into_iter().chain([Strange::Zero, Strange::Small, Strange::Large]);
    points.extend(strange.chain(bits).map(Point::NotCarried));
    points
}

/// Sums too long. 70.4 is never the lowest field that is: its sum is at most that of 70.3. 90.3, 90.5, 90.8, 99.3 and 99.4 would take a
/// hundred million records, and 90.2 and 99.2 a million: those are tried in heavy runs alone.
fn sum_points() -> Vec<Point> {
    let short = [(70, 2), (70, 3), (70, 5), (70, 6), (70, 7), (90, 4), (90, 9), (99, 5), (99, 8)];
    let mut points: Vec<Point> = short.map(|(code, field)| Point::TooLong(code, field, Sum::Within64Bits)).to_vec();
    points.extend([(90, 4), (90, 9)].map(|(code, field)| Point::TooLong(code, field, Sum::Past64Bits)));
    let brim = [(70, 3), (70, 7), (90, 4), (90, 9), (99, 5), (99, 8)];
    points.extend(brim.map(|(code, field)| Point::AllNines(code, field)));
    points
}

/// What is shown of the buffer, the flags, the worked-out places and the slices.
fn lent_points() -> Vec<Point> {
    let mut points: Vec<Point> =
        [Buffer::Empty, Buffer::Short, Buffer::OneShort].map(|b| Point::Buffer(b, false)).to_vec();
    points.extend([Buffer::Exact, Buffer::OneMore, Buffer::Larger].map(|buffer| Point::Buffer(buffer, true)));
    points.extend([Flag::Blank, Flag::Stated, Flag::AsksForNothing, Flag::NotLookedAt].map(Point::Flag));
    for layout in &LAYOUTS {
        let worked_out = layout.fields.iter().filter(|field| source(layout, field.number) != Source::Given);
        points.extend(worked_out.map(|field| Point::Junk(layout.code, field.number)));
    }
    points.extend(ENDS.map(|(code, field)| Point::PlaceOutside(code, field)));
    let edges =
        [Lent::NumbersBehind, Lent::NoRow, Lent::NoNumber, Lent::NoText, Lent::SharedStart, Lent::StartsFalling];
    points.extend(edges.map(Point::Lent));
    points
}

/// Everything that a run of 50,000 drafts is to show of texts in this set.
pub fn demanded(set: Set) -> Vec<Point> {
    use Number::{Accepted, Field, Link, Place, Room, Size, Total};
    let mut points: Vec<Point> = [Accepted, Field, Link, Place, Room, Size, Total].map(Point::Answer).to_vec();
    points.extend(field_points());
    points.extend(place_points());
    points.extend(link_points());
    points.extend(sum_points());
    points.extend(lent_points());
    points.push(Point::EndAfter(0));
    points.extend([Place, Field, Link, Total].map(Point::PastLimit));
    points.into_iter().filter(|point| set == Set::Ascii || can_be_in_ebcdic(point)).collect()
}

/// EBCDIC is told by the first row's own place: it is there, in the text, and holds what an 01's type is. The large drafts are in ASCII.
fn can_be_in_ebcdic(point: &Point) -> bool {
    let untold = matches!(
        point,
        Point::EndAfter(0)
            | Point::Lent(Lent::NoRow | Lent::NoNumber | Lent::NoText)
            | Point::Junk(1, 1)
            | Point::NearStart(1)
    );
    let large = matches!(
        point,
        Point::Answer(Number::Size)
            | Point::PastLimit(_)
            | Point::TooLong(70, 2 | 5 | 6, _)
            | Point::TooLong(_, _, Sum::Past64Bits)
    );
    !untold && !large
}

fn group_of(point: &Point) -> &'static str {
    match point {
        Point::Answer(_) => "answers given",
        Point::FieldRefused(..) => "values refused at FIELD",
        Point::Outside(..) => "values outside the text",
        Point::Outgrown(..) => "lengths and counts outgrown",
        Point::Filled(..) => "lengths and counts filled",
        Point::PairWritten(..) => "lawful pairs written",
        Point::PairRefused(..) => "pairs refused at PLACE",
        Point::EndAfter(_) => "types after which the rows end",
        Point::NotCarried(_) => "numbers that are no carried type",
        Point::Behind(_) => "types behind the 99",
        Point::LinkRefused(..) => "LINK rules refused",
        Point::TooLong(..) => "sums too long",
        Point::AllNines(..) => "sums of all nines",
        Point::Buffer(..) => "buffers",
        Point::Flag(_) => "flags",
        Point::Junk(..) => "worked-out fields with something else in the text",
        Point::PlaceOutside(..) => "worked-out fields outside the text",
        Point::NearStart(_) => "starts near 2^64",
        Point::NearSize(..) => "sizes near 2^64",
        Point::Lent(_) => "edges of the slices",
        Point::PastLimit(_) => "refusals past the limit",
    }
}

#[cfg(test)]
mod tests {
    use super::*;
    use crate::generate;
    use crate::write::judge;

    /// What is demanded, counted by hand: fields of the standard's tables, pairs of the reader's coverage, rules of document 01.
    #[test]
    fn the_points_are_as_many_as_the_documents_give() {
        let of = |set: Set, group: &str| demanded(set).iter().filter(|point| group_of(point) == group).count();
        // 303 fields, less 19 types, 42 that are worked out besides, and 4 Binary parts.
        assert_eq!(of(Set::Ascii, "values refused at FIELD"), 303 - 19 - 42 - 4);
        let longer = outside_targets().into_iter().filter(|(code, field)| !one_character(*code, *field)).count();
        assert_eq!(of(Set::Ascii, "values outside the text"), 242 + longer);
        assert_eq!(of(Set::Ascii, "worked-out fields with something else in the text"), 19 + 42);
        assert_eq!(of(Set::Ascii, "lengths and counts outgrown"), 2 * (6 + 6 + 7 + 2));
        assert_eq!(of(Set::Ascii, "pairs refused at PLACE"), 404);
        assert_eq!(of(Set::Ascii, "lawful pairs written"), 100);
        assert_eq!(of(Set::Ascii, "LINK rules refused"), 2 + 7 + 7 + 6 + 8 + 8);
        for set in [Set::Ascii, Set::Ebcdic] {
            let mut points = demanded(set);
            points.sort_unstable();
            assert!(points.windows(2).all(|pair| pair[0] != pair[1]));
        }
    }

    /// Nothing is refused at FIELD, LINK, PLACE or TOTAL that is not demanded, and no pair is written that is not lawful.
    #[test]
    fn no_other_points_are_met() {
        let mut tally = Tally::default();
        for index in (0..4_000).filter(|index| index % 2_500 != 1_250) {
            let made = generate::draft(18, index);
            tally.note_draft(&made, &judge(&made.text, &made.numbers));
        }
        let demanded = demanded(Set::Ascii);
        for point in tally.met.iter().flat_map(|met| met.keys()) {
            let closed = matches!(
                point,
                Point::FieldRefused(..)
                    | Point::Outside(..)
                    | Point::Outgrown(..)
                    | Point::PairWritten(..)
                    | Point::PairRefused(..)
                    | Point::LinkRefused(..)
                    | Point::TooLong(..)
                    | Point::PlaceOutside(..)
                    | Point::Junk(..)
            );
            assert!(!closed || demanded.contains(point), "{point:?}");
        }
    }
}
