//! What the images of a run have covered, as the independent judge saw them.

use std::collections::{BTreeMap, BTreeSet};

use crate::faults::{faults, Rule};
use crate::harm::{wrong_kinds, COUNTS};
use crate::judge::{
    entries, examine, first, type_size, Entry, Verdict, Why, ACCEPTED, CUT, LONG, REQUIRED, SHORT, TAGORDER, TAGVALUE,
};

/// One thing that a run is to show.
#[derive(Clone, Copy, Debug, PartialEq, Eq, PartialOrd, Ord)]
pub enum Point {
    Answer(u64),
    /// An image of so many bytes.
    Length(usize),
    Header(&'static str),
    Directory(&'static str),
    /// A directory that lacks its last bytes, so many.
    Missing(usize),
    /// A directory of so many entries, and the answer.
    Entries(usize, u64),
    /// A directory over the header, from this byte on, and the answer.
    OverHeader(u32, u64),
    /// An edge of a value of this type.
    Edge(u16, &'static str),
    /// The entry whose value lies outside.
    CutAt(&'static str),
    Unknown(&'static str),
    /// A strip by the types of 273 and 279, and how it ends.
    Strip(u16, u16, &'static str),
    StripSpot(&'static str),
    /// A strip that is not judged for this tag.
    StripFree(u16, &'static str),
    /// 273 or 279 twice.
    FirstCounts(u16, &'static str),
    Order(&'static str),
    /// TAGORDER at a required tag, equal to the one before it and below it.
    OrderAt(u16, bool),
    Crossing(u16),
    Absent(u16),
    WrongKind(u16, u16),
    WrongCount(u16, u32),
    WrongValue(u16, &'static str),
    /// Two required tags wrong, the lower one answered.
    Pair(u64, u64),
    /// Faults of two rules.
    Rules(Rule, Rule),
    /// What accepted images hold.
    Sound(&'static str),
    /// Types of a tag in accepted images, with something in the two bytes behind a SHORT or not.
    SoundKind(u16, u16, bool),
    /// Types of 257 and 278 in an accepted image.
    Lines(u16, u16),
}

/// How often each point was met.
#[derive(Clone, Debug, Default)]
pub struct Tally {
    met: BTreeMap<Point, u64>,
}

impl Tally {
    pub fn add(&mut self, other: &Tally) {
        other.met.iter().for_each(|(point, count)| *self.met.entry(*point).or_insert(0) += count);
    }

    /// Notes what one image shows, each point once.
    pub fn note(&mut self, image: &[u8], verdict: &Verdict) {
        let points: BTreeSet<Point> = shown(image, verdict).into_iter().collect();
        points.into_iter().for_each(|point| *self.met.entry(point).or_insert(0) += 1);
    }

    /// The points of a whole run that were not met.
    pub fn missing(&self) -> Vec<Point> {
        demanded().into_iter().filter(|point| !self.met.contains_key(point)).collect()
    }

    /// A line for each group: met of demanded.
    pub fn report(&self) -> String {
        let mut groups: BTreeMap<String, (usize, usize, u64)> = BTreeMap::new();
        for point in demanded() {
            let count = self.met.get(&point).copied().unwrap_or(0);
            let name = format!("{point:?}").split('(').next().unwrap_or_default().to_string();
            let group = groups.entry(name).or_insert((0, 0, u64::MAX));
            *group = (group.0 + usize::from(count > 0), group.1 + 1, group.2.min(count));
        }
        let line = |(name, (met, of, least)): (String, (usize, usize, u64))| {
            format!("  {name}: {met} of {of}, the rarest met {least} times\n")
        };
        groups.into_iter().map(line).collect()
    }
}

/// The names of those that hold.
fn named(names: &[(&'static str, bool)], point: fn(&'static str) -> Point) -> Vec<Point> {
    names.iter().filter(|(_, holds)| *holds).map(|(name, _)| point(name)).collect()
}

fn shown(image: &[u8], verdict: &Verdict) -> Vec<Point> {
    let mut points = vec![Point::Answer(verdict.number)];
    points.extend((image.len() <= 8).then_some(Point::Length(image.len())));
    points.extend(rules(image, verdict));
    if verdict.why == Why::Short {
        return points;
    }
    points.extend(header(image, verdict));
    if matches!(verdict.why, Why::Mark | Why::FortyTwo) {
        return points;
    }
    points.extend(directory(image, verdict));
    let Ok(entries) = entries(image) else { return points };
    entries.iter().for_each(|entry| points.extend(edges(image, entry, verdict)));
    points.extend(strip(image, &entries, verdict));
    match verdict.why {
        Why::ValueOf(index) => points.push(Point::CutAt(match index {
            0 => "first",
            index if index + 1 == entries.len() => "last",
            _ => "between",
        })),
        Why::Order => points.extend(order(&entries, verdict)),
        Why::Sound => points.extend(sound(image, &entries)),
        _ if verdict.number == TAGVALUE => points.extend(wrong(image, &entries, verdict)),
        _ => {}
    }
    points
}

fn rules(image: &[u8], verdict: &Verdict) -> Vec<Point> {
    let all: BTreeSet<_> = faults(image).into_iter().collect();
    let mut points = Vec::new();
    for (rule, tag) in &all {
        for (other, other_tag) in &all {
            if rule < other {
                points.push(Point::Rules(*rule, *other));
            }
            let both = *rule == Rule::Required && rule == other && tag < other_tag;
            if both && (verdict.number, u64::from(verdict.tag)) == (TAGVALUE, *tag) {
                points.push(Point::Pair(*tag, *other_tag));
            }
        }
    }
    points
}

const HEADERS: [&str; 6] = ["first byte", "second byte", "MM and 42 the other way", "42 low", "42 high", "42 turned"];

fn header(image: &[u8], verdict: &Verdict) -> Vec<Point> {
    let mark = verdict.why == Why::Mark;
    let number = verdict.why == Why::FortyTwo;
    let holds = [
        mark && image[1] == 0x49,
        mark && image[0] == 0x49,
        image[..4] == *b"MM\0\x2A",
        number && image[3] == 0,
        number && image[2] == 42,
        number && image[2..4] == [0, 42],
    ];
    HEADERS.into_iter().zip(holds).filter(|(_, holds)| *holds).map(|(name, _)| Point::Header(name)).collect()
}

const DIRECTORIES: [&str; 8] = [
    "half the count",
    "at the end",
    "a byte past the end",
    "count alone",
    "its first six bytes pass 2^32",
    "far below 2^32",
    "ends the image, accepted",
    "at an odd offset, accepted",
];

fn directory(image: &[u8], verdict: &Verdict) -> Vec<Point> {
    let start = u64::from(u32::from_le_bytes([image[4], image[5], image[6], image[7]]));
    let length = image.len() as u64;
    let accepted = verdict.number == ACCEPTED;
    let count = match start + 2 <= length {
        true => usize::from(image[start as usize]) + 256 * usize::from(image[start as usize + 1]),
        false => 0,
    };
    let end = start + 2 + 12 * count as u64 + 4;
    let holds = [
        start + 1 == length,
        start == length,
        start == length + 1,
        start + 2 == length,
        start + 6 >= 1 << 32,
        start > length + 8 && start < 0xFFFF_0000,
        end == length && accepted,
        start % 2 == 1 && accepted,
    ];
    let mut points: Vec<Point> = DIRECTORIES
        .into_iter()
        .zip(holds)
        .filter(|(_, holds)| *holds)
        .map(|(name, _)| Point::Directory(name))
        .collect();
    if start + 2 <= length {
        points.push(Point::Entries(count, verdict.number));
        points.extend((end > length && end <= length + 16).then(|| Point::Missing((end - length) as usize)));
        points.extend((start < 8).then_some(Point::OverHeader(start as u32, verdict.number)));
    }
    points
}

const EDGES: [&str; 10] = [
    "ends the image, accepted",
    "a byte past the end",
    "four bytes or fewer, as an offset outside, accepted",
    "just longer than four bytes, outside",
    "no value, as an offset outside, accepted",
    "2^32 bytes and up to four",
    "2^32 bytes and as many as seem to fit",
    "the end passes 2^32",
    "the largest count",
    "over the header, accepted",
];

/// Whether an edge can come about for this type. One byte each: their product is below 2^32. Eight: no value stands in the entry.
fn can(kind: u16, edge: usize) -> bool {
    match type_size(kind) {
        Some(1) => edge != 5 && edge != 6,
        Some(8) => edge != 2,
        _ => true,
    }
}

fn edges(image: &[u8], entry: &Entry, verdict: &Verdict) -> Vec<Point> {
    let (length, offset) = (image.len() as u128, u128::from(entry.long()));
    let (accepted, cut) = (verdict.number == ACCEPTED, matches!(verdict.why, Why::ValueOf(_)));
    let Some(bytes) = entry.bytes() else {
        if !accepted || offset < length || entry.count < 8 {
            return Vec::new();
        }
        let low = entry.kind > 255 && type_size(entry.kind % 256).is_some();
        let holds = [entry.kind == 0, entry.kind == 13, low, entry.kind == 65_535];
        return UNKNOWN
            .into_iter()
            .zip(holds)
            .filter(|(_, holds)| *holds)
            .map(|(name, _)| Point::Unknown(name))
            .collect();
    };
    let size = u128::from(type_size(entry.kind).unwrap_or(0));
    let (end, low) = (offset + bytes, bytes % (1 << 32));
    let long = bytes > 4;
    let holds = [
        accepted && long && end == length,
        cut && long && end == length + 1,
        accepted && bytes > 0 && !long && bytes + size > 4 && end > length,
        cut && long && bytes - size <= 4 && end > length,
        accepted && bytes == 0 && offset > length,
        cut && bytes >> 32 > 0 && low <= 4,
        cut && bytes >> 32 > 0 && low > 4 && offset + low <= length,
        cut && bytes < 1 << 32 && end >> 32 > 0 && end % (1 << 32) <= length,
        cut && entry.count == u32::MAX,
        accepted && long && offset < 8,
    ];
    EDGES.into_iter().zip(holds).filter(|(_, holds)| *holds).map(|(name, _)| Point::Edge(entry.kind, name)).collect()
}

const UNKNOWN: [&str; 4] = ["0", "13", "a known type in the low byte", "65535"];

const STRIP_ENDS: [&str; 2] = ["at the end, accepted", "a byte past the end"];

const STRIP_SPOTS: [&str; 9] = [
    "sum passes 2^32, seems to fit",
    "no bytes, accepted",
    "no bytes at the end, accepted",
    "no bytes a byte past the end",
    "at 0, accepted",
    "the whole image, accepted",
    "over the directory, accepted",
    "273 SHORT, outside as a LONG, accepted",
    "279 SHORT, outside as a LONG, accepted",
];

const FREE: [&str; 3] = ["absent", "type", "count"];

const FIRST_COUNTS: [&str; 3] = ["first outside", "second outside", "first no number, second outside"];

fn strip(image: &[u8], entries: &[Entry], verdict: &Verdict) -> Vec<Point> {
    let length = image.len() as u128;
    let (accepted, cut) = (verdict.number == ACCEPTED, verdict.why == Why::Strip);
    let mut points = Vec::new();
    let number = |tag| first(entries, tag).and_then(Entry::one_number);
    for (tag, other) in [(273, 279), (279, 273)] {
        if let (None, Some(far), true) = (number(tag), number(other), verdict.tag == tag && verdict.number == TAGVALUE)
        {
            if u128::from(far) > length {
                points.push(Point::StripFree(
                    tag,
                    match verdict.why {
                        Why::Absent => FREE[0],
                        Why::Type => FREE[1],
                        _ => FREE[2],
                    },
                ));
            }
        }
        let all: Vec<Option<u32>> = entries.iter().filter(|entry| entry.tag == tag).map(Entry::one_number).collect();
        if let ([one, Some(two)], Some(other)) = (&all[..], number(other)) {
            let outside = |number: u32| u128::from(number) + u128::from(other) > length;
            let order = verdict.number == TAGORDER;
            points.extend(match one {
                Some(one) if cut && outside(*one) && !outside(*two) => Some(Point::FirstCounts(tag, FIRST_COUNTS[0])),
                Some(one) if order && !outside(*one) && outside(*two) => Some(Point::FirstCounts(tag, FIRST_COUNTS[1])),
                None if order && outside(*two) => Some(Point::FirstCounts(tag, FIRST_COUNTS[2])),
                _ => None,
            });
        }
    }
    let (Some(at), Some(size)) = (first(entries, 273), first(entries, 279)) else { return points };
    let (Some(offset), Some(bytes)) = (at.one_number(), size.one_number()) else { return points };
    let (offset, bytes) = (u128::from(offset), u128::from(bytes));
    let end = offset + bytes;
    points.extend((accepted && end == length).then_some(Point::Strip(at.kind, size.kind, STRIP_ENDS[0])));
    points.extend((cut && end == length + 1).then_some(Point::Strip(at.kind, size.kind, STRIP_ENDS[1])));
    let directory = u128::from(u32::from_le_bytes([image[4], image[5], image[6], image[7]]));
    let as_long = |entry: &Entry, more: u128| u128::from(entry.long()) + more > length;
    let holds = [
        cut && end >> 32 > 0 && end % (1 << 32) <= length,
        accepted && bytes == 0,
        accepted && bytes == 0 && offset == length,
        cut && bytes == 0 && offset == length + 1,
        accepted && offset == 0,
        accepted && offset == 0 && bytes == length,
        accepted && offset <= directory && end > directory + 2,
        accepted && at.kind == SHORT && as_long(at, bytes),
        accepted && size.kind == SHORT && as_long(size, offset),
    ];
    let names: Vec<(&'static str, bool)> = STRIP_SPOTS.into_iter().zip(holds).collect();
    points.extend(named(&names, Point::StripSpot));
    points
}

const ORDERS: [&str; 8] = [
    "several, the lowest first",
    "several, the lowest later",
    "second entry",
    "last entry",
    "tag 0",
    "tag 65535",
    "one below",
    "a required tag wrong below",
];

fn order(entries: &[Entry], verdict: &Verdict) -> Vec<Point> {
    let disorders: Vec<(usize, u16)> = (1..entries.len())
        .map(|index| (index, entries[index].tag))
        .filter(|(index, tag)| *tag <= entries[index - 1].tag)
        .collect();
    let tag = verdict.tag;
    let place = disorders.iter().position(|(_, other)| *other == tag).unwrap_or(0);
    let (index, _) = disorders[place];
    let before = entries[index - 1].tag;
    let distinct = disorders.iter().any(|(_, other)| *other != tag);
    let absent_below = REQUIRED.iter().any(|required| *required < tag && first(entries, *required).is_none());
    let holds = [
        distinct && place == 0,
        distinct && place > 0,
        index == 1,
        index + 1 == entries.len(),
        tag == 0,
        tag == 65_535,
        before > 0 && tag == before - 1,
        absent_below,
    ];
    let names: Vec<(&'static str, bool)> = ORDERS.into_iter().zip(holds).collect();
    let mut points = named(&names, Point::Order);
    points.extend(REQUIRED.contains(&tag).then_some(Point::OrderAt(tag, tag == before)));
    points
}

/// Wrong values by tag. Of 278 and of the ratios, what makes them wrong.
fn wrong_values(tag: u16) -> &'static [&'static str] {
    match tag {
        256 | 257 => &["0 as a SHORT", "0 as a SHORT, the bytes behind not", "0 as a LONG"],
        259 => &["0", "1", "3", "5", "4 in the low byte", "4 in the high byte", "4 behind the SHORT"],
        262 => &["1", "2", "0 in the low byte", "65535"],
        278 => &[
            "one more",
            "one less",
            "equal in the low half, SHORT",
            "equal in the low half, LONG",
            "the high bit",
            "0",
        ],
        282 => &RATIOS,
        283 => &Y_RATIOS,
        _ => &[],
    }
}

const RATIOS: [&str; 13] = [
    "0/0",
    "200/0",
    "199",
    "201",
    "239",
    "241",
    "300",
    "0",
    "1/200",
    "401/2",
    "399/2",
    "200 but for 2^32",
    "240 but for 2^32",
];

const Y_RATIOS: [&str; 17] = [
    "0/0",
    "200/0",
    "199",
    "201",
    "239",
    "241",
    "300",
    "0",
    "1/200",
    "401/2",
    "399/2",
    "200 but for 2^32",
    "240 but for 2^32",
    "240 beside 200",
    "200 beside 240",
    "the offset of 282",
    "480/2 beside 200",
];

fn wrong(image: &[u8], entries: &[Entry], verdict: &Verdict) -> Vec<Point> {
    let tag = verdict.tag;
    let Some(entry) = first(entries, tag) else { return vec![Point::Absent(tag)] };
    match verdict.why {
        Why::Type => return vec![Point::WrongKind(tag, entry.kind)],
        Why::Count => return vec![Point::WrongCount(tag, entry.count)],
        _ => {}
    }
    let number = entry.one_number().unwrap_or(0);
    let behind = entry.value[2..] != [0, 0];
    let lines = first(entries, 257).and_then(Entry::one_number).unwrap_or(0);
    let holds: Vec<bool> = match tag {
        256 | 257 => vec![entry.kind == SHORT && !behind, entry.kind == SHORT && behind, entry.kind == LONG],
        259 => vec![
            number == 0,
            number == 1,
            number == 3,
            number == 5,
            number % 256 == 4,
            number == 4 * 256,
            number == 0 && entry.long() == 4 << 16,
        ],
        262 => vec![number == 1, number == 2, number % 256 == 0, number == 65_535],
        278 => vec![
            lines.checked_add(1) == Some(number),
            number.checked_add(1) == Some(lines),
            entry.kind == SHORT && number == lines % 65_536,
            entry.kind == LONG && number % 65_536 == lines,
            number == lines ^ 0x8000_0000,
            number == 0,
        ],
        _ => ratio_holds(image, entries, entry, verdict),
    };
    wrong_values(tag)
        .iter()
        .zip(holds)
        .filter(|(_, holds)| *holds)
        .map(|(name, _)| Point::WrongValue(tag, name))
        .collect()
}

/// Numerator and denominator, whose bytes lie within.
fn ratio_of(image: &[u8], entry: &Entry) -> (u64, u64) {
    let at = entry.long() as usize;
    let part = |at: usize| u64::from(u32::from_le_bytes([image[at], image[at + 1], image[at + 2], image[at + 3]]));
    (part(at), part(at + 4))
}

fn ratio_holds(image: &[u8], entries: &[Entry], entry: &Entry, verdict: &Verdict) -> Vec<bool> {
    let (above, below) = ratio_of(image, entry);
    let simply = [199, 201, 239, 241, 300, 0].map(|number| (above, below) == (number, 1));
    let wraps = |times: u64| below > 0 && (times * below) >> 32 > 0 && (times * below) % (1 << 32) == above;
    let x = first(entries, 282).map(|x| ratio_of(image, x)).unwrap_or((0, 0));
    let unlike = verdict.why == Why::UnlikeX;
    let start = [(above, below) == (0, 0), (above, below) == (200, 0)];
    let others = [
        (above, below) == (1, 200),
        (above, below) == (401, 2),
        (above, below) == (399, 2),
        wraps(200),
        wraps(240),
        unlike && above == 240 * below,
        unlike && above == 200 * below && x.0 == 240 * x.1,
        verdict.why == Why::SameOffset,
        unlike && (above, below) == (480, 2) && x == (200, 1),
    ];
    start.into_iter().chain(simply).chain(others).collect()
}

const SOUNDS: [&str; 20] = [
    "200",
    "240",
    "denominator 1",
    "denominator above 1",
    "largest denominator, 200",
    "largest denominator, 240",
    "unlike denominators",
    "282 and 283 overlap",
    "283 before 282",
    "no other tags",
    "optional tags",
    "private tags",
    "tags below 254",
    "next offset 0",
    "next offset outside",
    "next offset inside",
    "width above 65535",
    "lines 65536",
    "two values at one offset",
    "directory at 8",
];

fn sound(image: &[u8], entries: &[Entry]) -> Vec<Point> {
    let start = u32::from_le_bytes([image[4], image[5], image[6], image[7]]) as usize;
    let after = start + 2 + 12 * entries.len();
    let next = u32::from_le_bytes([image[after], image[after + 1], image[after + 2], image[after + 3]]) as usize;
    let of = |tag| first(entries, tag).expect("an accepted image has it");
    let (x, y) = (of(282), of(283));
    let ((x_above, x_below), (_, y_below)) = (ratio_of(image, x), ratio_of(image, y));
    let number = |tag| of(tag).one_number().unwrap_or(0);
    let tags = || entries.iter().map(|entry| entry.tag);
    let mut offsets: Vec<u32> =
        entries.iter().filter(|entry| entry.bytes().is_some_and(|bytes| bytes > 4)).map(Entry::long).collect();
    let values = offsets.len();
    offsets.sort_unstable();
    offsets.dedup();
    let optional = [254, 258, 263, 266, 274, 277, 293, 296];
    let holds = [
        x_above == 200 * x_below,
        x_above == 240 * x_below,
        x_below == 1,
        x_below > 1,
        x_below == 21_474_836,
        x_below == 17_895_697,
        x_below != y_below,
        x.long().abs_diff(y.long()) < 8,
        y.long() < x.long(),
        entries.len() == REQUIRED.len(),
        tags().any(|tag| optional.contains(&tag)),
        tags().any(|tag| tag >= 32_768),
        tags().any(|tag| tag < 254),
        next == 0,
        next >= image.len(),
        next > 0 && next < image.len(),
        number(256) > 65_535,
        number(257) == 65_536,
        offsets.len() < values,
        start == 8,
    ];
    let names: Vec<(&'static str, bool)> = SOUNDS.into_iter().zip(holds).collect();
    let mut points = named(&names, Point::Sound);
    for tag in REQUIRED.into_iter().filter(|tag| *tag < 282) {
        let entry = of(tag);
        points.push(Point::SoundKind(tag, entry.kind, entry.kind == SHORT && entry.value[2..] != [0, 0]));
    }
    points.push(Point::Lines(of(257).kind, of(278).kind));
    for pair in entries.windows(2) {
        let crossed = [256, 32_768].into_iter().find(|tag| pair[1].tag == *tag && pair[0].tag == tag - 1);
        points.extend(crossed.map(Point::Crossing));
    }
    points
}

/// All points that a whole run is to meet.
pub fn demanded() -> Vec<Point> {
    let mut points = Vec::new();
    points.extend([ACCEPTED, CUT, TAGORDER, TAGVALUE].map(Point::Answer));
    points.extend((0..=8).map(Point::Length));
    points.extend(HEADERS.map(Point::Header));
    points.extend(DIRECTORIES.map(Point::Directory));
    points.extend((1..=16).map(Point::Missing));
    points.extend(
        [(0, TAGVALUE), (0, CUT), (1, TAGVALUE), (65_535, ACCEPTED), (65_535, CUT)].map(|(n, a)| Point::Entries(n, a)),
    );
    let header = [
        (0, ACCEPTED),
        (1, TAGVALUE),
        (2, ACCEPTED),
        (3, ACCEPTED),
        (4, TAGVALUE),
        (5, TAGVALUE),
        (6, TAGVALUE),
        (7, ACCEPTED),
    ];
    points.extend(header.map(|(start, answer)| Point::OverHeader(start, answer)));
    for kind in 1..=12 {
        points.extend(
            EDGES.into_iter().enumerate().filter(|(edge, _)| can(kind, *edge)).map(|(_, name)| Point::Edge(kind, name)),
        );
    }
    points.extend(["first", "between", "last"].map(Point::CutAt));
    points.extend(UNKNOWN.map(Point::Unknown));
    for (offset, bytes) in [(SHORT, SHORT), (SHORT, LONG), (LONG, SHORT), (LONG, LONG)] {
        points.extend(STRIP_ENDS.map(|end| Point::Strip(offset, bytes, end)));
        points.push(Point::Lines(offset, bytes));
    }
    points.extend(STRIP_SPOTS.map(Point::StripSpot));
    for tag in [273, 279] {
        points.extend(FREE.map(|why| Point::StripFree(tag, why)));
        points.extend(FIRST_COUNTS.map(|which| Point::FirstCounts(tag, which)));
    }
    points.extend(ORDERS.map(Point::Order));
    points.extend([256, 32_768].map(Point::Crossing));
    for tag in REQUIRED {
        points.extend([true, false].map(|equal| Point::OrderAt(tag, equal)));
        points.push(Point::Absent(tag));
        points.extend(wrong_kinds(tag).into_iter().map(|kind| Point::WrongKind(tag, kind)));
        points.extend(COUNTS.into_iter().chain([65_537]).map(|count| Point::WrongCount(tag, count)));
        points.extend(wrong_values(tag).iter().map(|name| Point::WrongValue(tag, name)));
        let higher = REQUIRED.into_iter().filter(|other| *other > tag);
        points.extend(higher.map(|other| Point::Pair(u64::from(tag), u64::from(other))));
        if tag < 282 {
            points.extend([false, true].map(|behind| Point::SoundKind(tag, SHORT, behind)));
            points.extend((tag != 259 && tag != 262).then_some(Point::SoundKind(tag, LONG, false)));
        }
    }
    use Rule::{EightBytes, Header, Inside, Order, Required};
    let rules = [
        (EightBytes, Header),
        (Header, Inside),
        (Header, Order),
        (Header, Required),
        (Inside, Order),
        (Inside, Required),
        (Order, Required),
    ];
    points.extend(rules.map(|(one, two)| Point::Rules(one, two)));
    points.extend(SOUNDS.map(Point::Sound));
    points
}

/// Judges and notes.
pub fn note(tally: &mut Tally, image: &[u8]) -> Verdict {
    let verdict = examine(image);
    tally.note(image, &verdict);
    verdict
}
