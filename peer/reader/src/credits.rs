//! What a run is to show of 61s beyond pairs, fields, links and totals (request 2): where they stand, what they hold, and views that agree
//! with one header and not with the other.

use crate::books::code_of;
use crate::descent::{Inside, Row};
use crate::harm::sequence_field;
use crate::layout::layout;

#[derive(Clone, Copy, Debug, PartialEq, Eq, PartialOrd, Ord)]
pub enum CreditPoint {
    /// Accepted between these two, of 10, 20, 25, 31, 70 and 90, other 61s aside; with a view or without; one of several in a row or alone.
    Between { before: u8, after: u8, viewed: bool, in_a_row: bool },
    /// Accepted in a cash letter of this content, directly or in a bundle, with a view or without.
    Under { content: u8, direct: bool, viewed: bool },
    /// Accepted with this usage indicator, directly or in a bundle.
    Usage { usage: u8, direct: bool },
    /// Accepted with this code, a letter as its capital, in field 9, 10 or 11.
    Code { field: u8, code: [u8; 2] },
    /// Accepted with an amount of so many digits, leading zeros aside.
    Digits(usize),
    /// Accepted with all nines in a control record's field.
    AllNines(u8, u8),
    /// Accepted: a 52 outside a bundle whose field is not what the last bundle header of the cash letter has.
    UnlikeBundle(u8),
    /// Refused at LINK: a field of a 52 that is what the other header has.
    LikeOtherHeader(Inside, u8),
    /// Refused at LINK: a 52 with the sequence number of the item or 61 before its own.
    LikeOtherSequence(Inside),
}

impl CreditPoint {
    pub fn group(&self) -> &'static str {
        match self {
            CreditPoint::Between { .. } => "61s: neighbours, views, rows of 61s accepted",
            CreditPoint::Under { .. } => "61s: contents of the cash letter accepted",
            CreditPoint::Usage { .. } => "61s: usage indicators accepted",
            CreditPoint::Code { .. } => "61s: codes accepted",
            CreditPoint::Digits(_) => "61s: digits of an amount accepted",
            CreditPoint::AllNines(..) => "61s: control fields of all nines accepted",
            CreditPoint::UnlikeBundle(_) => "61s: 52s outside a bundle unlike its header accepted",
            CreditPoint::LikeOtherHeader(..) => "61s: 52s like the other header refused",
            CreditPoint::LikeOtherSequence(_) => "61s: 52s with another's sequence number refused",
        }
    }
}

/// The neighbours that a 61 can have, other 61s aside: directly in a cash letter, and in a bundle.
const NEIGHBOURS: [(u8, u8); 11] =
    [(10, 20), (10, 90), (70, 20), (70, 90), (20, 25), (20, 31), (20, 70), (25, 25), (25, 70), (31, 31), (31, 70)];

/// The contents of a cash letter, whether directly in it, whether with a view.
const CONTENTS: [(u8, bool, bool); 12] = [
    (b'N', true, false),
    (b'N', true, true),
    (b'E', true, false),
    (b'I', true, false),
    (b'I', true, true),
    (b'F', true, false),
    (b'F', true, true),
    (b'E', false, false),
    (b'I', false, false),
    (b'I', false, true),
    (b'F', false, false),
    (b'F', false, true),
];

/// The cents of a 70, 90 and 99.
const CENTS: [(u8, u8); 6] = [(70, 3), (70, 7), (90, 4), (90, 9), (99, 5), (99, 8)];

/// Everything that a run of 100,000 files is to show.
pub fn demanded() -> Vec<CreditPoint> {
    let mut points = Vec::new();
    for (before, after) in NEIGHBOURS {
        for (viewed, in_a_row) in [(false, false), (false, true), (true, false), (true, true)] {
            points.push(CreditPoint::Between { before, after, viewed, in_a_row });
        }
    }
    points.extend(CONTENTS.map(|(content, direct, viewed)| CreditPoint::Under { content, direct, viewed }));
    for usage in *b" 123456789" {
        points.extend([false, true].map(|direct| CreditPoint::Usage { usage, direct }));
    }
    points.extend(codes().into_iter().map(|(field, code)| CreditPoint::Code { field, code }));
    points.extend((0..=14).map(CreditPoint::Digits));
    points.extend(CENTS.map(|(code, field)| CreditPoint::AllNines(code, field)));
    points.extend([2, 3, 4].map(CreditPoint::UnlikeBundle));
    for inside in [Inside::Item, Inside::CreditInBundle, Inside::CreditInLetter] {
        points.extend([2, 3].map(|field| CreditPoint::LikeOtherHeader(inside, field)));
        points.push(CreditPoint::LikeOtherSequence(inside));
    }
    points
}

/// Clauses 26.9 to 26.11 and reading 24, and all blank.
fn codes() -> Vec<(u8, [u8; 2])> {
    let one =
        |field: u8, codes: &[u8]| -> Vec<(u8, [u8; 2])> { codes.iter().map(|code| (field, [*code, 0])).collect() };
    let work = (1..=11).chain(21..=99).map(|number: u8| (11, [b'0' + number / 10, b'0' + number % 10]));
    let blank = [(11, *b"  ")].into_iter();
    [one(9, b" ABCDEFGHIJKLM"), one(10, b" 12345ABCDEFGHIJ")].concat().into_iter().chain(work).chain(blank).collect()
}

/// A field of the record whose row this is.
fn field_of<'a>(file: &'a [u8], row: &Row, number: u8) -> &'a [u8] {
    layout(row[0] as u8).field(number).of(&file[row[1] as usize + 4..])
}

/// What an accepted file shows.
pub fn shown(file: &[u8], rows: &[Row]) -> Vec<CreditPoint> {
    if rows.iter().all(|row| row[0] != 61) {
        return Vec::new();
    }
    let mut points = nines(file, rows);
    let mut content = b' ';
    let mut bundle: Option<&Row> = None;
    for (at, row) in rows.iter().enumerate() {
        match row[0] {
            10 => (content, bundle) = (field_of(file, row, 8)[0].to_ascii_uppercase(), None),
            20 => bundle = Some(row),
            61 => points.extend(credit(file, rows, at, content)),
            52 if row[4] == 0 => points.extend(bundle.iter().flat_map(|bundle| unlike_bundle(file, row, bundle))),
            _ => {}
        }
    }
    points
}

fn nines(file: &[u8], rows: &[Row]) -> Vec<CreditPoint> {
    let all = |row: &Row, field: u8| field_of(file, row, field).iter().all(|digit| *digit == b'9');
    let of_row = |row: &Row| {
        CENTS.into_iter().filter(|(code, field)| row[0] == u64::from(*code) && all(row, *field)).collect::<Vec<_>>()
    };
    rows.iter().flat_map(of_row).map(|(code, field)| CreditPoint::AllNines(code, field)).collect()
}

/// What one accepted 61 shows.
fn credit(file: &[u8], rows: &[Row], at: usize, content: u8) -> Vec<CreditPoint> {
    let row = &rows[at];
    let direct = row[4] == 0;
    let viewed = rows[at + 1][0] == 50;
    let head = |row: &&Row| matches!(row[0], 10 | 20 | 25 | 31 | 61 | 70 | 90);
    let not_61 = |row: &&Row| head(row) && row[0] != 61;
    let code_of = |found: Option<&Row>| found.map_or(0, |row| row[0] as u8);
    let (before, after) = (&rows[..at], &rows[at + 1..]);
    let in_a_row = [before.iter().rev().find(head), after.iter().find(head)].iter().any(|near| code_of(*near) == 61);
    let (before, after) = (code_of(before.iter().rev().find(not_61)), code_of(after.iter().find(not_61)));
    let mut points = vec![
        CreditPoint::Between { before, after, viewed, in_a_row },
        CreditPoint::Under { content, direct, viewed },
        CreditPoint::Usage { usage: field_of(file, row, 2)[0], direct },
        CreditPoint::Digits(field_of(file, row, 7).iter().skip_while(|digit| **digit == b'0').count()),
    ];
    for field in [9, 10, 11] {
        let mut code = [0; 2];
        let held = field_of(file, row, field).to_ascii_uppercase();
        code[..held.len()].copy_from_slice(&held);
        points.push(CreditPoint::Code { field, code });
    }
    points
}

/// The fields of a 52 outside a bundle that differ from the last bundle header's.
fn unlike_bundle(file: &[u8], data: &Row, header: &Row) -> Vec<CreditPoint> {
    let pairs = [(2, 4), (3, 5), (4, 9)];
    let differ = |(of_data, of_header): &(u8, u8)| field_of(file, data, *of_data) != field_of(file, header, *of_header);
    pairs.into_iter().filter(differ).map(|(field, _)| CreditPoint::UnlikeBundle(field)).collect()
}

/// What the LINK fault at the last of these records shows, if it is a 52.
pub fn unlike(bodies: &[&[u8]], field: u8, inside: Inside) -> Vec<CreditPoint> {
    let (data, before) = bodies.split_last().expect("a record at fault");
    if code_of(data) != 52 {
        return Vec::new();
    }
    let last =
        |codes: &[u8]| before.iter().rev().filter(|body| codes.contains(&code_of(body))).copied().collect::<Vec<_>>();
    let held = |body: &[u8], number: u8| layout(code_of(body)).field(number).of(body).to_vec();
    let found = held(data, field);
    match field {
        2 | 3 => {
            let other = if inside == Inside::CreditInLetter { 20 } else { 10 };
            let like = last(&[other]).first().is_some_and(|header| held(header, field + 2) == found);
            like.then_some(CreditPoint::LikeOtherHeader(inside, field)).into_iter().collect()
        }
        5 => {
            let like =
                last(&[25, 31, 61]).get(1).is_some_and(|head| held(head, sequence_field(code_of(head))) == found);
            like.then_some(CreditPoint::LikeOtherSequence(inside)).into_iter().collect()
        }
        _ => Vec::new(),
    }
}
