//! Drafts at the edges of their fields: values and parts outside the text, parts and addenda that outgrow their fields, sums too long.

use peer_reader::charset::Set;
use peer_reader::harm::{self, field_targets, filled_part};
use peer_reader::judge;
use peer_reader::layout::{layout, Part, LAYOUTS};
use peer_reader::make::{record, Rec, Wish};
use peer_reader::random::Random;

use crate::generate::{at, dress, finish};
use crate::sheet::{lay, lines_of, Line, Manner};
use crate::source::{source, Source};

/// Every given field that can break its type or values: the reader's fields but for those that are worked out.
pub fn given_targets() -> Vec<(u8, u8)> {
    field_targets().into_iter().filter(|(code, number)| is_given(*code, *number)).collect()
}

fn is_given(code: u8, number: u8) -> bool {
    let of_part = layout(code).parts.iter().any(|part| part.number == number);
    of_part || source(layout(code), number) == Source::Given
}

/// Every given field and part, Binary ones too: each can lie outside the text.
pub fn outside_targets() -> Vec<(u8, u8)> {
    let numbers = |code: u8| 2..=layout(code).field_count() as u8;
    let all = LAYOUTS.iter().flat_map(|layout| numbers(layout.code).map(|number| (layout.code, number)));
    all.filter(|(code, number)| is_given(*code, *number)).collect()
}

/// Every length that sizes a part.
pub fn length_targets() -> Vec<(u8, u8)> {
    LAYOUTS.iter().flat_map(|layout| layout.parts.iter().map(|part| (layout.code, part.sized_by))).collect()
}

/// A text that ends within one field of a record, or before its first character.
pub fn outside(random: &mut Random, set: Set, turn: usize) -> (Vec<u8>, Vec<u64>) {
    let targets = outside_targets();
    let (code, number) = at(&targets, turn);
    let within = turn / targets.len() % 2 == 1;
    let (records, index, start, size) = loop {
        let (mut records, index) = harm::holding(random, &Wish::holding(code), code);
        match layout(code).fields.iter().find(|field| field.number == number) {
            Some(field) => break (records, index, field.first - 1, field.size()),
            None => match filled_part(random, &mut records[index], number) {
                (_, 1) if within => continue, // a part of one character has no place within
                (start, size) => break (records, index, start, size),
            },
        }
    };
    let keep = if within && size > 1 { start + random.between(1, size - 1) } else { start };
    let mut lines = lines_of(&records);
    dress(random, set, &mut lines);
    lines[index].body.truncate(keep);
    let manner = random.pick(&[Manner::AsFile, Manner::Packed, Manner::Scattered]);
    lay(random, &lines, manner, Some(index))
}

/// A record with a wrong or doubtful value in this field. In a part every second one would pass: it is drawn up to three times.
pub fn harmed(random: &mut Random, (code, number): (u8, u8)) -> Vec<Line> {
    let is_part = layout(code).parts.iter().any(|part| part.number == number);
    let mut records = harm::field_file(random, (code, number));
    for _ in 0..2 {
        let sound = |record: &Rec| judge::record_in(Set::Ascii, record.layout(), &record.body).is_ok();
        if is_part && records.iter().all(sound) {
            records = harm::field_file(random, (code, number));
        }
    }
    lines_of(&records)
}

/// The worked-out fields at the end of a fixed part: they may lie outside the text of an accepted draft.
pub const ENDS: [(u8, u8); 10] =
    [(52, 15), (52, 16), (52, 17), (52, 18), (52, 19), (52, 20), (52, 21), (90, 8), (90, 9), (99, 8)];

/// A text that ends with the last given field of a record, or within the worked-out ones behind it.
pub fn small(random: &mut Random, set: Set, turn: usize) -> (Vec<u8>, Vec<u64>) {
    let (code, number) = at(&ENDS, turn);
    let (mut records, index) = harm::holding(random, &Wish::holding(code), code);
    let layout = layout(code);
    if code == 52 {
        records[index].body.truncate(layout.fixed);
        layout.parts.iter().for_each(|part| records[index].set_number(part.sized_by, 0));
    }
    let mut lines = lines_of(&records);
    dress(random, set, &mut lines);
    let field = layout.field(number);
    lines[index].body.truncate(field.first - 1 + random.below(field.size()));
    lay(random, &lines, Manner::Packed, Some(index))
}

/// A size far beyond any field.
pub fn large_size(random: &mut Random) -> u64 {
    let far = [u64::MAX, u64::MAX - 138, 1 << 63, 1 << 32, (1 << 32) + 5, 10_000_000, 9_999_999, 99_999, 100];
    random.pick(&far).wrapping_sub(random.pick(&[0, 0, 1, 73, 139]))
}

/// A part that outgrows its length field: by one with its bytes all there (but for the image's ten million), or by far; and one that just does not.
pub fn outgrown(random: &mut Random, set: Set, turn: usize) -> (Vec<u8>, Vec<u64>) {
    let targets = length_targets();
    let (code, number) = at(&targets, turn);
    let (records, index) = harm::holding(random, &Wish::holding(code), code);
    let layout = layout(code);
    let place = layout.parts.iter().position(|part| part.sized_by == number).expect("a part");
    let beyond = 10u64.pow(layout.field(number).size() as u32);
    let mut lines = lines_of(&records);
    match turn / targets.len() % 5 {
        0 => set_part(&mut lines[index], &layout.parts[place], place, beyond.min(100_000)),
        1 => lines[index].sizes[place] = beyond,
        2 => set_part(&mut lines[index], &layout.parts[place], place, (beyond - 1).min(99_999)),
        3 => lines[index].sizes[place] = u64::MAX - random.draw() % 150,
        _ => lines[index].sizes[place] = large_size(random).max(beyond),
    }
    finish(random, set, lines)
}

/// Gives a line a part of this size, of characters that are in every type. The body's own length fields are left as they are.
fn set_part(line: &mut Line, part: &Part, place: usize, size: u64) {
    let layout = line.layout().expect("a carried type");
    let start = layout.fixed + line.sizes[..place].iter().sum::<u64>() as usize;
    let before = line.sizes[place] as usize;
    line.body.splice(start..start + before, vec![b'5'; size as usize]);
    line.sizes[place] = size;
    let field = layout.field(part.sized_by);
    let digits = format!("{size:0width$}", width = field.size());
    let cut = &digits.as_bytes()[digits.len() - field.size()..];
    line.body[field.first - 1..field.last].copy_from_slice(cut);
}

/// Runs of addenda at the edges of their counts and record numbers: kind, of the first numbered type, of the second.
pub const RUNS: [(u8, usize, usize); 16] = [
    (25, 0, 99),
    (31, 0, 98),
    (25, 0, 100),
    (31, 0, 99),
    (25, 9, 90),
    (31, 9, 89),
    (25, 9, 91),
    (31, 9, 90),
    (25, 10, 0),
    (31, 10, 0),
    (25, 11, 3),
    (31, 12, 2),
    (25, 10, 90),
    (31, 10, 89),
    (25, 120, 140),
    (31, 150, 0),
];

pub fn addenda(random: &mut Random, turn: usize) -> Vec<Line> {
    let (kind, first, second) = at(&RUNS, turn);
    let content = random.pick(b"EI");
    let mut records = harm::long_run(random, kind, first, second, 0, content);
    if random.percent(20) {
        // A later fault of the same record: the lowest field answers, and FIELD before LINK.
        let head = records.iter().position(|record| record.code == kind).expect("the item");
        let damaged = random.between(2, records[head].layout().field_count()) as u8;
        harm::harm_field(random, &mut records[head], damaged);
    }
    lines_of(&records)
}

/// The control fields whose sums can be too long in a draft of some hundred rows, and what fills them to the last digit.
const SUM_SORTS: usize = 12;

/// The largest amounts of an item and of a 61.
const MOST_OF_ITEM: u64 = 9_999_999_999;
const MOST_OF_61: u64 = 99_999_999_999_999;

/// Sums at the edge of a control field: one too many by turns, in a bundle, a cash letter, a file.
pub fn sums(random: &mut Random, turn: usize) -> Vec<Line> {
    let over = u64::from(!(turn / SUM_SORTS).is_multiple_of(3));
    let mut records = vec![record(random, 1, 0)];
    match turn % SUM_SORTS {
        0 => bundle(random, &mut records, 100, Some(100 * over), None),
        1 => bundle(random, &mut records, 100 + over as usize, None, None),
        2 => bundle(random, &mut records, 0, None, Some((b'9', 999_999_999_999 + over))),
        3 => bundle(random, &mut records, 1, None, Some((b' ', 999_999_999_999 + over))),
        4 => bundle(random, &mut records, 101, None, Some((b'1', MOST_OF_61))), // both: the lower field answers
        5 => letter(random, &mut records, b'9', &[MOST_OF_61, over]),
        6 => letter(random, &mut records, b'2', &[MOST_OF_61, over]),
        7 => both_sides(random, &mut records, over),
        8 => letters(random, &mut records, b'9', 100, 99 + over),
        9 => letters(random, &mut records, b'5', 100, 99 + over),
        10 => bundle(random, &mut records, 3, Some(MOST_OF_ITEM), Some((b'9', over))),
        _ => letters(random, &mut records, b' ', 101, MOST_OF_61),
    }
    records.push(record(random, 99, 0));
    lines_of(&records)
}

fn header(random: &mut Random, content: u8) -> Rec {
    let mut header = record(random, 10, 0);
    header.set(8, &[content]);
    header
}

fn credit(random: &mut Random, usage: u8, amount: u64) -> Rec {
    let mut credit = record(random, 61, 0);
    credit.set(2, &[usage]);
    credit.set_number(7, amount);
    credit
}

/// A cash letter of one bundle: so many items of the largest amount, perhaps one of another amount, perhaps a 61.
fn bundle(random: &mut Random, records: &mut Vec<Rec>, items: usize, other: Option<u64>, of_61: Option<(u8, u64)>) {
    records.extend([header(random, b'E'), record(random, 20, 0)]);
    let mut item = record(random, 25, 0);
    let valid = random.pick(b"12 ");
    item.set(10, &[valid]);
    let amounts = (0..items).map(|_| MOST_OF_ITEM).chain(other);
    for amount in amounts {
        item.set_number(6, amount);
        records.push(item.clone());
    }
    if let Some((usage, amount)) = of_61 {
        records.push(credit(random, usage, amount));
    }
    records.extend([record(random, 70, 0), record(random, 90, 0)]);
}

/// A cash letter without a bundle, with 61s of these amounts.
fn letter(random: &mut Random, records: &mut Vec<Rec>, usage: u8, amounts: &[u64]) {
    records.push(header(random, b'N'));
    for amount in amounts {
        records.push(credit(random, usage, *amount));
    }
    records.push(record(random, 90, 0));
}

/// Both sides of a cash letter at the edge.
fn both_sides(random: &mut Random, records: &mut Vec<Rec>, over: u64) {
    records.push(header(random, b'n'));
    for (usage, amount) in [(b'9', MOST_OF_61), (b'3', MOST_OF_61), (b'9', over), (b' ', over)] {
        records.push(credit(random, usage, amount));
    }
    records.push(record(random, 90, 0));
}

/// So many cash letters with one 61 of the largest amount each, and one of another: 100 of them and 99 fill sixteen digits.
fn letters(random: &mut Random, records: &mut Vec<Rec>, usage: u8, count: usize, last: u64) {
    let mut one = Vec::new();
    letter(random, &mut one, usage, &[MOST_OF_61]);
    (0..count).for_each(|_| records.extend(one.clone()));
    letter(random, records, usage, &[last]);
}
