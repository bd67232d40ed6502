//! The stream of drafts of one run: the seed and a draft's index give the draft (issue 16, item 7).

use peer_reader::charset::Set;
use peer_reader::ebcdic::in_set;
use peer_reader::harm::{self, link_targets, place_targets};
use peer_reader::layout::{CARRIED, NOT_CARRIED};
use peer_reader::make::{record, sound, Wish};
use peer_reader::random::Random;
use peer_reader::stream;

use crate::draft::{draft_of, ROW};
use crate::large;
use crate::outgrow;
use crate::sheet::{lay, lines_of, lines_of_file, noise_in_numbers, Line, Made, Manner, MANNERS};

/// Shapes by turn.
#[rustfmt::skip]
const TURNS: [&str; 64] = [
    "sound", "sound", "sound", "sound", "sound", "sound", "own", "own", "own", "own", "own", "stream",
    "stream", "stream", "stream", "field", "field", "field", "field", "field", "field", "outside", "outside", "outside",
    "outside", "outside", "outside", "place", "place", "place", "place", "place", "place", "place", "link", "link",
    "link", "outgrown", "outgrown", "outgrown", "outgrown", "addenda", "sums", "sums", "sums", "sums", "end", "behind",
    "behind", "strange", "strange", "rows", "rows", "rows", "near", "near", "near", "cut", "small", "flags",
    "tail", "flip", "flip", "several",
];

/// The shapes that `shaped` takes.
#[rustfmt::skip]
pub const SHAPES: [&str; 21] = [
    "sound", "own", "stream", "field", "outside", "place", "link", "outgrown", "addenda", "sums", "end", "behind", "strange", "rows", "near", "cut",
    "small", "flags", "tail", "flip", "several",
];

/// The drafts of a round.
pub const ROUND: usize = TURNS.len();

/// One in so many drafts is a large one.
const RARE: u64 = 2_500;

/// The draft of this index in the run of this seed.
pub fn draft(seed: u64, index: u64) -> Made {
    let mut random = Random::for_file(seed ^ 0x0004_0004_0004_0004, index);
    if index % RARE == RARE / 2 {
        return large::rare(&mut random, (index / RARE) as usize);
    }
    let (turn, place) = ((index / ROUND as u64) as usize, (index % ROUND as u64) as usize);
    let shape = TURNS[place];
    let alike = |turns: &[&str]| turns.iter().filter(|other| **other == shape).count();
    shaped(&mut random, shape, turn * alike(&TURNS) + alike(&TURNS[..place]))
}

/// A draft of this shape; the turn chooses the set and, where a shape has many, the target.
pub fn shaped(random: &mut Random, shape: &'static str, turn: usize) -> Made {
    let set = if turn.is_multiple_of(2) { Set::Ascii } else { Set::Ebcdic };
    let turn = turn / 2;
    let (text, numbers) = match shape {
        "own" => own(random, set),
        "stream" => from_stream(random, set),
        "outside" => outgrow::outside(random, set, turn),
        "outgrown" => outgrow::outgrown(random, set, turn),
        "small" => outgrow::small(random, set, turn),
        "near" => near(random, set, turn),
        "cut" => cut(random, set),
        "flags" => flags(random, set),
        "tail" => tail(random, set, turn),
        "flip" => flip(random, set),
        _ => {
            let lines = lines_in_shape(random, shape, turn);
            finish(random, set, lines)
        }
    };
    Made { shape, text, numbers }
}

/// The shapes that are made of lines alone.
fn lines_in_shape(random: &mut Random, shape: &str, turn: usize) -> Vec<Line> {
    match shape {
        "field" => outgrow::harmed(random, at(&outgrow::given_targets(), turn)),
        "place" => lines_of(&harm::place_file(random, at(&place_targets(), turn))),
        "link" => lines_of(&harm::link_file(random, at(&link_targets(), turn))),
        "addenda" => outgrow::addenda(random, turn),
        "sums" => outgrow::sums(random, turn),
        "end" => end(random, turn),
        "behind" => behind(random, turn),
        "strange" => strange(random, turn),
        "rows" => {
            let mut lines = sound_lines(random);
            (0..random.between(1, 2)).for_each(|_| shuffle(random, &mut lines));
            lines
        }
        "several" => several(random),
        _ => sound_lines(random),
    }
}

pub fn at<T: Copy>(targets: &[T], turn: usize) -> T {
    targets[turn % targets.len()]
}

/// Lines of a sound file of any shape.
pub fn sound_lines(random: &mut Random) -> Vec<Line> {
    let shape = random.pick(&["sound", "sound", "credit"]);
    lines_of_file(&stream::shaped(random, shape, 0).bytes)
}

/// Lines into a draft of this set: most often with junk in the worked-out places, laid out in any manner.
pub fn finish(random: &mut Random, set: Set, mut lines: Vec<Line>) -> (Vec<u8>, Vec<u64>) {
    dress(random, set, &mut lines);
    let manner = random.pick(&MANNERS);
    let (text, mut numbers) = lay(random, &lines, manner, None);
    if random.percent(40) {
        noise_in_numbers(random, &mut numbers);
    }
    (text, numbers)
}

/// Lines in this set, most often with junk. The first line tells the set, though a first record of another type than 01 may tell ASCII.
pub fn dress(random: &mut Random, set: Set, lines: &mut [Line]) {
    let junk = random.percent(70);
    for (index, line) in lines.iter_mut().enumerate() {
        if set == Set::Ebcdic {
            line.to_ebcdic();
        }
        if junk {
            line.junk(random, set, index == 0);
        }
        if index == 0 && set == Set::Ebcdic && line.body.len() >= 2 && (junk || random.percent(70)) {
            line.body[..2].copy_from_slice(&[0xF0, 0xF1]);
        }
    }
}

/// An accepted file as the text of its own draft.
fn own(random: &mut Random, set: Set) -> (Vec<u8>, Vec<u64>) {
    let shape = random.pick(&["sound", "sound", "credit"]);
    let file = in_set(set, stream::shaped(random, shape, 0).bytes);
    let mut numbers = vec![0; lines_of_file(&file).len() * ROW];
    draft_of(&file, &mut numbers);
    (file, numbers)
}

/// A file of the reader's stream, sound or damaged, as the text of the draft that its lengths frame.
fn from_stream(random: &mut Random, set: Set) -> (Vec<u8>, Vec<u64>) {
    let (turn, place) = (random.below(1_000), random.below(stream::ROUND));
    let file = in_set(set, stream::in_round(random, turn, place).bytes);
    let lines = lines_of_file(&file);
    let (_, mut numbers) = lay(random, &lines, Manner::AsFile, None);
    let mut offset = 0;
    for (row, line) in numbers.chunks_exact_mut(ROW).zip(&lines) {
        row[1] = offset + 4;
        offset += 4 + line.body.len() as u64;
    }
    (file, numbers)
}

/// Rows that end before the 99, by turns after each type, and none at all.
fn end(random: &mut Random, turn: usize) -> Vec<Line> {
    let Some(code) = CARRIED.get(turn % CARRIED.len()).copied().filter(|code| *code != 99) else {
        return Vec::new();
    };
    let (records, index) = harm::holding(random, &Wish::holding(code), code);
    lines_of(&records[..=index])
}

/// A record of each type, carried or not, behind the 99.
fn behind(random: &mut Random, turn: usize) -> Vec<Line> {
    let mut lines = sound_lines(random);
    let place = turn % (CARRIED.len() + 1);
    lines.push(match CARRIED.get(place) {
        Some(code) => Line::of(&record(random, *code, 9)),
        None => Line { code: at(&STRANGE, turn), ..lines[0].clone() },
    });
    if random.percent(30) {
        let more = lines.clone();
        lines.extend(more);
    }
    lines
}

/// Numbers that are no carried type: some near one, some whose low bits are one.
pub const STRANGE: [u64; 18] = {
    let low = [0, 2, 9, 53, 98, 100, 257, 266, (1 << 32) + 25, u64::MAX];
    let mut all = [0; 18];
    let mut place = 0;
    while place < all.len() {
        all[place] = if place < low.len() { low[place] } else { NOT_CARRIED[place - low.len()] as u64 };
        place += 1;
    }
    all
};

/// A type that is not carried: one of the list, or a lawful one with bits above it.
fn strange(random: &mut Random, turn: usize) -> Vec<Line> {
    let mut lines = sound_lines(random);
    let index = random.below(lines.len());
    let code = lines[index].code;
    let with_bits = [code + (1 << 8), code + (1 << 16), code + (1 << 32), code + (1 << 63)];
    let strange = if turn.is_multiple_of(3) { random.pick(&with_bits) } else { at(&STRANGE, turn - turn / 3) };
    if random.percent(60) {
        lines[index].code = strange;
    } else {
        let line = Line { code: strange, ..lines[index].clone() };
        lines.insert(index, line);
    }
    lines
}

/// Rows dropped, doubled, swapped, moved, or a stranger among them.
fn shuffle(random: &mut Random, lines: &mut Vec<Line>) {
    if lines.len() < 2 {
        return;
    }
    let index = random.below(lines.len());
    match random.below(5) {
        0 => {
            lines.remove(index);
        }
        1 => lines.insert(index, lines[index].clone()),
        2 => {
            let other = random.below(lines.len());
            lines.swap(index, other);
        }
        3 => {
            let moved = lines.remove(index);
            lines.insert(random.below(lines.len() + 1), moved);
        }
        _ => {
            let code = random.pick(&CARRIED);
            lines.insert(index, Line::of(&record(random, code, 20)));
        }
    }
}

/// Several damages at once: the order of checks decides.
fn several(random: &mut Random) -> Vec<Line> {
    let mut records = sound(random, &Wish::any());
    for _ in 0..random.between(1, 3) {
        harm::anything(random, &mut records);
    }
    let mut lines = lines_of(&records);
    for _ in 0..random.below(3) {
        let index = random.below(lines.len().max(1));
        match lines.get_mut(index) {
            Some(line) if random.percent(50) => line.sizes[random.below(7)] = outgrow::large_size(random),
            Some(_) => shuffle(random, &mut lines),
            None => {}
        }
    }
    lines
}

/// Starts and sizes at the edges of 64 bits and of the text.
fn near(random: &mut Random, set: Set, turn: usize) -> (Vec<u8>, Vec<u64>) {
    let code = at(&CARRIED, turn);
    let (records, index) = harm::holding(random, &Wish::holding(code), code);
    let (text, mut numbers) = finish(random, set, lines_of(&records));
    let size = text.len() as u64;
    let row = &mut numbers[index * ROW..(index + 1) * ROW];
    let fixed = records[index].layout().fixed as u64;
    let back = random.draw() % (fixed + 3);
    match random.below(6) {
        0 | 5 => row[1] = u64::MAX - back,
        1 => row[1] = size.wrapping_sub(back),
        2 => row[1] = random.pick(&[size, size + 1, 1 << 32, 1 << 63, (1 << 32) + row[1], u64::MAX]),
        3 => row[3 + random.below(7)] = outgrow::large_size(random),
        _ => {
            // Sizes whose sum wraps round to what it was.
            let (one, other) = (random.below(6), random.below(6));
            row[3 + one] = row[3 + one].wrapping_add(1 << 63);
            row[3 + other] = row[3 + other].wrapping_add(1 << 63);
        }
    }
    (text, numbers)
}

/// A text that ends too early.
fn cut(random: &mut Random, set: Set) -> (Vec<u8>, Vec<u64>) {
    let lines = sound_lines(random);
    let (mut text, numbers) = finish(random, set, lines);
    let keep = match random.below(4) {
        0 => random.below(90),
        1 => text.len() - random.between(1, 90).min(text.len()),
        _ => random.below(text.len()),
    };
    text.truncate(keep);
    (text, numbers)
}

/// Flags of every sort, on 70s and on others.
fn flags(random: &mut Random, set: Set) -> (Vec<u8>, Vec<u64>) {
    let lines = sound_lines(random);
    let (text, mut numbers) = finish(random, set, lines);
    for row in numbers.chunks_exact_mut(ROW) {
        row[2] = random.pick(&[0, 1, 1, 2, 257, (1 << 32) + 1, u64::MAX]);
    }
    (text, numbers)
}

/// Numbers after the last whole row, fewer than a row, no text.
fn tail(random: &mut Random, set: Set, turn: usize) -> (Vec<u8>, Vec<u64>) {
    let lines = sound_lines(random);
    let (mut text, mut numbers) = finish(random, set, lines);
    match turn % 4 {
        0 => numbers.truncate(random.below(ROW)),
        1 => numbers.truncate(random.below(numbers.len())),
        2 => text.clear(),
        _ => numbers.extend((0..random.between(1, ROW - 1)).map(|_| random.pick(&[0, 1, 99, u64::MAX]))),
    }
    (text, numbers)
}

/// A few bytes or numbers changed.
fn flip(random: &mut Random, set: Set) -> (Vec<u8>, Vec<u64>) {
    let lines = sound_lines(random);
    let (mut text, mut numbers) = finish(random, set, lines);
    for _ in 0..random.between(1, 3) {
        if random.percent(50) {
            let place = random.below(text.len());
            text[place] = random.pick(&[random.clone().byte(), b' ', b'0', 0x40, 0xF0, text[place] ^ 1]);
        } else {
            let place = random.below(numbers.len());
            numbers[place] = match random.below(4) {
                0 => random.draw(),
                1 => numbers[place].wrapping_add(1),
                2 => numbers[place].wrapping_sub(1),
                _ => random.draw() % 100,
            };
        }
    }
    (text, numbers)
}

#[cfg(test)]
mod tests {
    use super::*;
    use crate::write::judge;
    use peer_reader::descent::Number;

    #[test]
    fn a_seed_and_an_index_give_the_same_draft_again() {
        for index in (0..300).chain([1_250]) {
            let (one, other) = (draft(3, index), draft(3, index));
            assert!(one.text == other.text && one.numbers == other.numbers, "draft {index}");
        }
        assert!((0..64).any(|index| draft(3, index).text != draft(4, index).text));
    }

    #[test]
    fn the_shapes_are_those_of_the_turns() {
        let named = |shapes: &[&'static str]| shapes.iter().copied().collect::<std::collections::BTreeSet<_>>();
        assert_eq!(named(&SHAPES), named(&TURNS));
    }

    /// Sound lines in any manner, set and junk, and an accepted file as its own draft.
    #[test]
    fn sound_drafts_are_written() {
        for index in 0..600 {
            let mut random = Random::for_file(5, index);
            let made = shaped(&mut random, if index % 3 == 0 { "own" } else { "sound" }, index as usize);
            let answer = judge(&made.text, &made.numbers).answer;
            assert_eq!(answer.number, Number::Accepted, "draft {index}: {answer:?}");
        }
    }
}
