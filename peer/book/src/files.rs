//! The files that histories put to the book: those of the reader's generator, sound and damaged, in either set.

use peer_reader::charset::Set;
use peer_reader::ebcdic::in_set;
use peer_reader::make::{encode, sound, Wish};
use peer_reader::random::Random;
use peer_reader::stream;

use crate::layout::{Figures, ROOM};
use crate::paper::Paper;

/// The reader's numbers that a file alone brings about: all but ACCEPTED and ROOM.
pub const REFUSALS: [u64; 10] = [1, 3, 4, 5, 6, 7, 8, 9, 10, 11];

/// Turns from which the reader's generator chooses the target of a damage.
const MANY_TURNS: usize = 100_000;

/// One file in three is EBCDIC.
fn in_some_set(random: &mut Random, ascii: Vec<u8>) -> Paper {
    let set = if random.percent(33) { Set::Ebcdic } else { Set::Ascii };
    Paper::new(in_set(set, ascii))
}

/// A sound file with so many letters, the least and the most.
pub fn sound_paper(random: &mut Random, letters: (usize, usize)) -> Paper {
    let wish = match random.below(4) {
        0 => Wish { letters, contents: b"N", ..Wish::any() },
        1 => Wish { letters, credits: 70, ..Wish::any() },
        2 => Wish { letters, bundles: (1, 4), items: (1, 1), ..Wish::any() },
        _ => Wish { letters, ..Wish::any() },
    };
    let records = sound(random, &wish);
    in_some_set(random, encode(&records))
}

/// A sound file in which every letter is likely to have all six figures, and that is as it is wished for.
pub fn rich_paper(random: &mut Random, letters: (usize, usize), wished: impl Fn(&[Figures]) -> bool) -> Paper {
    let wish = Wish { letters, credits: 100, credit_views: 80, contents: b"IF", image: 10, ..Wish::any() };
    loop {
        let records = sound(random, &wish);
        let paper = in_some_set(random, encode(&records));
        if wished(&paper.letters) {
            return paper;
        }
    }
}

/// Many letters that hold nothing but some credits.
pub fn many_letters(random: &mut Random) -> Paper {
    let wish = Wish { letters: (9, 30), contents: b"N", credits: 40, credit_views: 20, ..Wish::any() };
    let records = sound(random, &wish);
    in_some_set(random, encode(&records))
}

/// A file that the reader refuses with this number.
pub fn refused_paper(random: &mut Random, number: u64) -> Paper {
    let shape = match number {
        1 => return Paper::new(Vec::new()),
        3 => "cut",
        4 => "length",
        5 => "type",
        6 => "place",
        7 => "field",
        8 => "link",
        9 => "total",
        10 => "open",
        _ => "after",
    };
    loop {
        let turn = random.below(MANY_TURNS);
        let made = stream::shaped(random, shape, turn);
        let paper = in_some_set(random, made.bytes);
        if paper.reading.answer.number as u64 == number {
            return paper;
        }
    }
}

/// Any file of the reader's stream, three in five of them sound.
pub fn any_paper(random: &mut Random) -> Paper {
    match random.below(20) {
        0 => many_letters(random),
        1..=7 => sound_paper(random, (1, 3)),
        8 | 9 => rich_paper(random, (1, 4), |_| true),
        10 | 11 => {
            let shape = random.pick(&["sound", "credit", "edge"]);
            let turn = random.below(MANY_TURNS);
            let made = stream::shaped(random, shape, turn);
            in_some_set(random, made.bytes)
        }
        12 | 13 => {
            let number = random.pick(&REFUSALS);
            refused_paper(random, number)
        }
        _ => {
            let (turn, place) = (random.below(MANY_TURNS), random.below(stream::ROUND));
            let made = stream::in_round(random, turn, place);
            in_some_set(random, made.bytes)
        }
    }
}

/// The length of a row table that is more than enough.
pub fn ample(random: &mut Random, paper: &Paper) -> usize {
    7 * paper.reading.rows.len() + random.below(30)
}

/// The lengths of row tables that lack a number, a row, or all.
pub fn short_tables(paper: &Paper) -> [usize; 3] {
    let enough = 7 * paper.reading.rows.len();
    [enough.saturating_sub(1), enough.saturating_sub(7), 0]
}

/// The number that the reader gives for a file and a row table of this length.
pub fn read_number(paper: &Paper, rows: usize) -> u64 {
    let number = paper.reading.with_rows(rows / 7).number as u64;
    debug_assert!(number != ROOM || paper.accepted());
    number
}
