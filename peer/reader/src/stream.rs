//! The stream of files of one run: the seed and a file's index give the file.

use crate::brim::{self, Stated};
use crate::harm;
use crate::layout::CARRIED;
use crate::make::{encode, sound, Rec, Wish};
use crate::random::Random;

/// A file and how it was made.
pub struct Made {
    pub shape: &'static str,
    pub bytes: Vec<u8>,
}

/// The shapes that `make_file --kind` takes.
pub const SHAPES: [&str; 19] = [
    "sound", "credit", "field", "routing", "place", "link", "total", "slip", "both", "length", "cut", "open", "after",
    "shuffle", "type", "noise", "flip", "several", "edge",
];

/// Shapes by turn: about a quarter sound, the rest damaged.
const TURNS: [&str; 48] = [
    "sound", "sound", "sound", "sound", "sound", "sound", "sound", "sound", "sound", "sound", "credit", "credit",
    "field", "field", "field", "field", "field", "field", "routing", "routing", "place", "place", "place", "place",
    "place", "link", "link", "link", "link", "total", "total", "slip", "slip", "both", "both", "both", "length", "cut",
    "open", "after", "shuffle", "type", "noise", "flip", "flip", "several", "several", "edge",
];

/// One in so many files is a large one.
const RARE: u64 = 5_000;

/// The file of this index in the run of this seed.
pub fn file(seed: u64, index: u64) -> Made {
    let mut random = Random::for_file(seed, index);
    if index % RARE == RARE / 2 {
        return rare(&mut random, (index / RARE) as usize);
    }
    in_round(&mut random, (index / ROUND as u64) as usize, (index % ROUND as u64) as usize)
}

/// The files of a round.
pub const ROUND: usize = TURNS.len();

/// The file at a place of a round.
pub fn in_round(random: &mut Random, turn: usize, place: usize) -> Made {
    let shape = TURNS[place];
    // Turns of the same shape in one round take different targets.
    let alike = TURNS.iter().filter(|other| **other == shape).count();
    let before = TURNS[..place].iter().filter(|other| **other == shape).count();
    shaped(random, shape, turn * alike + before)
}

/// A file of this shape; the turn chooses the target where a shape has many.
pub fn shaped(random: &mut Random, shape: &str, turn: usize) -> Made {
    match shape {
        "field" => made("field", harm::field_file(random, at(&harm::field_targets(), turn))),
        "routing" => made("routing", harm::routing_file(random, at(&harm::routing_targets(), turn))),
        "place" => made("place", harm::place_file(random, at(&harm::place_targets(), turn))),
        "link" => made("link", harm::link_file(random, at(&harm::link_targets(), turn))),
        "total" => made("total", harm::total_file(random, at(&harm::total_targets(), turn))),
        "slip" => made("slip", harm::slip_file(random, at(&harm::slip_targets(), turn))),
        "both" => made("both", harm::both_file(random, at(&harm::both_targets(), turn))),
        "length" => {
            let code = CARRIED[turn % CARRIED.len()];
            made("length", harm::length_file(random, code, turn / CARRIED.len() % harm::LENGTH_SORTS))
        }
        "cut" => cut(random, turn),
        "open" => open(random, turn),
        "after" => after(random),
        "shuffle" => {
            let mut records = sound(random, &Wish::any());
            for _ in 0..random.between(1, 2) {
                harm::shuffle(random, &mut records);
            }
            made("shuffle", records)
        }
        "type" => strange(random, turn),
        "noise" => noise(random),
        "flip" => flip(random),
        "several" => several(random),
        "edge" => edge(random, turn),
        "credit" => made("credit", any_credits(random)),
        _ => made("sound", any_sound(random)),
    }
}

fn at<T: Copy>(targets: &[T], turn: usize) -> T {
    targets[turn % targets.len()]
}

fn made(shape: &'static str, records: Vec<Rec>) -> Made {
    Made { shape, bytes: encode(&records) }
}

/// Sound files of many shapes.
fn any_sound(random: &mut Random) -> Vec<Rec> {
    let mut wish = Wish::any();
    match random.below(8) {
        0 => wish.contents = b"N",
        1 => wish.contents = b"E",
        2 => (wish.items, wish.contents) = ((1, 12), b"E"),
        3 => (wish.letters, wish.bundles, wish.items) = ((2, 5), (1, 4), (1, 1)),
        4 => (wish.addenda, wish.extras) = ((0, 9), 80),
        5 => (wish.views, wish.image) = ((1, 5), 900),
        6 => (wish.letters, wish.bundles, wish.items) = ((1, 1), (1, 1), (1, 1)),
        _ => {}
    }
    sound(random, &wish)
}

/// Sound files with 61s at many places.
fn any_credits(random: &mut Random) -> Vec<Rec> {
    let mut wish = Wish { credits: 70, letters: (1, 2), ..Wish::any() };
    match random.below(6) {
        0 => wish.contents = b"N",
        1 => wish.contents = b"E",
        2 => (wish.credits, wish.credit_views) = (100, 80),
        3 => (wish.bundles, wish.items, wish.credit_views) = ((2, 4), (1, 1), 0),
        _ => {}
    }
    sound(random, &wish)
}

/// Bytes that end within a record or its length, by turns within each type.
fn cut(random: &mut Random, turn: usize) -> Made {
    let code = CARRIED[turn / 2 % CARRIED.len()];
    loop {
        let records = sound(random, &Wish::holding(code));
        let Some(index) = harm::some(random, &records, code) else {
            continue;
        };
        let start = encode(&records[..index]).len();
        let length = records[index].body.len();
        let keep = if turn.is_multiple_of(2) { random.between(1, 3) } else { 4 + random.below(length) };
        let mut bytes = encode(&records);
        bytes.truncate(start + keep);
        return Made { shape: "cut", bytes };
    }
}

/// Bytes that end at a record boundary, by turns after each type.
fn open(random: &mut Random, turn: usize) -> Made {
    let code = CARRIED[turn % (CARRIED.len() - 1)];
    loop {
        let mut records = sound(random, &Wish::holding(code));
        if let Some(index) = harm::some(random, &records, code) {
            records.truncate(index + 1);
            return made("open", records);
        }
    }
}

/// A sound file and something more.
fn after(random: &mut Random) -> Made {
    let mut bytes = encode(&any_sound(random));
    match random.below(4) {
        0 => bytes.push(random.pick(b"\0 \n")),
        1 => {
            let more = bytes.clone();
            bytes.extend(more);
        }
        2 => bytes.extend([0, 0, 0, 0]),
        _ => {
            let count = random.between(1, 200);
            bytes.extend((0..count).map(|_| random.byte()));
        }
    }
    Made { shape: "after", bytes }
}

/// A record whose type is none that is carried.
fn strange(random: &mut Random, turn: usize) -> Made {
    let mut records = any_sound(random);
    let index = random.below(records.len());
    let name = harm::strange_type(random, turn);
    if random.percent(50) {
        records[index].body[..2].copy_from_slice(&name);
    } else {
        let mut other = records[index].clone();
        other.body[..2].copy_from_slice(&name);
        records.insert(index, other);
    }
    made("type", records)
}

/// Bytes without sense, some behind a plausible start.
fn noise(random: &mut Random) -> Made {
    let mut bytes = match random.below(4) {
        0 => Vec::new(),
        1 => vec![0, 0, 0, 80],
        2 => b"\0\0\0\x5001".to_vec(),
        _ => {
            let records = any_sound(random);
            let keep = random.below(records.len());
            encode(&records[..keep])
        }
    };
    let count = random.below(300);
    match random.below(3) {
        0 => bytes.extend((0..count).map(|_| random.byte())),
        1 => bytes.extend((0..count).map(|_| random.pick(b"0123 \0"))),
        _ => {
            bytes.extend(harm::hostile(random).to_be_bytes());
            bytes.extend((0..count).map(|_| random.pick(b"0125 ")));
        }
    }
    Made { shape: "noise", bytes }
}

/// A sound file with a few bytes changed.
fn flip(random: &mut Random) -> Made {
    let mut bytes = encode(&any_sound(random));
    for _ in 0..random.between(1, 3) {
        let place = random.below(bytes.len());
        bytes[place] = match random.below(4) {
            0 => random.byte(),
            1 => random.digit(),
            2 => b' ',
            _ => bytes[place] ^ (1 << random.below(8)),
        };
    }
    Made { shape: "flip", bytes }
}

/// Several damages at once, in one record or in many: the order of checks decides.
fn several(random: &mut Random) -> Made {
    let mut records = any_sound(random);
    let focus = random.below(records.len());
    let together = random.percent(60);
    for _ in 0..random.between(2, 5) {
        if together && focus < records.len() {
            harm::one_record(random, &mut records, focus);
        } else {
            harm::anything(random, &mut records);
        }
    }
    made("several", records)
}

/// The edges that have nothing to do with 61s, and all.
const PLAIN_EDGES: usize = 14;
const EDGES: usize = PLAIN_EDGES + brim::SMALL_SORTS;

/// Edges that stay small.
fn edge(random: &mut Random, turn: usize) -> Made {
    let content = random.pick(b"EI");
    let mut run = |kind, first, second, stated| harm::long_run(random, kind, first, second, stated, content);
    if turn % EDGES >= PLAIN_EDGES {
        return Made { shape: "edge", bytes: brim::small(random, turn % EDGES - PLAIN_EDGES) };
    }
    let records = match turn % EDGES {
        0 => run(25, 0, 99, 99),
        1 => run(31, 0, 98, 99),
        2 => run(25, 0, 100, 99),
        3 => run(31, 0, 99, 99),
        4 => run(25, 9, 90, 99),
        5 => run(31, 9, 89, 99),
        6 => run(25, 10, 0, 10),
        7 => run(31, 10, 0, 11),
        8 => run(25, 9, 0, 9),
        9 => run(31, 9, 0, 10),
        10 => return beyond_twelve_digits(random),
        11 => sound(random, &Wish { letters: (9, 30), contents: b"N", ..Wish::any() }),
        12 => sound(random, &Wish { bundles: (9, 20), items: (1, 1), views: (1, 1), letters: (1, 1), ..Wish::any() }),
        _ => return Made { shape: "edge", bytes: Vec::new() },
    };
    made("edge", records)
}

/// 101 items of the largest amount: the sum has thirteen digits, its last twelve are stated.
fn beyond_twelve_digits(random: &mut Random) -> Made {
    let wish =
        Wish { letters: (1, 1), bundles: (1, 1), addenda: (0, 0), extras: 0, contents: b"E", ..Wish::no_credits() };
    let wish = Wish { items: (101, 101), kinds: &[25], ..wish };
    let mut records = sound(random, &wish);
    let count = random.pick(&[100, 101]);
    for item in records.iter_mut().filter(|record| record.code == 25).take(count) {
        item.set_number(6, 9_999_999_999);
        item.set(10, b"2");
    }
    for item in records.iter_mut().filter(|record| record.code == 25).skip(count) {
        item.set_number(6, 100);
        item.set(10, b" ");
    }
    let cents = count as u64 * 9_999_999_999 + (101 - count as u64) * 100;
    for record in &mut records {
        match record.code {
            70 => {
                record.set_number(3, cents);
                record.set_number(4, 0);
            }
            90 => record.set_number(4, cents),
            99 => record.set_number(5, cents),
            _ => {}
        }
    }
    made("edge", records)
}

/// The large files: some without 61s, 9,999 and 10,000 of them in a bundle, and sums of theirs that pass 64 bits.
pub const RARE_SORTS: usize = 14;

pub fn rare(random: &mut Random, turn: usize) -> Made {
    let plain =
        Wish { letters: (1, 1), bundles: (1, 1), addenda: (0, 0), extras: 0, views: (1, 1), ..Wish::no_credits() };
    let many = Wish { items: (9_999, 9_999), contents: b"E", kinds: &[25], amount: 9_999, ..plain.clone() };
    match turn % RARE_SORTS {
        0 => made("rare: 9,999 items", sound(random, &many)),
        1 => made("rare: 10,000 items", sound(random, &Wish { items: (10_000, 10_000), ..many })),
        2 => largest_image(random, &plain),
        3 => made("rare: 9,999 returns", sound(random, &Wish { kinds: &[31], ..many })),
        4 => {
            let bundles = Wish { bundles: (2_000, 2_000), items: (1, 1), contents: b"E", ..plain };
            made("rare: 2,000 bundles", sound(random, &bundles))
        }
        5 => {
            let letters = Wish { letters: (2_000, 2_000), contents: b"N", ..plain };
            made("rare: 2,000 cash letters", sound(random, &letters))
        }
        6 => many_views(random, &plain),
        7 => large("rare: 9,999 credits", brim::bundle_of_many(random, 9_999)),
        8 => large("rare: 10,000 credits", brim::bundle_of_many(random, 10_000)),
        9 => large("rare: a letter's credits past 64 bits", brim::letter_past_64_bits(random, false, Stated::Wrapped)),
        10 => large("rare: a letter's debits past 64 bits", brim::letter_past_64_bits(random, true, Stated::Wrapped)),
        11 => large("rare: a file's credits past 64 bits", brim::file_past_64_bits(random, false)),
        12 => large("rare: a file's debits past 64 bits", brim::file_past_64_bits(random, true)),
        _ => {
            let debit = random.percent(50);
            large("rare: a bundle's 61s past 64 bits", brim::bundle_past_64_bits(random, debit))
        }
    }
}

fn large(shape: &'static str, bytes: Vec<u8>) -> Made {
    Made { shape, bytes }
}

/// One view of 9,999,999 image bytes.
fn largest_image(random: &mut Random, plain: &Wish) -> Made {
    let mut records = sound(random, &Wish { items: (1, 1), contents: b"F", ..plain.clone() });
    let data = records.iter_mut().find(|record| record.code == 52).expect("a view");
    set_image(data, 9_999_999, random.byte());
    made("rare: 9,999,999 image bytes", records)
}

/// Gives a 52 an image of this many bytes.
pub fn set_image(data: &mut Rec, length: usize, fill: u8) {
    put_image(data, &vec![fill; length]);
}

/// Gives a 52 this image.
pub fn put_image(data: &mut Rec, bytes: &[u8]) {
    let layout = data.layout();
    let image = layout.parts.iter().find(|part| part.number == 27).expect("field 27");
    let start = crate::judge::part_start(layout, &data.body, image);
    let before = crate::judge::part_length(layout, &data.body, image) as usize;
    data.body.splice(start..start + before, bytes.iter().copied());
    data.set_number(20, bytes.len() as u64);
}

/// 99,999 or 100,000 views of one item: five digits hold the first only.
fn many_views(random: &mut Random, plain: &Wish) -> Made {
    let count = random.pick(&[99_999, 100_000]);
    let wish = Wish { items: (1, 1), views: (count, count), contents: b"I", image: 0, ..plain.clone() };
    made("rare: 100,000 views", sound(random, &wish))
}
