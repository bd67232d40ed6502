//! The salvage: the proved call on files sound and torn, beside the proved reading of the sound file of the same size, and how its time grows.

use std::hint::black_box;

use peer_salvage::salvage::outcome;

use crate::contenders::{allocations, proved, proved_salvage, Answer};
use crate::inputs::{file, Shape, AGAIN, MIB};
use crate::timing::{ratio, rounds, tell_times};

/// In MiB.
const SIZES: [usize; 5] = [1, 4, 16, 64, 200];

/// Up to this size the outcome is held against the independent salvage's before anything is timed.
const AGREED: usize = 16;

/// The numbers of a row of the list, and of a table.
const LIST_ROW: usize = 4;
const TABLE_ROW: usize = 7;

/// What is done to a sound file before it is salvaged.
type Tear = fn(Vec<u8>) -> Vec<u8>;

const CASES: [(&str, Shape, Tear); 5] = [
    ("with pictures, sound", Shape::Pictures, |whole| whole),
    ("without pictures, sound", Shape::NoPictures, |whole| whole),
    ("lockbox deposits, cut off in the last bundle", Shape::Lockbox, cut_off),
    ("lockbox deposits, every other bundle unsound", Shape::Lockbox, spoiled),
    ("20s without a 70, and nothing else", Shape::NoPictures, headers_alone),
];

/// What is lent, touched throughout before anything is timed.
pub struct Lent {
    out: Vec<u8>,
    list: Vec<u64>,
    table: Vec<u64>,
}

impl Lent {
    pub fn new() -> Lent {
        // A record of a sound file has at least 77 bytes.
        let rows = SIZES[4] * MIB / 77;
        Lent { out: vec![1; SIZES[4] * MIB + 4_096], list: vec![1; rows * LIST_ROW], table: vec![1; rows * TABLE_ROW] }
    }
}

/// The records that the lengths of a file frame, with their lengths.
fn records(whole: &[u8]) -> impl Iterator<Item = &[u8]> {
    let mut left = whole;
    std::iter::from_fn(move || {
        let length = u32::from_be_bytes(*left.first_chunk()?) as usize;
        let (record, rest) = left.split_at_checked(4 + length)?;
        left = rest;
        Some(record)
    })
}

/// The last 70 with all behind it has not come, nor the half of the record before it.
fn cut_off(mut whole: Vec<u8>) -> Vec<u8> {
    let (mut at, mut last) = (0, 0);
    for record in records(&whole) {
        last = if record[4..].starts_with(b"70") { at } else { last };
        at += record.len();
    }
    whole.truncate(last - 40);
    whole
}

/// In every other bundle the count of debits in the 70, positions 3 to 6, is another.
fn spoiled(mut whole: Vec<u8>) -> Vec<u8> {
    let (mut at, mut bundles, mut places) = (0, 0, Vec::new());
    for record in records(&whole) {
        if record[4..].starts_with(b"70") {
            bundles += 1;
            places.extend((bundles % 2 == 0).then_some(at + 4 + 5));
        }
        at += record.len();
    }
    places.into_iter().for_each(|place| whole[place] = if whole[place] == b'0' { b'1' } else { b'0' });
    whole
}

/// The 01 and the first 10, as one of N, and the first 20 again and again.
fn headers_alone(whole: Vec<u8>) -> Vec<u8> {
    let first = |code: &[u8]| records(&whole).find(|record| record[4..].starts_with(code)).expect("a header").to_vec();
    let mut letter = first(b"10");
    letter[4 + 42] = b'N';
    let (mut torn, bundle) = ([first(b"01"), letter].concat(), first(b"20"));
    while torn.len() + bundle.len() <= whole.len() {
        torn.extend(&bundle);
    }
    torn
}

/// All tables of the salvage.
pub fn tables(seed: u64, lent: &mut Lent) {
    let heads = SIZES.map(|size| format!(" {size} MiB |")).concat();
    let mut grown = Vec::new();
    println!("| salvaged | records walked at 200 MiB, written |{heads}");
    println!("|---|---|---|---|---|---|---|");
    for (name, shape, tear) in CASES {
        let (told, ratios, growth) = case(name, seed, shape, tear, lent);
        println!("| {name}: salvage / reading | {told} |{ratios}");
        grown.push(format!("| {name} |{growth}"));
    }
    println!();
    println!("| salvage, time for a MiB |{heads}");
    println!("|---|---|---|---|---|---|");
    grown.iter().for_each(|line| println!("{line}"));
    println!();
}

/// Every case at the second size once, for the small stack.
pub fn once(seed: u64, lent: &mut Lent) {
    for (_, shape, tear) in CASES {
        black_box(salvaged(&tear(file(seed, shape, SIZES[1] * MIB)), lent));
    }
}

fn salvaged(torn: &[u8], lent: &mut Lent) -> Answer {
    proved_salvage(black_box(torn), &mut lent.out, &mut lent.list)
}

/// One case at all sizes, in turn over salvage and reading and over the sizes.
fn case(name: &str, seed: u64, shape: Shape, tear: Tear, lent: &mut Lent) -> (String, String, String) {
    let sound = SIZES.map(|size| file(seed, shape, size * MIB));
    let torn = sound.clone().map(tear);
    for (size, torn) in SIZES.iter().zip(&torn) {
        agreed(*size, torn, lent);
    }
    let answer = salvaged(&torn[4], lent);
    let told = format!("{}, {}", records(&torn[4]).count(), answer[1]);
    let (calls, _) = allocations(|| _ = salvaged(&torn[4], lent));
    assert_eq!(calls, 0, "the proved call allocates");
    let count = SIZES.len();
    let times = rounds(0.0, 2 * count, |turn| {
        for _ in 0..AGAIN[turn % count] {
            match turn < count {
                true => black_box(salvaged(&torn[turn], lent)),
                false => black_box(proved(black_box(&sound[turn - count]), &mut lent.table)),
            };
        }
    });
    // For a byte, so that a file that is shorter for being torn counts for what it is.
    let per_byte = |turn: usize| -> Vec<f64> {
        let bytes = if turn < count { torn[turn].len() } else { sound[turn - count].len() };
        let all = (bytes * AGAIN[turn % count]) as f64;
        times[turn].iter().map(|time| time / all).collect()
    };
    eprintln!("{name}:");
    for (who, from) in [("salvage", 0), ("reading", count)] {
        for (at, size) in SIZES.iter().enumerate() {
            let once: Vec<f64> = times[from + at].iter().map(|time| time / AGAIN[at] as f64).collect();
            let file = if from == 0 { &torn[at] } else { &sound[at] };
            tell_times(&format!("{who}, {size} MiB"), &once, file.len(), records(file).count() as u64);
        }
    }
    let ratios = (0..count).map(|at| format!(" {} |", ratio(&per_byte(at), &per_byte(count + at))));
    let growth = (0..count).map(|at| format!(" {} |", ratio(&per_byte(at), &per_byte(0))));
    (told, ratios.collect(), growth.collect())
}

/// The outcome is the independent salvage's, and what is written is read with the same answer.
fn agreed(size: usize, torn: &[u8], lent: &mut Lent) {
    let answer = salvaged(torn, lent);
    assert_eq!(answer[0], 0, "the proved library refuses: {answer:?}");
    let written = &lent.out[..answer[3] as usize];
    assert_eq!(proved(written, &mut lent.table), answer, "what is written is read with another answer");
    if size <= AGREED {
        let expected = outcome(torn);
        assert_eq!(answer, expected.answer, "the answers differ");
        assert!(written == expected.file, "other bytes are written");
        assert!(lent.list.chunks(LIST_ROW).zip(&expected.list).all(|(row, due)| row == due), "the lists differ");
    }
}
