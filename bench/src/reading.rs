//! The reader: the proved one beside the independent one and a plain walk of memory.

use std::hint::black_box;

use peer_reader::charset::EBCDIC_CARRIED;

use crate::contenders::{allocations, independent, proved, walk, Answer};
use crate::inputs::{file, Batch, Shape, AGAIN, COPIES, MIB, SIZES};
use crate::timing::{ratio, rounds, tell_growth, tell_times};

/// Reads one file into a table.
pub type Reader = fn(&[u8], &mut [u64]) -> Answer;

/// The rows of the longest file here: 256 MiB of records of 80 bytes, and some.
const ROWS: usize = 3_400_000;

/// All tables of the reader.
pub fn tables(seed: u64, inputs: &[(&str, &Batch)]) {
    // Lent tables, touched throughout before anything is timed.
    let (mut table, mut other) = (vec![1; ROWS * 7], vec![2; ROWS * 7]);
    println!("| input | independent / proved | proved / memory walk |");
    println!("|---|---|---|");
    for (name, batch) in inputs {
        println!("| {name} | {} |", ratios(name, batch, &mut table, &mut other, 6.0));
    }
    if EBCDIC_CARRIED {
        cases_in_ebcdic(inputs, &mut table, &mut other);
    }
    println!();
    println!("| proved, time for a MiB | 1 MiB | 4 MiB | 16 MiB | 64 MiB | 256 MiB |");
    println!("|---|---|---|---|---|---|");
    growth("with pictures", seed, Shape::Pictures, &mut table, &mut other);
    growth("without pictures", seed, Shape::NoPictures, &mut table, &mut other);
    println!();
}

/// Every input once.
pub fn once(inputs: &[(&str, &Batch)], table: &mut [u64]) {
    inputs.iter().for_each(|(_, batch)| run(proved, batch, table));
}

pub fn run(reader: Reader, batch: &Batch, table: &mut [u64]) {
    for file in batch.files() {
        black_box(reader(black_box(file), table));
    }
}

/// Both readers accept every file of a batch with equal answers and rows. Gives the records of all.
fn agreed(batch: &Batch, table: &mut [u64], other: &mut [u64]) -> u64 {
    let mut records = 0;
    for file in batch.files() {
        let answer = proved(file, table);
        assert_eq!(answer[0], 0, "the proved library refuses: {answer:?}");
        assert_eq!(answer, independent(file, other), "the answers differ");
        let numbers = answer[4] as usize * 7;
        assert!(table[..numbers] == other[..numbers], "the rows differ");
        assert_eq!(walk(file, table)[1], answer[4], "the walk counts other records");
        records += answer[4];
    }
    records
}

/// Every contender in turn on one input.
fn ratios(name: &str, batch: &Batch, table: &mut [u64], other: &mut [u64], budget: f64) -> String {
    let records = agreed(batch, table, other);
    let readers: [(&str, Reader); 3] = [("proved", proved), ("independent", independent), ("walk", walk)];
    eprintln!("{name}: {} files, {} bytes, {records} records", batch.places.len(), batch.bytes.len());
    for (who, reader) in &readers[..2] {
        let (calls, bytes) = allocations(|| run(*reader, batch, table));
        eprintln!("  {who}: {calls} allocations of {bytes} bytes in all");
        assert!(*who != "proved" || calls == 0, "the proved call allocates");
    }
    let times = rounds(budget, readers.len(), |index| {
        let lent = if index == 0 { &mut *table } else { &mut *other };
        run(readers[index].1, batch, lent);
    });
    for ((who, _), times) in readers.iter().zip(&times) {
        tell_times(who, times, batch.bytes.len(), records);
    }
    format!("{} | {}", ratio(&times[1], &times[0]), ratio(&times[0], &times[2]))
}

/// The inputs in EBCDIC: the same table for them, and the proved reader's speed beside that in ASCII.
fn cases_in_ebcdic(inputs: &[(&str, &Batch)], table: &mut [u64], other: &mut [u64]) {
    println!();
    println!("| input in EBCDIC | independent / proved | proved / memory walk | proved, ASCII / EBCDIC |");
    println!("|---|---|---|---|");
    for (name, ascii) in inputs {
        let batch = ascii.in_ebcdic();
        let ratios = ratios(name, &batch, table, other, 6.0);
        let times = rounds(6.0, 2, |index| run(proved, [ascii, &batch][index], table));
        println!("| {name} | {ratios} | {} |", ratio(&times[0], &times[1]));
    }
}

/// The time for a MiB at each size beside that at the first, in turn over the sizes. A turn reads one file again and
/// again, or its copies one after the other: then a small file finds no more of itself in the caches than a large one.
fn growth(name: &str, seed: u64, shape: Shape, table: &mut [u64], other: &mut [u64]) {
    let files = SIZES.map(|size| Batch::one(file(seed, shape, size * MIB)));
    for batch in &files {
        agreed(batch, table, other);
    }
    let copies: Vec<Batch> = files.iter().zip(COPIES).map(|(one, count)| one.repeated(count)).collect();
    let turns: Vec<(&Batch, usize)> =
        files.iter().zip(AGAIN).chain(copies.iter().chain(&files[4..]).zip([1; 5])).collect();
    let mut read = |(batch, times): (&Batch, usize)| (0..times).for_each(|_| run(proved, batch, table));
    let mut times = rounds(0.0, turns.len(), |index| read(turns[index]));
    for ((batch, count), times) in turns.iter().zip(&mut times) {
        let mib = (batch.bytes.len() * count) as f64 / MIB as f64;
        times.iter_mut().for_each(|time| *time /= mib);
    }
    tell_growth(name, "a MiB", &times);
}
