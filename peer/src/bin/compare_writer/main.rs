//! Compares the proved writer with the independent one over many generated drafts, and both on the drafts of many files.
//! Use: compare_writer [--drafts N] [--seed S] [--save DIR] [--threads T] [--heavy]

mod check;
mod shrink;

use std::process::ExitCode;

use peer_reader::random::Random;
use peer_reader::{ebcdic, stream};

use peer_writer::draft::ROW;
use peer_writer::points::Tally;
use peer_writer::sheet::Made;
use peer_writer::{generate, large};

use proved::run::{on_threads, Case, Found, Options, Outcome, Program};
use proved::shrink::shrink as shrink_file;

use check::{check_draft, check_file, file_differs, Counts};

const PROGRAM: Program = Program {
    name: "compare_writer",
    things: "drafts",
    whole_run: 50_000,
    // Drafts of millions of rows besides, some hundred megabytes each.
    flags: &["--heavy"],
    side: "writer",
};

fn main() -> ExitCode {
    PROGRAM.run(|options, found| {
        let (mut tally, mut counts) = stream_of_drafts(options, found);
        if !options.flags.is_empty() {
            for sort in 0..large::HEAVY_SORTS as u64 {
                let made = large::heavy(&mut Random::for_file(options.seed, sort), sort as usize);
                put_draft(options, found, &made, ("heavy", sort), &mut tally, &mut counts);
            }
        }
        let missing = tally.missing();
        Outcome {
            counts: counts.in_words(),
            coverage: tally.report(),
            missing: missing.iter().map(|(set, point)| format!("not covered in {set:?}: {point:?}")).collect(),
        }
    })
}

/// Shares the drafts among the threads.
fn stream_of_drafts(options: &Options, found: &Found) -> (Tally, Counts) {
    let mut tally = Tally::default();
    let mut counts = Counts::default();
    let work = |first| work(options, found, first);
    on_threads(options.threads, work, |(part, counted)| {
        tally.add(&part);
        counts.add(&counted);
    });
    (tally, counts)
}

fn work(options: &Options, found: &Found, first: u64) -> (Tally, Counts) {
    let mut tally = Tally::default();
    let mut counts = Counts::default();
    for index in (first..options.count).step_by(options.threads as usize) {
        if found.enough() {
            break;
        }
        let made = generate::draft(options.seed, index);
        put_draft(options, found, &made, ("draft", index), &mut tally, &mut counts);
        // Half as many files, of either set, as the texts of their own drafts.
        let of_file = index / 4;
        match index % 4 {
            0 => put_file(options, found, &stream::file(options.seed, of_file), ("file", of_file), &mut counts),
            2 => put_file(options, found, &ebcdic::file(options.seed, of_file), ("ebcdic", of_file), &mut counts),
            _ => {}
        }
        found.one_more(PROGRAM.things);
    }
    (tally, counts)
}

/// What is put to both sides: its sort, and its index, which decides what is asked about it.
type Name = (&'static str, u64);

fn put_draft(options: &Options, found: &Found, made: &Made, name: Name, tally: &mut Tally, counts: &mut Counts) {
    let (sort, index) = name;
    let mut random = Random::for_file(!options.seed, index);
    let Err(difference) = check_draft(made, &mut random, tally, counts) else { return };
    let name = format!("seed{}-{sort}{index}", options.seed);
    println!("DIFFERENCE in {name} ({}, {} rows): {difference}", made.shape, made.numbers.len() / ROW);
    let (smaller, smaller_difference) = shrink::shrink(made, &difference);
    if smaller.numbers.len() < made.numbers.len() || smaller.text.len() < made.text.len() {
        let (rows, bytes) = (smaller.numbers.len() / ROW, smaller.text.len());
        println!("  shrunk to {rows} rows, {bytes} bytes of text: {smaller_difference}");
    }
    let small = format!("{name}.small");
    let saved = made.save(&options.save, &name).and_then(|()| smaller.save(&options.save, &small));
    found.note(options, [name, small], saved);
}

fn put_file(options: &Options, found: &Found, made: &stream::Made, (sort, index): Name, counts: &mut Counts) {
    let mut random = Random::for_file(!options.seed, index);
    let Err(difference) = check_file(&made.bytes, &mut random, counts) else { return };
    let smaller = shrink_file(&made.bytes, &difference, file_differs);
    let name = format!("seed{}-{sort}{index}", options.seed);
    let case = Case { name, shape: made.shape, bytes: &made.bytes, extension: "x9" };
    found.report(options, &case, &difference, &smaller);
}
