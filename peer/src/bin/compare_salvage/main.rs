//! Compares the proved library's salvage with the independent one over many torn files.
//! Use: compare_salvage [--files N] [--seed S] [--save DIR] [--threads T] [--heavy]

mod check;

use std::process::ExitCode;

use peer_reader::random::Random;

use peer_salvage::generate::{self, Made, WHOLE_RUN};
use peer_salvage::large;
use peer_salvage::points::Tally;

use proved::run::{on_threads, Case, Found, Options, Outcome, Program};
use proved::shrink::shrink;

use check::{beginning_differs, check_beginnings, check_file, file_differs, Counts};

const PROGRAM: Program = Program {
    name: "compare_salvage",
    things: "files",
    whole_run: WHOLE_RUN,
    // Files at the limits besides, up to 256 megabytes each.
    flags: &["--heavy"],
    side: "salvage",
};

/// Of one file in so many every beginning of a small one is put to both sides besides.
const SWEEP: u64 = 400;

fn main() -> ExitCode {
    PROGRAM.run(|options, found| {
        let mut tally = Tally::default();
        let mut counts = Counts::default();
        let work = |first| work(options, found, first);
        on_threads(options.threads, work, |(part, counted): (Tally, Counts)| {
            tally.add(&part);
            counts.add(&counted);
        });
        if !options.flags.is_empty() {
            for sort in 0..large::SORTS {
                put_file(options, found, &large::large(sort), ("large", sort as u64), &mut tally, &mut counts);
            }
        }
        let missing = tally.missing();
        Outcome {
            counts: counts.in_words(),
            coverage: tally.report(),
            missing: missing.iter().map(|(set, point)| format!("not covered in {set:?}: {point:?}")).collect(),
        }
    })
}

fn work(options: &Options, found: &Found, first: u64) -> (Tally, Counts) {
    let mut tally = Tally::default();
    let mut counts = Counts::default();
    for index in (first..options.count).step_by(options.threads as usize) {
        if found.enough() {
            break;
        }
        let made = generate::file(options.seed, index);
        put_file(options, found, &made, ("torn", index), &mut tally, &mut counts);
        if index % SWEEP == SWEEP / 2 {
            put_beginnings(options, found, index / SWEEP, &mut counts);
        }
        found.one_more(PROGRAM.things);
    }
    (tally, counts)
}

/// What is put to both sides: its sort, and its index, which decides what is asked about it.
type Name = (&'static str, u64);

fn put_file(
    options: &Options,
    found: &Found,
    made: &Made,
    (sort, index): Name,
    tally: &mut Tally,
    counts: &mut Counts,
) {
    let mut random = Random::for_file(!options.seed, index);
    let Err(difference) = check_file(&made.bytes, &mut random, tally, counts) else { return };
    let smaller = shrink(&made.bytes, &difference, file_differs);
    let name = format!("seed{}-{sort}{index}", options.seed);
    let case = Case { name, shape: made.shape, bytes: &made.bytes, extension: "x9" };
    found.report(options, &case, &difference, &smaller);
}

fn put_beginnings(options: &Options, found: &Found, turn: u64, counts: &mut Counts) {
    let bytes = generate::to_be_cut(options.seed, turn);
    let mut random = Random::for_file(!options.seed, turn);
    let Err(difference) = check_beginnings(&bytes, &mut random, counts) else { return };
    let smaller = shrink(&bytes, &difference, beginning_differs);
    let name = format!("seed{}-beginnings{turn}", options.seed);
    let case = Case { name, shape: "every beginning", bytes: &bytes, extension: "x9" };
    found.report(options, &case, &difference, &smaller);
}
