//! Compares the proved library's judgement of images with the independent one over many generated images, and over every byte value at every
//! place and every length of some of them.
//! Use: compare_tiff [--images N] [--seed S] [--save DIR] [--threads T]

mod check;

use std::process::ExitCode;

use peer_tiff::generate;
use peer_tiff::points::{note, Tally};

use proved::images::differs;
use proved::run::{on_threads, Case, Found, Options, Outcome, Program};

use check::{shrink, sweep, Counts, SMALL};

const PROGRAM: Program =
    Program { name: "compare_tiff", things: "images", whole_run: 50_000, flags: &[], side: "judge" };

/// One in so many images, if it is small, is swept over; the number is prime to that of a round.
const SWEPT: u64 = 997;

fn main() -> ExitCode {
    PROGRAM.run(|options, found| {
        let (tally, counts) = stream_of_images(options, found);
        let missing = tally.missing();
        Outcome {
            counts: counts.in_words(),
            coverage: tally.report(),
            missing: missing.iter().map(|point| format!("not covered: {point:?}")).collect(),
        }
    })
}

/// Shares the images among the threads.
fn stream_of_images(options: &Options, found: &Found) -> (Tally, Counts) {
    let mut tally = Tally::default();
    let mut counts = Counts::default();
    let work = |first| work(options, found, first);
    on_threads(options.threads, work, |(part, counted)| {
        tally.add(&part);
        counts.add(&counted);
    });
    (tally, counts)
}

fn work(options: &Options, found: &Found, first: u64) -> (Tally, Counts) {
    let mut tally = Tally::default();
    let mut counts = Counts::default();
    for index in (first..options.count).step_by(options.threads as usize) {
        if found.enough() {
            break;
        }
        let made = generate::image(options.seed, index);
        counts.note(&made.bytes, &note(&mut tally, &made.bytes));
        if let Some(difference) = differs(&made.bytes) {
            report(options, &format!("image{index}"), made.shape, &made.bytes, &difference, found);
        }
        if index % SWEPT == 0 && made.bytes.len() <= SMALL {
            if let Some((image, difference)) = sweep(&made.bytes, &mut counts) {
                report(options, &format!("sweep{index}"), made.shape, &image, &difference, found);
            }
        }
        found.one_more(PROGRAM.things);
    }
    (tally, counts)
}

/// Prints a difference and saves the image, as it was and shrunk.
fn report(options: &Options, sort: &str, shape: &str, image: &[u8], difference: &str, found: &Found) {
    let name = format!("seed{}-{sort}", options.seed);
    let case = Case { name, shape, bytes: image, extension: "tif" };
    found.report(options, &case, difference, &shrink(image, difference));
}
