//! Compares the proved library with the independent reader over many generated files, and has it write every accepted one again. Its slow reader is put beside them, and so are the steps that are shown of it: on every
//! file of the stream, and on one in some of the sweep, with --sweep-slowly on each of them too.
//! Use: compare [--files N] [--seed S] [--save DIR] [--threads T] [--sweep | --no-sweep | --sweep-slowly]

mod check;
mod large;
mod slow;
mod sweep;
mod tails;

use std::process::ExitCode;

use peer_reader::charset::EBCDIC_CARRIED;
use peer_reader::ebcdic;
use peer_reader::random::Random;
use peer_reader::stream::{self, Made};
use peer_reader::tally::Tally;

use proved::run::{on_threads, Case, Found, Options, Outcome, Program};
use proved::shrink::shrink;

use check::{differs, Counts};
use slow::Slowly;
use tails::Broken;

const PROGRAM: Program = Program {
    name: "compare",
    things: "files",
    whole_run: 100_000,
    flags: &["--sweep", "--no-sweep", "--sweep-slowly"],
    side: "reader",
};

fn main() -> ExitCode {
    PROGRAM.run(|options, found| {
        let (mut tally, mut counts) = stream_of_files(options, found);
        let (whole, going) = (PROGRAM.is_whole(options), !found.enough());
        // A whole run sweeps by itself; a flag forces or forbids it.
        let sweeping = options.flags.last().map_or(whole, |flag| flag != "--no-sweep");
        large::check_slow_limit(options, &mut tally, &mut counts, found);
        if going && whole {
            large::check_largest(options, &mut tally, &mut counts, found);
        }
        if going && sweeping {
            sweep::sweep(options, &mut tally, &mut counts, found);
        }
        let missing = tally.missing();
        Outcome {
            counts: counts.in_words(),
            coverage: tally.report(),
            missing: missing.iter().map(|(set, point)| format!("not covered in {set:?}: {point:?}")).collect(),
        }
    })
}

/// Shares the files among the threads.
fn stream_of_files(options: &Options, found: &Found) -> (Tally, Counts) {
    let mut tally = Tally::default();
    let mut counts = Counts::default();
    let work = |first| work(options, found, first);
    on_threads(options.threads, work, |(part, counted)| {
        tally.add(&part);
        counts.add(&counted);
    });
    (tally, counts)
}

/// The file of a seed and an index.
type Maker = fn(u64, u64) -> Made;

/// Half as many besides in EBCDIC, once the proved library carries it.
fn files_in_ebcdic(options: &Options) -> u64 {
    match EBCDIC_CARRIED {
        true => options.count / 2,
        false => 0,
    }
}

fn work(options: &Options, found: &Found, first: u64) -> (Tally, Counts) {
    let mut tally = Tally::default();
    let mut counts = Counts::default();
    let seed = options.seed;
    let in_ascii = (0..options.count).map(|index| (index, "file", stream::file as Maker));
    let in_ebcdic = (0..files_in_ebcdic(options)).map(|index| (index, "ebcdic", ebcdic::file as Maker));
    for (index, kind, maker) in in_ascii.chain(in_ebcdic).skip(first as usize).step_by(options.threads as usize) {
        if found.enough() {
            break;
        }
        let made = maker(seed, index);
        if let Err(Broken { file, difference }) = put(&made.bytes, seed, index, &mut tally, &mut counts) {
            report(options, &format!("seed{seed}-{kind}{index}"), made.shape, &file, &difference, found);
        }
        found.one_more(PROGRAM.things);
    }
    (tally, counts)
}

/// Puts a file of this seed and index to both sides, and other tails of it where it is chosen for that (request 7).
fn put(file: &[u8], seed: u64, index: u64, tally: &mut Tally, counts: &mut Counts) -> Result<(), Broken> {
    let checked = check::check(file, Slowly::Once, &mut Random::for_file(!seed, index), tally, counts);
    let reading = checked.map_err(|difference| Broken { file: file.to_vec(), difference })?;
    match peer_reader::tails::chosen(seed, index, file, &reading) {
        Some(mut random) => tails::check_tails(file, &reading, &mut random, tally, counts),
        None => Ok(()),
    }
}

/// Prints a difference and saves the file, as it was and shrunk.
pub fn report(options: &Options, name: &str, shape: &str, file: &[u8], difference: &str, found: &Found) {
    let smaller = shrink(file, difference, differs);
    let case = Case { name: name.to_string(), shape, bytes: file, extension: "x9" };
    found.report(options, &case, difference, &smaller);
}
