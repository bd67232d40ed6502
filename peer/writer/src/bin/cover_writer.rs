//! Runs the stream of drafts past the independent writer alone and says what it has covered: what `compare_writer` demands of a run, without
//! the proved library. Use: cover_writer [DRAFTS [SEED]]; 50,000 drafts and seed 18 unless given. Exit status 1 if a point is missing or a
//! promise is broken.

use std::process::ExitCode;
use std::time::Instant;

use peer_reader::descent::Number;
use peer_reader::random::Random;

use peer_writer::asked::buffer_lengths;
use peer_writer::generate;
use peer_writer::points::Tally;
use peer_writer::promises::{as_the_reader_would, written_is_accepted};
use peer_writer::sheet::Made;
use peer_writer::write::{judge, write, Verdict};

/// The promises are tried of drafts up to this many numbers.
const SHORT: usize = 20_000;

fn main() -> ExitCode {
    let given: Vec<u64> =
        std::env::args().skip(1).map(|word| word.parse().expect("the arguments are numbers")).collect();
    let drafts = given.first().copied().unwrap_or(50_000);
    let seed = given.get(1).copied().unwrap_or(18);
    let begun = Instant::now();
    let mut tally = Tally::default();
    let (mut accepted, mut broken) = (0, 0);
    for index in 0..drafts {
        let made = generate::draft(seed, index);
        let verdict = judge(&made.text, &made.numbers);
        tally.note_draft(&made, &verdict);
        for room in buffer_lengths(&verdict, &mut Random::for_file(!seed, index)) {
            tally.note_buffer(&made, &verdict, room);
        }
        accepted += u64::from(verdict.answer.number == Number::Accepted);
        if let Err(words) = promises_hold(&made, &verdict) {
            println!("draft {index}, {}: {words}", made.shape);
            broken += 1;
        }
    }
    let seconds = begun.elapsed().as_secs_f64();
    println!("seed {seed}: {drafts} drafts ({accepted} accepted), {seconds:.1} seconds");
    println!("{}", tally.report().trim_end());
    let missing = tally.missing();
    missing.iter().for_each(|(set, point)| println!("not covered in {set:?}: {point:?}"));
    println!("points not covered {}, promises broken {broken}", missing.len());
    ExitCode::from(u8::from(!missing.is_empty() || broken > 0))
}

fn promises_hold(made: &Made, verdict: &Verdict) -> Result<(), String> {
    if made.numbers.len() > SHORT || verdict.answer.number == Number::Size {
        return Ok(());
    }
    as_the_reader_would(&made.text, &made.numbers, &verdict.answer)?;
    if verdict.answer.number == Number::Accepted && verdict.answer.offset < 1_000_000 {
        let mut file = vec![0; verdict.answer.offset as usize];
        let answer = write(&made.text, &made.numbers, &mut file);
        written_is_accepted(&made.text, &made.numbers, &answer, &file)?;
    }
    Ok(())
}
