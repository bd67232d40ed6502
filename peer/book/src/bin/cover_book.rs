//! Runs the stream of histories past the independent side alone and says what it has covered: what `compare_book` demands of a run, without the
//! proved library, with the second opinion in its place. Use: cover_book [HISTORIES [SEED]]; a whole run and seed 18 unless given. Exit status
//! 1 if a point is missing or the second opinion is another.

use std::process::ExitCode;
use std::time::Instant;

use peer_book::apart::put_second;
use peer_book::call::SecondOpinion;
use peer_book::generate::{self, WHOLE_RUN};
use peer_book::points::{demanded, Tally};
use peer_book::put::put;
use peer_reader::random::Random;

fn main() -> ExitCode {
    let given: Vec<u64> =
        std::env::args().skip(1).map(|word| word.parse().expect("the arguments are numbers")).collect();
    let histories = given.first().copied().unwrap_or(WHOLE_RUN);
    let seed = given.get(1).copied().unwrap_or(18);
    let begun = Instant::now();
    let mut tally = Tally::default();
    let (mut calls, mut unlike) = (0, 0);
    for index in 0..histories {
        let history = generate::history(seed, index);
        calls += history.calls.len();
        let random = &mut Random::for_file(!seed, index);
        let outcomes = match put(&SecondOpinion, &history, random, |seen| tally.note(seen)) {
            Ok(outcomes) => outcomes,
            Err(broken) => {
                println!("history {index}, {}, call {}: {}", history.shape, broken.at + 1, broken.difference);
                unlike += 1;
                continue;
            }
        };
        tally.note_history(&history, &outcomes);
        let Some(pair) = generate::pair(seed, index) else { continue };
        match put_second(&SecondOpinion, &pair, random) {
            Ok(second) => tally.note_pair(&pair, [&outcomes, &second]),
            Err(difference) => {
                println!("pair {index}: {difference}");
                unlike += 1;
            }
        }
    }
    let seconds = begun.elapsed().as_secs_f64();
    println!("seed {seed}: {histories} histories, {calls} calls, {seconds:.1} seconds");
    println!("{}", tally.report().trim_end());
    let missing = tally.missing();
    missing.iter().for_each(|point| println!("not covered: {point:?}"));
    println!("points {}, not covered {}, second opinions unlike {unlike}", demanded().len(), missing.len());
    ExitCode::from(u8::from(!missing.is_empty() || unlike > 0))
}
