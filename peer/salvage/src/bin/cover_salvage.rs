//! Runs the stream of torn files past the independent side alone and says what it has covered: what `compare_salvage` demands of a run, without
//! the proved library. Both opinions are compared, and the promises asserted. Use: cover_salvage [FILES [SEED]]; a whole run and seed 18 unless
//! given. Exit status 1 if a point is missing, an opinion is another or a promise is broken.

use std::process::ExitCode;
use std::time::Instant;

use peer_reader::charset::Set;
use peer_reader::random::Random;
use peer_salvage::asked::lents;
use peer_salvage::generate::{self, WHOLE_RUN};
use peer_salvage::opinion::{opinion, MOST_RECORDS};
use peer_salvage::points::{demanded, Tally};
use peer_salvage::promises;
use peer_salvage::salvage::{outcome, outcome_of};
use peer_salvage::survey::survey;

fn main() -> ExitCode {
    let given: Vec<u64> =
        std::env::args().skip(1).map(|word| word.parse().expect("the arguments are numbers")).collect();
    let files = given.first().copied().unwrap_or(WHOLE_RUN);
    let seed = given.get(1).copied().unwrap_or(18);
    let begun = Instant::now();
    let mut tally = Tally::default();
    let (mut written, mut broken) = (0, 0);
    for index in 0..files {
        let made = generate::file(seed, index);
        let file = &made.bytes;
        let surveyed = (!file.is_empty()).then(|| survey(file));
        let found = surveyed.as_ref().map_or_else(|| outcome(file), |survey| outcome_of(file, survey));
        tally.note(file, surveyed.as_ref(), &found);
        for (sort, lent) in lents(file, &found, &mut Random::for_file(!seed, index)) {
            tally.note_lent(Set::of(file), &found, sort, lent);
        }
        written += u64::from(found.is_written());
        let alike = found.list.len() > MOST_RECORDS || opinion(file) == found;
        let kept = promises::keep(file, &found, |file| Ok(outcome(file)));
        if let (false, _) | (_, Err(_)) = (alike, &kept) {
            println!("file {index}, {}: opinions alike {alike}, promises {kept:?}", made.shape);
            broken += 1;
        }
    }
    println!("seed {seed}: {files} files ({written} written), {:.1} seconds", begun.elapsed().as_secs_f64());
    println!("{}", tally.report().trim_end());
    let missing = tally.missing();
    missing.iter().for_each(|(set, point)| println!("not covered in {set:?}: {point:?}"));
    let points = demanded(Set::Ascii).len() + demanded(Set::Ebcdic).len();
    println!("points {points}, not covered {}, opinions unlike or promises broken {broken}", missing.len());
    ExitCode::from(u8::from(!missing.is_empty() || broken > 0))
}
