//! Runs the stream of files past the independent reader alone and says what it has covered: what `compare` demands of a run, without the
//! proved library. Use: cover [FILES [SEED]]; 100,000 files and seed 18 unless given. Exit status 1 if a point is missing or a claim about
//! tails does not hold.

use std::process::ExitCode;
use std::time::Instant;

use peer_reader::charset::{Set, EBCDIC_CARRIED};
use peer_reader::descent::{read_in, Number};
use peer_reader::ebcdic;
use peer_reader::picture::picture;
use peer_reader::random::Random;
use peer_reader::stream;
use peer_reader::tails;
use peer_reader::tally::Tally;

fn main() -> ExitCode {
    let given: Vec<u64> =
        std::env::args().skip(1).map(|word| word.parse().expect("the arguments are numbers")).collect();
    let files = given.first().copied().unwrap_or(100_000);
    let seed = given.get(1).copied().unwrap_or(18);
    let begun = Instant::now();
    let mut tally = Tally::default();
    let (mut accepted, mut bytes, mut broken) = (0, 0, 0);
    // SIZE of the picture call is met by chance in a stream of this length; `compare` has the largest file for it besides.
    tally.note_picture(&[], &picture(&[], 0));
    let mut put = |made: Vec<u8>, index: u64| {
        let reading = read_in(Set::by_library(&made), &made);
        tally.note_asked(&made, &reading, &mut Random::for_file(!seed, index));
        let mut of_tails = tails::chosen(seed, index, &made, &reading);
        let held = of_tails.as_mut().map_or(Ok(()), |random| tally.note_tails(&made, &reading, random));
        if let Err(words) = held {
            println!("file {index}: {words}");
            broken += 1;
        }
        accepted += u64::from(reading.answer.number == Number::Accepted);
        bytes += made.len();
    };
    (0..files).for_each(|index| put(stream::file(seed, index).bytes, index));
    let in_ebcdic = if EBCDIC_CARRIED { files / 2 } else { 0 };
    (0..in_ebcdic).for_each(|index| put(ebcdic::file(seed, index).bytes, index));
    let files = files + in_ebcdic;
    println!(
        "seed {seed}: {files} files ({accepted} accepted, {bytes} bytes), {:.1} seconds",
        begun.elapsed().as_secs_f64()
    );
    println!("{}", tally.report().trim_end());
    let missing = tally.missing();
    missing.iter().for_each(|(set, point)| println!("not covered in {set:?}: {point:?}"));
    println!("points not covered {}, claims broken {broken}", missing.len());
    ExitCode::from(u8::from(!missing.is_empty() || broken > 0))
}
