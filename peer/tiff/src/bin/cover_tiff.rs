//! Runs the stream of images past the independent judge alone and says what it has covered: what `compare_tiff` demands of a run, without the
//! proved library. Use: cover_tiff [IMAGES [SEED]]; 50,000 images and seed 18 unless given. Exit status 1 if a point is missing or the second
//! opinion is another.

use std::process::ExitCode;
use std::time::Instant;

use peer_tiff::faults::opinion;
use peer_tiff::generate;
use peer_tiff::judge::ACCEPTED;
use peer_tiff::points::{demanded, note, Tally};

fn main() -> ExitCode {
    let given: Vec<u64> =
        std::env::args().skip(1).map(|word| word.parse().expect("the arguments are numbers")).collect();
    let images = given.first().copied().unwrap_or(50_000);
    let seed = given.get(1).copied().unwrap_or(18);
    let begun = Instant::now();
    let mut tally = Tally::default();
    let (mut accepted, mut bytes, mut unlike) = (0u64, 0, 0);
    for index in 0..images {
        let made = generate::image(seed, index);
        let verdict = note(&mut tally, &made.bytes);
        accepted += u64::from(verdict.number == ACCEPTED);
        bytes += made.bytes.len();
        let other = opinion(&made.bytes);
        if other != (verdict.number, u64::from(verdict.tag)) {
            println!("image {index}, {}: {verdict:?}, second opinion {other:?}", made.shape);
            unlike += 1;
        }
    }
    let seconds = begun.elapsed().as_secs_f64();
    println!("seed {seed}: {images} images ({accepted} accepted), {bytes} bytes, {seconds:.1} seconds");
    println!("{}", tally.report().trim_end());
    let missing = tally.missing();
    missing.iter().for_each(|point| println!("not covered: {point:?}"));
    println!("points {}, not covered {}, second opinions unlike {unlike}", demanded().len(), missing.len());
    ExitCode::from(u8::from(!missing.is_empty() || unlike > 0))
}
