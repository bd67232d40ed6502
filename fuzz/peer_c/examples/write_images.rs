//! Writes the seeds of the target `tiff`: images of every shape of the generator, directories of some hundred entries, a picture of the samples, and two
//! edge inputs. Use: write_images OUT

use std::path::Path;

use peer_reader::pictures::tiff;
use peer_reader::random::Random;
use peer_tiff::generate::{shaped, shapes};
use peer_tiff::harm::many;

/// So many of each shape, none of them larger.
const EACH: usize = 6;
const LARGEST: usize = 2_000;

fn main() -> std::io::Result<()> {
    let Some(out) = std::env::args().nth(1) else {
        eprintln!("use: write_images OUT");
        std::process::exit(2);
    };
    let out = Path::new(&out);
    std::fs::create_dir_all(out)?;
    let put = |name: String, turn: usize, image: &[u8]| {
        std::fs::write(out.join(name.replace(' ', "-")), [&control(turn), image].concat())
    };
    for shape in shapes() {
        // A step that is prime to the counts of targets.
        let turns = (0..).step_by(23);
        let made = turns.map(|turn| (turn, shaped(&mut Random::for_file(13, turn as u64), shape, turn).bytes));
        for (turn, image) in made.filter(|(_, image)| image.len() <= LARGEST).take(EACH) {
            put(format!("{shape}-{turn}"), turn, &image)?;
        }
    }
    for entries in [255, 256, 257, 600] {
        put(format!("many-{entries}"), entries, &many(&mut Random::new(entries as u64), entries))?;
    }
    put("sample".to_string(), 1, &tiff(&[1, 2, 3]))?;
    std::fs::write(out.join("control-only"), control(5))?;
    std::fs::write(out.join("empty"), [])
}

/// Control bytes by turn; the first image of each shape has every beginning judged.
fn control(turn: usize) -> [u8; 16] {
    let drawn = |factor: usize| (turn * factor) as u8;
    let mut control = [0; 16];
    (control[0], control[1], control[3], control[4]) = (drawn(1), drawn(5), drawn(11), drawn(3));
    (control[6], control[7], control[8]) = (drawn(7), drawn(1), u8::from(turn == 0));
    control
}
