//! Writes the seeds of the target `write`: drafts of every shape of the generator in texts of either set, and the accepted files of some folders as
//! the texts of their own drafts. Use: write_seeds OUT [FOLDER...]

use std::path::Path;

use peer_c::drafts::Input;
use peer_reader::descent::read;
use peer_reader::random::Random;
use peer_writer::draft::{draft_of, ROW};
use peer_writer::generate::{shaped, SHAPES};

/// Seeds up to this many bytes, and two of either set for each of the shapes that take a hundred rows.
const SMALL: usize = 5_000;
const LARGE: usize = 19_000;

fn main() -> std::io::Result<()> {
    let words: Vec<String> = std::env::args().skip(1).collect();
    let Some((out, folders)) = words.split_first() else {
        eprintln!("use: write_seeds OUT [FOLDER...]");
        std::process::exit(2);
    };
    let out = Path::new(out);
    std::fs::create_dir_all(out)?;
    for shape in SHAPES {
        of_shape(out, shape)?;
    }
    for folder in folders {
        let mut files: Vec<_> =
            std::fs::read_dir(folder)?.map(|entry| entry.map(|entry| entry.path())).collect::<Result<_, _>>()?;
        files.sort();
        for file in files.iter().filter(|file| file.extension().is_some_and(|extension| extension == "x9")) {
            of_file(out, folder, file)?;
        }
    }
    let none = Input { control: [5; 16], numbers: Vec::new(), text: Vec::new() };
    std::fs::write(out.join("empty"), [])?;
    std::fs::write(out.join("control-only"), none.put_together())
}

/// Some turns of either set that are short enough. A turn is even in ASCII and odd in EBCDIC.
fn of_shape(out: &Path, shape: &'static str) -> std::io::Result<()> {
    // The sorts of these are few, one for each turn; the others have hundreds of targets.
    let (step, small, large) = if matches!(shape, "addenda" | "sums") { (1, 16, 2) } else { (7, 4, 0) };
    for set in 0..2 {
        let mut left = [small, large];
        for turn in (0..16 * step).step_by(step).map(|turn| 2 * turn + set) {
            let made = shaped(&mut Random::for_file(4, turn as u64), shape, turn);
            let input = Input { control: control(turn), numbers: made.numbers, text: made.text }.put_together();
            let of_size = usize::from(input.len() > SMALL);
            if input.len() <= LARGE && left[of_size] > 0 {
                std::fs::write(out.join(format!("{shape}-{turn}")), input)?;
                left[of_size] -= 1;
            }
        }
    }
    Ok(())
}

fn control(turn: usize) -> [u8; 16] {
    let drawn = |factor: usize| (turn * factor) as u8;
    let mut control = [0; 16];
    (control[0], control[3], control[7]) = (drawn(1), drawn(11), drawn(1));
    (control[4], control[5], control[8]) = (drawn(3), 1, drawn(5));
    control
}

/// An accepted file as its own draft.
fn of_file(out: &Path, folder: &str, path: &Path) -> std::io::Result<()> {
    let file = std::fs::read(path)?;
    let mut numbers = vec![0; read(&file).rows.len() * ROW];
    draft_of(&file, &mut numbers);
    if numbers.is_empty() {
        return Ok(());
    }
    let of = Path::new(folder).file_name().map_or("", |name| name.to_str().unwrap_or(""));
    let name = path.file_stem().map_or("", |name| name.to_str().unwrap_or(""));
    std::fs::write(out.join(format!("own-{of}-{name}")), Input { control: [1; 16], numbers, text: file }.put_together())
}
