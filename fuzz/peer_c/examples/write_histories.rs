//! Writes the seeds of the target `book`: histories of every shape of the generator, a day made of the accepted files of a folder, and two edge inputs.
//! Use: write_histories OUT FOLDER

use std::collections::BTreeMap;
use std::path::Path;

use peer_book::generate::history;
use peer_book::layout::{other, OWNERS};
use peer_book::paper::Paper;
use peer_c::histories::{Input, Step};

/// The histories of which the first ones of each shape are taken.
const HISTORIES: u64 = 9_000;

/// How many of a shape, and the bytes of the largest. Files in which every letter has all six figures are long, and a full book has nine causes. A
/// history that is to be held beside another has ten files.
fn wanted(shape: &str) -> (usize, usize) {
    match shape {
        "full" => (27, 9_000),
        "grown" | "refilled" => (12, 12_000),
        "apart" => (9, 19_000),
        _ => (9, 4_000),
    }
}

fn main() -> std::io::Result<()> {
    let words: Vec<String> = std::env::args().skip(1).collect();
    let [out, folder] = &words[..] else {
        eprintln!("use: write_histories OUT FOLDER");
        std::process::exit(2);
    };
    let out = Path::new(out);
    std::fs::create_dir_all(out)?;
    let mut made: BTreeMap<&str, usize> = BTreeMap::new();
    // A step that is prime to the length of a round.
    for index in (0..HISTORIES).map(|turn| turn * 7) {
        let history = history(6, index);
        let (most, largest) = wanted(history.shape);
        let count = made.entry(history.shape).or_default();
        let input = Input::of_history(&history, control(index)).map(|input| input.put_together());
        if let Some(input) = input.filter(|input| *count < most && input.len() <= largest) {
            *count += 1;
            std::fs::write(out.join(format!("{}-{index}", history.shape.replace(' ', "-"))), input)?;
        }
    }
    std::fs::write(out.join("a-day"), a_day(folder)?.put_together())?;
    std::fs::write(out.join("control-only"), control(5))?;
    std::fs::write(out.join("empty"), [])
}

fn control(index: u64) -> [u8; 16] {
    let mut control = [0; 16];
    (control[0], control[3]) = (index as u8, (index * 11) as u8);
    control
}

/// A book with room for twelve entries and fourteen file numbers, and the accepted samples: each entered, most for owner 1 and some for owner 2, some again under their own number,
/// under another and for the other owner, everything looked up by both.
fn a_day(folder: &str) -> std::io::Result<Input> {
    let mut names: Vec<_> =
        std::fs::read_dir(folder)?.map(|entry| Ok(entry?.path())).collect::<std::io::Result<_>>()?;
    names.sort();
    let samples = names.iter().filter(|name| name.extension().is_some_and(|extension| extension == "x9"));
    let files: Vec<Vec<u8>> = samples.map(std::fs::read).collect::<std::io::Result<_>>()?;
    let files: Vec<Vec<u8>> = files.into_iter().filter(|file| Paper::new(file.clone()).accepted()).take(8).collect();
    let for_both = |step: fn(u64, u64) -> Step, number: u64| OWNERS.map(|owner| step(owner, number));
    let mut steps = OWNERS.map(Step::sum_up).to_vec();
    steps.extend(for_both(Step::find, 1));
    for file in 0..files.len() {
        let (number, owner) = (100 + file as u64, OWNERS[usize::from(file % 3 == 2)]);
        steps.extend([Step::enter(owner, file, number), Step::enter(owner, file, number)]);
        steps.extend(for_both(Step::find, file as u64 + 1));
    }
    steps.extend((0..2).map(|file| Step::enter(other(OWNERS[0]), file, 100 + file as u64)));
    steps.extend((0..2).map(|file| Step::enter(OWNERS[0], file, 200 + file as u64)));
    steps.extend([12, 13].into_iter().flat_map(|number| for_both(Step::find, number)));
    steps.extend(OWNERS.map(Step::sum_up));
    // Some withdrawn, looked for and entered again, before and after a tidy-up.
    steps.extend([1, 3, 3].map(|number| Step::withdraw(OWNERS[0], number)));
    steps.extend([
        Step::find(OWNERS[0], 3),
        Step::enter(OWNERS[0], 0, 100),
        Step::enter(OWNERS[0], 1, 300),
        Step::tidy(),
    ]);
    steps.extend([Step::withdraw(OWNERS[1], 1), Step::enter(OWNERS[1], 0, 301), Step::find(OWNERS[1], 1)]);
    steps.extend(OWNERS.map(Step::sum_up));
    let (book, taken) = (Vec::new(), Vec::new());
    Ok(Input { control: control(1), book, zeros: 17 + 9 * 12, taken, free: 1 + 2 * 14, steps, files })
}
