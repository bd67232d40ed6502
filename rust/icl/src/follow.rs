//! `icl follow`: the slow reader's way through a file, step by step.

use std::io::{stdout, IsTerminal, Write};

use x9180::{follow, CharacterSet};

use crate::answer::told;
use crate::args::Args;
use crate::follow_words::block;
use crate::input;
use crate::keys::{self, Key};
use crate::stop::{Stop, DONE, REFUSED};
use crate::words::set_told;

pub fn run(args: Args) -> Result<u8, Stop> {
    let [file] = args.exactly(["FILE"])?;
    let bytes = input::within_limit(file)?;
    let answer = x9180::read_slowly(&bytes);
    let steps = follow::steps(&bytes, &answer);
    let mut blocks: Vec<String> = (0..steps.len()).map(|at| block(&steps, at, &answer)).collect();
    let (line, words) = told(&answer);
    let set = set_told(CharacterSet::of(&bytes));
    let below = set.iter().map(String::as_str).chain(words.lines());
    let below: String = below.map(|line| format!("  {line}\n")).collect();
    let end = format!("{line}\n{below}");
    // Parted from the last step.
    blocks.push(if steps.is_empty() { end } else { format!("\n{end}") });
    let by_key = !args.has("--all") && file != "-" && stdout().is_terminal() && keys::can_be_read();
    show(&blocks, by_key, &mut stdout().lock()).map_err(Stop::output)?;
    Ok(if answer.is_ok() { DONE } else { REFUSED })
}

/// Writes the blocks, one at a key press where keys are asked for.
fn show(blocks: &[String], mut by_key: bool, out: &mut dyn Write) -> std::io::Result<()> {
    for (place, block) in blocks.iter().enumerate() {
        if place > 0 && by_key {
            match keys::wait(out)? {
                Key::Next => {}
                Key::ToTheEnd => by_key = false,
                Key::Quit => return Ok(()),
            }
        }
        out.write_all(block.as_bytes())?;
    }
    out.flush()
}
