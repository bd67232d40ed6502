//! `icl tags`: the tags of TIFF pictures, those of a letter's views or those of image files.

use std::collections::BTreeMap;
use std::ffi::{OsStr, OsString};
use std::io::{stdout, BufWriter, Write};

use x9180::TagFault;

use crate::args::Args;
use crate::input::{self, Input};
use crate::places::{self, PlacedView};
use crate::screen::{coloured, complain, print, Colour, Progress};
use crate::stop::{Stop, DONE, REFUSED, TROUBLE};
use crate::words::{self, counted, grouped};

pub fn run(args: Args) -> Result<u8, Stop> {
    if args.has("--tiff") {
        return of_images(args.several()?);
    }
    let [file] = args.exactly(["FILE"])?;
    of_letter(file)
}

/// The views of an accepted file.
fn of_letter(file: &OsStr) -> Result<u8, Stop> {
    let (bytes, reading) = input::accepted(file)?;
    let mut out = BufWriter::new(stdout().lock());
    let mut seen = Seen::default();
    let mut progress = Progress::beside_output();
    let views = places::of_views(&reading);
    for (done, placed) in views.iter().enumerate() {
        progress.show(|| format!("judging pictures: {} of {}", grouped(done as u64), grouped(views.len() as u64)));
        if !placed.view.is_tiff(&bytes) {
            seen.pass_over(placed, &bytes);
            continue;
        }
        let picture =
            x9180::picture(&bytes, placed.view.offset()).map_err(|refusal| input::refused(file, &bytes, &refusal))?;
        let judged = x9180::tags(picture);
        seen.count(&judged);
        write!(out, "{}: {}", placed.told(), told(&judged)).map_err(Stop::output)?;
    }
    out.write_all(seen.lines().as_bytes()).and_then(|()| out.flush()).map_err(Stop::output)?;
    Ok(seen.status())
}

/// Files that each hold an image and nothing else.
fn of_images(files: &[OsString]) -> Result<u8, Stop> {
    let mut status = DONE;
    for file in files {
        let image = match input::bytes(file) {
            Ok(Input::Bytes(image)) => image,
            // No rule on tags asks for a size, so that it is not refused: it is more than this tool reads.
            Ok(Input::TooLarge(_, message)) | Err(Stop::Message(_, message)) => {
                complain(&message);
                status = TROUBLE;
                continue;
            }
            Err(other) => return Err(other),
        };
        let judged = x9180::tags(&image);
        if judged.is_err() {
            status = status.max(REFUSED);
        }
        print(&match files.len() {
            1 => told(&judged),
            _ => format!("{}: {}", words::name(file), told(&judged)),
        })?;
    }
    Ok(status)
}

/// `ok`, or the numbers of the fault, with its plain words on the lines below.
fn told(judged: &Result<(), TagFault>) -> String {
    match judged {
        Ok(()) => format!("{}\n", coloured("ok", Colour::Green)),
        Err(fault) => {
            let below: String = format!("{fault:#}").lines().map(|line| format!("  {line}\n")).collect();
            format!("{}\n{below}", coloured(&fault.line(), Colour::Red))
        }
    }
}

/// How many views were judged, and how.
#[derive(Default)]
struct Seen {
    right: u64,
    wrong: u64,
    /// Those that are not declared as TIFF of Group 4, by their format.
    passed_over: BTreeMap<String, u64>,
}

impl Seen {
    fn count(&mut self, judged: &Result<(), TagFault>) {
        match judged {
            Ok(()) => self.right += 1,
            Err(_) => self.wrong += 1,
        }
    }

    fn pass_over(&mut self, placed: &PlacedView<'_>, bytes: &[u8]) {
        let format = placed.view.detail().and_then(|row| row.text(bytes, 5)).unwrap_or_default();
        *self.passed_over.entry(format).or_default() += 1;
    }

    fn lines(&self) -> String {
        let (views, right, wrong) =
            (counted(self.right + self.wrong, "view"), grouped(self.right), grouped(self.wrong));
        let judged = format!("{views} declared as TIFF of Group 4 (format 00): {right} ok, {wrong} wrong\n");
        if self.passed_over.is_empty() {
            return judged;
        }
        let formats = self.passed_over.iter().map(|(format, count)| format!("{} of format {format}", grouped(*count)));
        let (views, formats) =
            (counted(self.passed_over.values().sum(), "view"), formats.collect::<Vec<_>>().join(", "));
        format!("{judged}{views} declared otherwise, passed over and not judged: {formats}\n")
    }

    fn status(&self) -> u8 {
        match self.wrong {
            0 => DONE,
            _ => REFUSED,
        }
    }
}
