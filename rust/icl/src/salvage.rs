//! `icl salvage`: what is sound of a torn file, made out as a new one, and what became of the rest.

use std::ffi::OsStr;
use std::fs;
use std::io::{stdout, BufWriter, Write};
use std::path::Path;

use x9180::{Reading, Salvage};

use crate::args::Args;
use crate::forms::Form;
use crate::input;
use crate::output;
use crate::salvage_list;
use crate::salvage_told;
use crate::screen::with_clock;
use crate::stop::{Stop, DONE};
use crate::words::{self, counted};

pub fn run(args: Args) -> Result<u8, Stop> {
    let [file] = args.exactly(["FILE"])?;
    let (out, wants_list, form) = (args.option("-o"), args.has("--list"), args.form()?);
    match (out, wants_list, form) {
        (None, false, _) => return Err(Stop::Usage("-o OUT is missing".to_string())),
        (_, false, Form::Csv | Form::Json) => {
            return Err(Stop::Usage("--csv and --json are for --list".to_string()));
        }
        (Some(out), true, _) if out == "-" => {
            return Err(Stop::Usage("-o - and --list exclude each other: both write to standard output".to_string()));
        }
        _ => {}
    }
    out.map_or(Ok(()), |out| is_another(file, out))?;
    let bytes = input::within_limit(file)?;
    let (salvage, reading) = salvaged(file, &bytes)?;
    if let Some(out) = out {
        let totals = salvage.totals();
        let what = format!("{} ({})", counted(totals.records, "record"), counted(salvage.file().len() as u64, "byte"));
        // The list is for programs: there is no other line on standard output then.
        match wants_list {
            true => output::put_file(Path::new(out), salvage.file(), args.has("--force"))?,
            false => output::put(out, salvage.file(), args.has("--force"), &what)?,
        }
    }
    let to_standard_output = out.is_some_and(|out| out == "-");
    let mut page = BufWriter::new(stdout().lock());
    let written = match (wants_list, form) {
        (true, Form::Json) => salvage_list::write(file, &bytes, &salvage, Form::Json, &mut page),
        (true, _) => salvage_list::write(file, &bytes, &salvage, Form::Csv, &mut page),
        (false, _) if to_standard_output => Ok(()),
        (false, _) => salvage_told::write(&bytes, &salvage, &reading, &mut page),
    };
    written.and_then(|()| page.flush()).map_err(Stop::output)?;
    Ok(DONE)
}

/// What is left of the file, and what the library reads of it.
fn salvaged(file: &OsStr, bytes: &[u8]) -> Result<(Salvage, Reading), Stop> {
    let work = || {
        let salvage = x9180::salvage(bytes)?;
        let reading = x9180::read(salvage.file())?;
        Ok((salvage, reading))
    };
    let came = with_clock(&format!("salvaging {}", words::spoken(file)), work);
    came.map_err(|refusal| input::refused(file, bytes, &refusal))
}

/// The torn file is what the sender is rung about: it is never overwritten, not even by force.
fn is_another(file: &OsStr, out: &OsStr) -> Result<(), Stop> {
    let places = [file, out].map(|name| fs::canonicalize(name).ok().filter(|_| name != "-"));
    match places {
        [Some(file), Some(place)] if file == place => {
            Err(Stop::trouble(format!("{}: it is the torn file itself, which is not overwritten", words::name(out))))
        }
        _ => Ok(()),
    }
}
