//! `icl picture` and `icl pictures`: pictures taken out of a file.

use std::ffi::OsStr;
use std::io::Write;

use crate::args::{number, Args};
use crate::each::{self, Around, Done};
use crate::files::Files;
use crate::input;
use crate::names;
use crate::output;
use crate::stop::{Stop, DONE};
use crate::taking::Destination;
use crate::words::{self, counted};

pub fn one(args: Args) -> Result<u8, Stop> {
    let [file, offset] = args.exactly(["FILE", "OFFSET"])?;
    let out = args.option("-o").ok_or_else(|| Stop::Usage("-o OUT is missing".to_string()))?;
    let offset = number(offset, "offset")?;
    let bytes = input::within_limit(file)?;
    let picture = x9180::picture(&bytes, offset).map_err(|refusal| input::refused(file, &bytes, &refusal))?;
    output::put(out, picture, args.has("--force"), &counted(picture.len() as u64, "byte"))?;
    Ok(DONE)
}

pub fn all(args: Args) -> Result<u8, Stop> {
    let (files, folder) = args.several_and(["FILE", "DIR"])?;
    let files = Files::of(files);
    let destination = Destination::new(folder, &files, args.has("--force"))?;
    let take = |file: &OsStr, out: &mut dyn Write| {
        let (bytes, reading) = input::accepted(file)?;
        let said = destination.take(file, &bytes, &names::of_views(&reading, &bytes))?;
        let name = if files.several { format!("{}: ", words::name(file)) } else { String::new() };
        writeln!(out, "{name}{said}").map_err(Stop::output)?;
        Ok(Done::well(()))
    };
    each::file(&files, &Around::text(), take, |()| {})
}
