//! Files written whole or not at all, or to standard output, and what is said of them.

use std::ffi::OsStr;
use std::io::{stdout, Error, Write};
use std::path::Path;

use crate::screen::print;
use crate::stop::Stop;
use crate::store::{free, Staging};
use crate::words;

/// Writes one file, and says that what it holds was written; for `-` writes to standard output, and says nothing.
pub fn put(out: &OsStr, bytes: &[u8], force: bool, what: &str) -> Result<(), Stop> {
    if out == "-" {
        let mut out = stdout().lock();
        return out.write_all(bytes).and_then(|()| out.flush()).map_err(Stop::output);
    }
    put_file(Path::new(out), bytes, force)?;
    print(&format!("{what} written to {}\n", words::name(out)))
}

/// Writes one file, whole or not at all, and says nothing.
pub fn put_file(path: &Path, bytes: &[u8], force: bool) -> Result<(), Stop> {
    let trouble = |error: Error| trouble(path, &error);
    let (folder, name) = place(path)?;
    if path.is_dir() {
        let shown = words::name(path.as_os_str());
        return Err(Stop::trouble(format!("{shown}: it is a folder, and -o takes the name of a file to write")));
    }
    free(path, force).map_err(trouble)?;
    let mut staging = Staging::within(folder, force).map_err(trouble)?;
    staging.write(name, bytes).and_then(|()| staging.place(name)).map_err(trouble)?;
    staging.keep();
    Ok(())
}

/// The folder and the name of a file that is to be written. Unlike the commands that write a folder, this makes none: a name mistyped should not make
/// one.
pub fn place(path: &Path) -> Result<(&Path, &Path), Stop> {
    let shown = words::name(path.as_os_str());
    let name = path.file_name().map(Path::new).ok_or_else(|| Stop::trouble(format!("{shown}: it names no file")))?;
    let folder = match path.parent() {
        Some(folder) if !folder.as_os_str().is_empty() => folder,
        _ => Path::new("."),
    };
    match folder.is_dir() {
        true => Ok((folder, name)),
        false => Err(Stop::trouble(format!("{shown}: there is no folder {}", words::name(folder.as_os_str())))),
    }
}

/// Whether all these may be put into a folder that is there.
pub fn all_free(folder: &Path, names: impl Iterator<Item = impl AsRef<Path>>, force: bool) -> Result<(), Stop> {
    if !folder.exists() {
        return Ok(());
    }
    for path in names.map(|name| folder.join(name)) {
        free(&path, force).map_err(|error| trouble(&path, &error))?;
    }
    Ok(())
}

/// A file or folder that could not be read or written.
pub fn trouble(path: &Path, error: &Error) -> Stop {
    Stop::trouble(format!("{}: {}", words::name(path.as_os_str()), words::plain(error)))
}
