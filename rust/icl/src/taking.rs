//! Pictures taken out of an accepted file into a folder, all or none.

use std::collections::BTreeMap;
use std::ffi::{OsStr, OsString};
use std::path::{Path, PathBuf};

use crate::files::Files;
use crate::input;
use crate::names::NamedView;
use crate::output::{self, trouble};
use crate::screen::Progress;
use crate::stop::Stop;
use crate::store::Staging;
use crate::words::{self, counted};

/// Where the pictures of several files go: each file's into a folder of its own name, those of one file straight into the folder.
pub struct Destination {
    folder: PathBuf,
    several: bool,
    force: bool,
    /// The folder was made here, and goes again if nothing comes to be in it.
    made: bool,
}

impl Destination {
    /// No two files may go into one folder.
    pub fn new(folder: &OsStr, files: &Files, force: bool) -> Result<Destination, Stop> {
        let folder = PathBuf::from(folder);
        if folder.is_file() {
            let name = words::name(folder.as_os_str());
            return Err(Stop::trouble(format!("{name}: it is a file, and a folder for the pictures is asked")));
        }
        let made = files.several && !folder.exists();
        let mut seen: BTreeMap<OsString, &OsStr> = BTreeMap::new();
        for named in files.each.iter().filter(|_| files.several) {
            if let Some(other) = seen.insert(own_name(&named.name), &named.name) {
                let (one, other) = (words::spoken(other), words::spoken(&named.name));
                return Err(Stop::trouble(format!("{one} and {other}: their pictures would go into one folder")));
            }
        }
        Ok(Destination { folder, several: files.several, force, made })
    }

    /// The folder for the pictures of a file.
    fn of(&self, file: &OsStr) -> Result<PathBuf, Stop> {
        if !self.several {
            return Ok(self.folder.clone());
        }
        match std::fs::create_dir(&self.folder) {
            Err(error) if !self.folder.is_dir() => Err(trouble(&self.folder, &error)),
            _ => Ok(self.folder.join(own_name(file))),
        }
    }

    /// Writes the pictures of these views, and tells how many bytes they have and where they are.
    pub fn take(&self, file: &OsStr, bytes: &[u8], views: &[NamedView]) -> Result<String, Stop> {
        let folder = self.of(file)?;
        let paths: Vec<PathBuf> = views.iter().map(NamedView::path).collect();
        output::all_free(&folder, paths.iter(), self.force)?;
        let mut staging = Staging::within(&folder, self.force).map_err(|error| trouble(&folder, &error))?;
        let mut progress = Progress::new();
        let mut written = 0;
        for (done, (path, view)) in paths.iter().zip(views).enumerate() {
            let picture =
                x9180::picture(bytes, view.offset).map_err(|refusal| input::refused(file, bytes, &refusal))?;
            staging.write(path, picture).map_err(|error| trouble(&folder.join(path), &error))?;
            written += picture.len() as u64;
            progress.show(|| format!("writing pictures: {done} of {}", paths.len()));
        }
        for (done, path) in paths.iter().enumerate() {
            staging.place(path).map_err(|error| trouble(&folder.join(path), &error))?;
            progress.show(|| format!("putting pictures in place: {done} of {}", paths.len()));
        }
        staging.keep();
        let (pictures, bytes) = (counted(views.len() as u64, "picture"), counted(written, "byte"));
        Ok(format!("{pictures} ({bytes}) written to {}", words::name(folder.as_os_str())))
    }
}

impl Drop for Destination {
    fn drop(&mut self) {
        if self.made {
            let _ = std::fs::remove_dir(&self.folder);
        }
    }
}

/// The name that a file's own folder has.
fn own_name(file: &OsStr) -> OsString {
    match Path::new(file).file_name() {
        Some(name) if file != "-" => name.to_os_string(),
        _ => "standard-input".into(),
    }
}
