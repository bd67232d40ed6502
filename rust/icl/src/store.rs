//! Files written whole or not at all: first into a hidden folder beside their place, then linked or renamed into it.

use std::fs;
use std::io::{BufWriter, Error, ErrorKind, Result, Write};
use std::path::{Path, PathBuf};

use crate::interrupt;

/// A folder of its own within the folder that the files are to be in. Dropped, it is gone with all that is still in it.
pub struct Staging {
    folder: PathBuf,
    destination: PathBuf,
    /// The destination was made here, and goes again if nothing comes to be in it.
    made: bool,
    force: bool,
    placed: Vec<PathBuf>,
    /// The folders that were made in the destination, each before those in it.
    folders: Vec<PathBuf>,
    kept: bool,
}

impl Staging {
    /// Makes the staging folder, and the destination where it is missing.
    pub fn within(destination: &Path, force: bool) -> Result<Staging> {
        interrupt::watch();
        let made = !destination.exists();
        if made {
            fs::create_dir(destination)?;
        }
        let mut staging = Staging {
            folder: PathBuf::new(),
            destination: destination.into(),
            made,
            force,
            placed: Vec::new(),
            folders: Vec::new(),
            kept: false,
        };
        for turn in 0u32.. {
            let folder = destination.join(format!(".icl-{}-{turn}", std::process::id()));
            match fs::create_dir(&folder) {
                Err(error) if error.kind() == ErrorKind::AlreadyExists && turn < 1000 => continue,
                Err(error) => return Err(error),
                Ok(()) => {
                    staging.folder = folder;
                    break;
                }
            }
        }
        Ok(staging)
    }

    /// Writes a file under its name, which may lead through folders, still out of sight.
    pub fn write(&self, name: &Path, bytes: &[u8]) -> Result<()> {
        let path = self.folder.join(name);
        let mut file = match fs::File::create_new(&path) {
            Err(error) if error.kind() == ErrorKind::NotFound => {
                fs::create_dir_all(path.parent().unwrap_or(&self.folder))?;
                fs::File::create_new(&path)?
            }
            file => file?,
        };
        for piece in bytes.chunks(1 << 20) {
            interrupt::heed()?;
            file.write_all(piece)?;
        }
        interrupt::heed()
    }

    /// Writes a file under its name, still out of sight, as it comes.
    pub fn fill(&self, name: &Path, fill: impl FnOnce(&mut dyn Write) -> Result<()>) -> Result<()> {
        let mut file = BufWriter::new(fs::File::create_new(self.folder.join(name))?);
        fill(&mut Heeding(&mut file))?;
        file.flush()?;
        interrupt::heed()
    }

    /// Puts a written file in its place.
    pub fn place(&mut self, name: &Path) -> Result<()> {
        let (from, to) = (self.folder.join(name), self.destination.join(name));
        free(&to, self.force)?;
        self.make_folders_for(name)?;
        if self.force {
            return fs::rename(from, to);
        }
        // A link is never made over a file that has come in the meantime; a rename would be.
        match fs::hard_link(&from, &to) {
            Err(error) if error.kind() == ErrorKind::AlreadyExists => return Err(error),
            // A file system without links.
            Err(_) => fs::rename(from, &to)?,
            Ok(()) => {}
        }
        self.placed.push(to);
        Ok(())
    }

    /// Makes the folders in the destination that a name leads through.
    fn make_folders_for(&mut self, name: &Path) -> Result<()> {
        let parent = self.destination.join(name.parent().unwrap_or(Path::new("")));
        if self.folders.last() == Some(&parent) || parent.is_dir() {
            return Ok(());
        }
        let mut folder = self.destination.clone();
        for part in name.parent().into_iter().flat_map(Path::components) {
            folder.push(part);
            match fs::create_dir(&folder) {
                Err(error) if error.kind() == ErrorKind::AlreadyExists && folder.is_dir() => {}
                Err(error) => return Err(error),
                Ok(()) => self.folders.push(folder.clone()),
            }
        }
        Ok(())
    }

    /// All is in its place and stays.
    pub fn keep(mut self) {
        self.kept = true;
    }
}

impl Drop for Staging {
    fn drop(&mut self) {
        if !self.folder.as_os_str().is_empty() {
            let _ = fs::remove_dir_all(&self.folder);
        }
        if !self.kept {
            self.placed.iter().for_each(|path| drop(fs::remove_file(path)));
            self.folders.iter().rev().for_each(|path| drop(fs::remove_dir(path)));
            if self.made {
                let _ = fs::remove_dir(&self.destination);
            }
        }
    }
}

/// Writes on, until it is told to stop.
struct Heeding<'w, Out>(&'w mut Out);

impl<Out: Write> Write for Heeding<'_, Out> {
    fn write(&mut self, bytes: &[u8]) -> Result<usize> {
        interrupt::heed()?;
        self.0.write(bytes)
    }

    fn flush(&mut self) -> Result<()> {
        self.0.flush()
    }
}

/// Whether a file may be put here: nothing is there, or a plain file that may be overwritten.
pub fn free(path: &Path, force: bool) -> Result<()> {
    match fs::symlink_metadata(path) {
        Err(error) if error.kind() == ErrorKind::NotFound => Ok(()),
        Err(error) => Err(error),
        Ok(_) if !force => Err(Error::new(ErrorKind::AlreadyExists, "it is there already (--force overwrites it)")),
        Ok(about) if !about.is_file() => Err(Error::other("it is there already and is no plain file")),
        Ok(_) => Ok(()),
    }
}
