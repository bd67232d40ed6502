//! The files that a command line names: each name is a file, or a folder that stands for the files in it.

use std::ffi::{OsStr, OsString};
use std::fs;
use std::path::{Path, PathBuf};

use crate::words;

/// The files to go through, in their order.
pub struct Files {
    pub each: Vec<Named>,
    /// Several files were named, or a folder: what is said of a file then begins with its name.
    pub several: bool,
}

/// A file, or why there is none.
pub struct Named {
    pub name: OsString,
    pub trouble: Option<String>,
}

impl Files {
    pub fn of(names: &[OsString]) -> Files {
        let several = names.len() > 1 || names.iter().any(|name| is_folder(name));
        let each = names.iter().flat_map(|name| match is_folder(name) {
            true => in_folder(Path::new(name)),
            false => vec![Named { name: name.clone(), trouble: None }],
        });
        Files { each: each.collect(), several }
    }
}

fn is_folder(name: &OsStr) -> bool {
    name != "-" && Path::new(name).is_dir()
}

/// The plain files of a folder in the order of their names, without the hidden ones and without those of folders in it.
fn in_folder(folder: &Path) -> Vec<Named> {
    let trouble = |words: String| {
        let name = folder.as_os_str().to_os_string();
        vec![Named { trouble: Some(format!("{}: {words}", words::name(&name))), name }]
    };
    let entries = match fs::read_dir(folder) {
        Ok(entries) => entries,
        Err(error) => return trouble(words::plain(&error)),
    };
    let is_hidden = |path: &PathBuf| path.file_name().is_none_or(|name| name.as_encoded_bytes().starts_with(b"."));
    let paths = entries.filter_map(|entry| entry.ok()).map(|entry| entry.path());
    let mut paths: Vec<PathBuf> = paths.filter(|path| !is_hidden(path) && path.is_file()).collect();
    if paths.is_empty() {
        return trouble("there is no file in this folder".to_string());
    }
    paths.sort();
    paths.into_iter().map(|path| Named { name: path.into(), trouble: None }).collect()
}
