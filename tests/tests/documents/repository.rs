//! The repository as the tests of its documents see it: its folder, its texts, its documents.
use std::fs;
use std::path::Path;
use std::path::PathBuf;

/// The folder of the repository.
pub fn root() -> PathBuf {
    Path::new(env!("CARGO_MANIFEST_DIR")).parent().expect("tests/ stands in the repository").to_path_buf()
}

pub fn text(path: &str) -> String {
    fs::read_to_string(root().join(path)).unwrap_or_else(|error| panic!("{path}: {error}"))
}

pub fn names_in(folder: &Path) -> Vec<String> {
    let mut names: Vec<String> = fs::read_dir(folder)
        .unwrap_or_else(|error| panic!("{}: {error}", folder.display()))
        .map(|entry| entry.expect("a name").file_name().to_string_lossy().into_owned())
        .collect();
    names.sort();
    names
}

/// What stands between single backquotes, in order, with the characters between one and the next.
pub fn quoted(text: &str) -> Vec<(String, String)> {
    let pieces: Vec<&str> = text.split('`').collect();
    let mut found = Vec::new();
    for pair in pieces.chunks(2).collect::<Vec<_>>().windows(2) {
        if pair[0].len() == 2 {
            found.push((pair[0][1].to_string(), pair[1][0].to_string()));
        }
    }
    found
}

/// The documents that a successor reads; the landing notes, and the page on the port, tell of their own day and keep their figures.
pub fn documents() -> Vec<String> {
    let mut found: Vec<String> = names_in(&root()).into_iter().filter(|name| name.ends_with(".md")).collect();
    for name in names_in(&root().join("docs")) {
        if name.ends_with(".md") && name != "PORT.md" {
            found.push(format!("docs/{name}"));
        }
    }
    for folder in ["bench", "fuzz", "peer", "samples"] {
        let path = format!("{folder}/README.md");
        if root().join(&path).is_file() {
            found.push(path);
        }
    }
    found
}

/// Every text of the repository below these folders, by its path: what git would keep, and can be read as text. In `out` stands what `rt` makes.
pub fn texts_below(folders: &[&str]) -> Vec<(String, String)> {
    let mut found = Vec::new();
    for folder in folders {
        gather(folder, &mut found);
    }
    found
}

fn gather(path: &str, found: &mut Vec<(String, String)>) {
    let whole = root().join(path);
    if whole.is_dir() {
        for name in names_in(&whole) {
            if name != "target" && name != "out" && name != ".git" {
                let below = if path == "." { name } else { format!("{path}/{name}") };
                gather(&below, found);
            }
        }
    } else if let Ok(text) = fs::read_to_string(&whole) {
        found.push((path.to_string(), text));
    }
}

/// Every document of the repository, the landing notes too.
pub fn all_documents() -> Vec<(String, String)> {
    texts_below(&["."]).into_iter().filter(|(path, _)| path.ends_with(".md")).collect()
}
