//! One version. `rust/Cargo.toml` decides it; the header's macros and the newest entry of CHANGELOG.md are held to it here. The tool prints its package's
//! own (`env!("CARGO_PKG_VERSION")`), `./install` asks the tool, and `rust/icl/tests/install.rs` looks at what they put in place.
use crate::repository::*;

/// What stands between quotes behind the first of these words in a file.
fn in_quotes(path: &str, words: &str) -> String {
    let whole = text(path);
    let at = whole.find(words).unwrap_or_else(|| panic!("{path} has no {words}"));
    whole[at + words.len()..].split('"').nth(1).unwrap_or_else(|| panic!("{path}: nothing in quotes")).to_string()
}

fn version() -> String {
    in_quotes("rust/Cargo.toml", "[workspace.package]\nversion =")
}

#[test]
fn the_header_has_the_version() {
    let header = text("include/x9180.h");
    let parts = ["MAJOR", "MINOR", "PATCH"].map(|part| {
        let start = format!("#define X9180_VERSION_{part} ");
        let line = header.lines().find_map(|line| line.strip_prefix(&start));
        line.unwrap_or_else(|| panic!("include/x9180.h has no {start}")).to_string()
    });
    assert_eq!(in_quotes("include/x9180.h", "#define X9180_VERSION "), version());
    assert_eq!(parts.join("."), version());
}

/// The packages that say so share it, in every lock file that names them.
#[test]
fn packages_and_lock_files_have_the_version() {
    for package in ["rust/icl", "rust/x9180"] {
        let manifest = text(&format!("{package}/Cargo.toml"));
        assert!(manifest.contains("\nversion.workspace = true\n"), "{package} has a version of its own");
    }
    let mut count = 0;
    for (path, lock) in texts_below(&["."]).into_iter().filter(|(path, _)| path.ends_with("Cargo.lock")) {
        for entry in lock.split("[[package]]") {
            if entry.contains("name = \"icl\"\n") || entry.contains("name = \"x9180\"\n") {
                assert!(entry.contains(&format!("version = \"{}\"\n", version())), "{path}: {entry}");
                count += 1;
            }
        }
    }
    assert!(count >= 3, "only {count} entries of lock files were read");
}

#[test]
fn the_changelog_begins_with_the_version() {
    let changes = text("CHANGELOG.md");
    let newest = changes.lines().find_map(|line| line.strip_prefix("## ")).expect("CHANGELOG.md has an entry");
    assert_eq!(newest.split_whitespace().next(), Some(version().as_str()), "{newest}");
}
