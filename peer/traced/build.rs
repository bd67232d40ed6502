//! Translates the slow reader's sources into `OUT_DIR/sources.rs`.

mod translate;

use std::env;
use std::fs;
use std::path::{Path, PathBuf};

fn main() {
    let manifest = PathBuf::from(env::var_os("CARGO_MANIFEST_DIR").expect("cargo sets the manifest's folder"));
    let crates = manifest.join("../../crates");
    println!("cargo:rerun-if-changed={}", manifest.join("../../crates.txt").display());
    println!("cargo:rerun-if-changed=translate.rs");
    let names = slow_crates(&crates);
    let own = names.iter().map(|name| translate::own(name, &sources(&crates.join(name).join("src"))));
    let shared = translate::SHARED.iter().map(|(name, types)| {
        let text: String = sources(&crates.join(name).join("src")).into_iter().map(|(_, text)| text).collect();
        translate::shared(name, types, &text)
    });
    let all: String = shared.chain(own).collect();
    let out = PathBuf::from(env::var_os("OUT_DIR").expect("cargo sets the folder for what is made"));
    fs::write(out.join("sources.rs"), all).expect("the folder can be written to");
}

/// The crates named slow_.., in the order of their names.
fn slow_crates(crates: &Path) -> Vec<String> {
    let mut names: Vec<String> = fs::read_dir(crates)
        .expect("the crates stand beside the independent side")
        .map(|entry| entry.expect("a name").file_name().to_string_lossy().into_owned())
        .filter(|name| name.starts_with("slow_"))
        .collect();
    names.sort();
    names
}

/// The sources of a crate, each with the name of its module.
fn sources(folder: &Path) -> Vec<(String, String)> {
    println!("cargo:rerun-if-changed={}", folder.display());
    let mut sources: Vec<(String, String)> = fs::read_dir(folder)
        .unwrap_or_else(|error| panic!("{}: {error}", folder.display()))
        .map(|entry| entry.expect("a name").path())
        .map(|path| {
            assert!(path.extension().is_some_and(|ending| ending == "rt"), "{}: not looked into", path.display());
            let name = path.file_stem().expect("a name").to_string_lossy().into_owned();
            (name, fs::read_to_string(&path).expect("a source"))
        })
        .collect();
    sources.sort();
    sources
}
