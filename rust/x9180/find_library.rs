//! Where the proved library lies, for the build scripts of everything that links it.

use std::env;
use std::fs;
use std::path::{Path, PathBuf};

/// The file that callers link.
pub const LIBRARY: &str = "libx9180.a";

/// The name that the file had before, and has in target/staticlib.
const OLDER: &str = "libabi.a";

/// The folder of the library: the one that X9180_LIB_DIR names, otherwise target/library at the root of the repository. Where the library is missing or
/// is for another processor, cargo is told so, with the line to type, before anything is compiled.
pub fn folder(root: &str) -> PathBuf {
    println!("cargo::rerun-if-env-changed=X9180_LIB_DIR");
    let manifest = PathBuf::from(env::var_os("CARGO_MANIFEST_DIR").expect("cargo sets the manifest's folder"));
    let folder = env::var_os("X9180_LIB_DIR")
        .map_or_else(|| manifest.join(root).join("target/library"), |given| manifest.join(given));
    let folder = if folder.join(LIBRARY).exists() { folder } else { renamed(&folder).unwrap_or(folder) };
    let library = folder.join(LIBRARY);
    println!("cargo::rerun-if-changed={}", library.display());
    let wanted = env::var("CARGO_CFG_TARGET_ARCH").expect("cargo sets the processor");
    if let Err(fault) = is_for(&library, &wanted) {
        println!("cargo::error={} {fault}: type .ci/library at the root of the repository, which proves and builds it for this machine", library.display());
    }
    folder
}

/// A folder of cargo's own with the library under today's name, where this one has it under the older.
fn renamed(folder: &Path) -> Option<PathBuf> {
    let older = folder.join(OLDER);
    println!("cargo::rerun-if-changed={}", older.display());
    let own = PathBuf::from(env::var_os("OUT_DIR").expect("cargo sets the build's folder"));
    fs::copy(older, own.join(LIBRARY)).ok().map(|_| own)
}

/// Whether the first object of an archive is for this processor.
fn is_for(library: &Path, wanted: &str) -> Result<(), String> {
    let bytes = fs::read(library).map_err(|error| format!("cannot be read ({error})"))?;
    match machine(&bytes) {
        Some(found) if found == wanted => Ok(()),
        Some(found) => Err(format!("is for {found}, not for {wanted}")),
        None => Err("is no library of a known processor".to_string()),
    }
}

/// The processor that the first object of an archive names in its ELF header. A member has a header of 60 bytes with its size in decimal digits from 48
/// on; one whose name begins with a slash is a table of the archive's own.
fn machine(archive: &[u8]) -> Option<&'static str> {
    let mut rest = archive.strip_prefix(b"!<arch>\n")?;
    loop {
        let size: usize = std::str::from_utf8(rest.get(48..58)?).ok()?.trim().parse().ok()?;
        let member = rest.get(60..60 + size)?;
        if member.starts_with(b"\x7fELF") {
            return match u16::from_le_bytes([*member.get(18)?, *member.get(19)?]) {
                62 => Some("x86_64"),
                183 => Some("aarch64"),
                _ => None,
            };
        }
        rest = rest.get(60 + size + size % 2..)?;
    }
}
