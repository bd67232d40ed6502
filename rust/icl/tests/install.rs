//! `./install`: what it puts below a folder, that it can be used, and that it all goes again.
#![cfg(target_os = "linux")]

mod common;

use std::fs;
use std::process::Command;

use common::{outcome, root, run, Folder};

/// Runs `./install` with the tool that was built for these tests.
fn install(words: &[&str]) -> (i32, String, String) {
    outcome(
        Command::new(root().join("install"))
            .args(words)
            .env("X9180_ICL", env!("CARGO_BIN_EXE_icl"))
            .env_remove("DESTDIR"),
    )
}

const FILES: [&str; 7] = [
    "bin/icl",
    "include/x9180.h",
    "lib/libx9180.a",
    "lib/pkgconfig/x9180.pc",
    "share/bash-completion/completions/icl",
    "share/man/man1/icl.1",
    "share/x9180/installed",
];

#[test]
fn put_in_place_and_taken_away() {
    let folder = Folder::new("install");
    let prefix = folder.path("prefix");
    let said = format!(
        "put below {prefix}: bin/icl, its manual page and completion, lib/libx9180.a, include/x9180.h and lib/pkgconfig/x9180.pc\n"
    );
    assert_eq!(install(&[&prefix]), (0, said.clone(), String::new()));
    assert_eq!(folder.all("prefix"), FILES);
    let text = |name: &str| fs::read_to_string(folder.0.join("prefix").join(name)).unwrap();
    assert_eq!(text("share/man/man1/icl.1"), run("manual").1);
    assert_eq!(text("share/bash-completion/completions/icl"), run("completion bash").1);
    let package = format!(
        "prefix={prefix}\nlibdir=${{prefix}}/lib\nincludedir=${{prefix}}/include\n\nName: x9180\nDescription: The proved reader and writer of \
         X9.100-180 image cash letters\nVersion: 0.1.0\nLibs: -L${{libdir}} -lx9180\nCflags: -I${{includedir}}\n"
    );
    assert_eq!(text("lib/pkgconfig/x9180.pc"), package);
    // A program that goes by the flags of the package.
    let compiler = std::env::var("CC").unwrap_or_else(|_| "cc".to_string());
    let program = folder.path("read");
    let (lib, include) = (format!("-L{prefix}/lib"), format!("-I{prefix}/include"));
    let words = ["-std=c99", "examples/read.c", &include, &lib, "-lx9180", "-o", &program];
    assert!(Command::new(compiler).args(words).current_dir(root()).status().unwrap().success());
    let (status, output, _) = outcome(Command::new(&program).arg(root().join("peer/samples/sound-2-checks.x9")));
    assert_eq!(
        (status, output.lines().next()),
        (0, Some("accepted records 12 letters 1 bundles 1 items 2 views 0 debit 350"))
    );
    let tool = folder.path("prefix/bin/icl");
    assert_eq!(outcome(Command::new(tool).arg("--version")), (0, "icl 0.1.0\n".to_string(), String::new()));
    // Once more over it, and away: nothing is left.
    assert_eq!(install(&[&prefix]), (0, said, String::new()));
    assert_eq!(install(&["--remove", &prefix]), (0, format!("removed from {prefix}\n"), String::new()));
    assert_eq!(folder.names(""), ["read"]);
    let complaint = format!("install: {prefix}: nothing was put here by ./install\n");
    assert_eq!(install(&["--remove", &prefix]), (2, String::new(), complaint));
}

/// What others have put there stays, and so do their folders.
#[test]
fn what_was_there_stays() {
    let folder = Folder::new("install-beside");
    fs::create_dir_all(folder.0.join("bin")).unwrap();
    folder.with("bin/other", b"mine");
    let prefix = folder.path("");
    let prefix = prefix.trim_end_matches('/');
    assert_eq!(install(&[prefix]).0, 0);
    assert_eq!(folder.all("").len(), FILES.len() + 1);
    assert_eq!(install(&["--remove", prefix]).0, 0);
    assert_eq!(folder.all(""), ["bin/other"]);
    assert_eq!(folder.names(""), ["bin"]);
    for words in [&[][..], &["a", "b"], &["--what"], &["--remove"]] {
        let complaint = "install: use: ./install PREFIX, or ./install --remove PREFIX\n".to_string();
        assert_eq!(install(words), (2, String::new(), complaint), "{words:?}");
    }
}
