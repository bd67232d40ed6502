//! What is told of slips at the keyboard and of files of another make; the shell completion and the manual page; the exit statuses of `--help` and README.

mod common;

use std::process::Command;

use common::{icl, outcome, read, root, run, Folder};

const PICTURED: &str = "samples/two-letters-with-pictures.x9";

#[test]
fn numbers_and_words_too_many() {
    let digits = "9".repeat(30);
    let large = format!("{digits} is too large for a number: offset is at most 18446744073709551615");
    for (words, complaint) in [
        (format!("picture {PICTURED} {digits} -o x"), large.as_str()),
        (format!("show {PICTURED} @{digits}"), &large),
        (format!("show {PICTURED} 1 2"), "2 is a word too many: FILE and RECORD or OFFSET are asked"),
        (format!("picture {PICTURED} 1 2 -o x"), "2 is a word too many: FILE and OFFSET are asked"),
        ("diff a b c".to_string(), "c is a word too many: A and B are asked"),
        ("manual x".to_string(), "x is a word too many: none is asked"),
        ("completion zsh".to_string(), "zsh is no shell that is known here: bash is"),
        ("check --walk a".to_string(), "--walk is not known here"),
    ] {
        assert_eq!(run(&words), (2, String::new(), format!("icl: {complaint} (icl --help tells more)\n")), "{words}");
    }
}

/// A folder where a file is to be written, and the other way round.
#[test]
fn folders_and_files_mistaken() {
    let folder = Folder::new("mistaken");
    let (path, file) = (folder.path(""), folder.with("file", b""));
    assert_eq!(run(&format!("draft {PICTURED} -o {}", folder.path("draft"))).0, 0);
    let complaint = format!("icl: {path}: it is a folder, and -o takes the name of a file to write\n");
    assert_eq!(run(&format!("write {} -o {path}", folder.path("draft"))), (2, String::new(), complaint));
    let complaint = format!("icl: {file}: it is a file, and -o takes the name of a folder\n");
    assert_eq!(run(&format!("draft {PICTURED} -o {file}")), (2, String::new(), complaint));
}

/// Lengths with the low byte first, in either set; a file without lengths has its own hint, and so has one in the other set.
#[test]
fn lengths_with_the_low_byte_first() {
    let folder = Folder::new("low-byte");
    for name in [PICTURED, "samples/ebcdic-with-pictures.x9"] {
        let (whole, mut turned) = (read(name), Vec::new());
        let mut left = whole.as_slice();
        while let Some((length, after)) = left.split_first_chunk::<4>() {
            let (body, rest) = after.split_at(u32::from_be_bytes(*length) as usize);
            turned.extend((body.len() as u32).to_le_bytes());
            turned.extend(body);
            left = rest;
        }
        let file = folder.with("turned", &turned);
        let (status, output, _) = run(&format!("check --explain {file}"));
        let hint = "  with the low byte first it would be 80, and a File Header Record (type 01) follows: the lengths may stand so \
                    (little-endian), where Annex D has the high byte first\n";
        assert!(status == 1 && output.contains(hint), "{output}");
    }
    let (_, output, _) = run("check --explain peer/samples/damaged-01-cut.x9");
    assert!(!output.contains("little-endian"), "{output}");
}

/// Asks bash what it would complete: the words of the line, the last of which is begun.
fn completed(words: &[&str]) -> Vec<String> {
    let (_, script, _) = run("completion bash");
    let line: Vec<String> = words.iter().map(|word| format!("'{word}'")).collect();
    let ask = format!(
        "{script}\nCOMP_WORDS=({}); COMP_CWORD={}; _icl; printf '%s\\n' \"${{COMPREPLY[@]}}\"",
        line.join(" "),
        words.len() - 1
    );
    let output = Command::new("bash").args(["--norc", "-c", &ask]).current_dir(root()).output().unwrap();
    assert_eq!(String::from_utf8_lossy(&output.stderr), "");
    let mut words: Vec<String> = String::from_utf8(output.stdout).unwrap().lines().map(str::to_string).collect();
    words.sort();
    words
}

#[test]
fn completion_in_bash() {
    for (words, expected) in [
        (vec!["icl", "pic"], vec!["picture", "pictures"]),
        (vec!["icl", "--v"], vec!["--version"]),
        (vec!["icl", "tree", "--"], vec!["--csv", "--depth", "--help", "--json", "--walk"]),
        (vec!["icl", "tree", "--depth", ""], vec!["bundle", "item", "letter"]),
        (vec!["icl", "salvage", "-"], vec!["--csv", "--force", "--help", "--json", "--list", "-o"]),
        (vec!["icl", "salvage", "a", "-o", "samp"], vec!["samples"]),
        (vec!["icl", "book", "en"], vec!["enter"]),
        (vec!["icl", "book", "enter", "a", "b", "--owner", ""], vec!["1", "2"]),
        (vec!["icl", "book", "enter", "a", "b", "--n"], vec!["--number"]),
        (vec!["icl", "find", "a", "--sequence", ""], vec![""]),
        (vec!["icl", "find", "a", "--pictures", "samp"], vec!["samples"]),
        (vec!["icl", "check", "samples/two"], vec!["samples/two-letters-with-pictures.x9"]),
        (vec!["icl", "completion", ""], vec!["bash"]),
    ] {
        assert_eq!(completed(&words), expected, "{words:?}");
    }
}

/// Every command and every line of its help stands in the manual page, and every line of the page is text or an instruction that `man` knows.
#[test]
fn the_manual_page() {
    let (status, page, complaint) = run("manual");
    assert_eq!((status, complaint.as_str()), (0, ""));
    assert!(page.starts_with(
        ".TH ICL 1 \"\" \"icl 0.1.0\" \"User Commands\"\n.SH NAME\nicl \\- checks X9.100\\-180 image cash letters, "
    ));
    let known = [".TH ", ".SH ", ".SS ", ".PP", ".TP", ".B ", ".nf", ".fi"];
    for line in page.lines().filter(|line| line.starts_with('.')) {
        assert!(known.iter().any(|start| line.starts_with(start)), "{line}");
    }
    let plain = page.replace("\\-", "-").replace("\\e", "\\");
    let close = |text: &str| text.split_whitespace().collect::<Vec<_>>().join(" ");
    let flat = close(
        &plain
            .lines()
            .map(|line| line.strip_prefix(".B ").unwrap_or(line))
            .filter(|line| !line.starts_with('.'))
            .collect::<Vec<_>>()
            .join(" "),
    );
    for command in [
        "check", "rows", "tree", "picture", "pictures", "tags", "draft", "write", "salvage", "book", "find", "show",
        "follow", "summary", "diff",
    ] {
        assert!(plain.contains(&format!("\n.SS icl {command}\n")), "{command}");
        let (_, help, _) = run(&format!("{command} --help"));
        for line in help.lines() {
            assert!(flat.contains(&close(line)), "{command}: {line}");
        }
    }
}

/// The general help and the README tell the same exit statuses, word for word.
#[test]
fn exit_statuses_are_told_alike() {
    let told = |text: &str| {
        let text = text.replace('`', "").split_whitespace().collect::<Vec<_>>().join(" ");
        let start = text.find("Exit status: 0").unwrap();
        let end = text[start..].find("2 wins over 1.").unwrap();
        text[start..start + end].to_string()
    };
    let (_, help, _) = run("--help");
    assert_eq!(told(&help), told(&String::from_utf8(read("README.md")).unwrap()));
}

/// A command that is not known, and none: what is there is told by --help.
#[test]
fn no_such_command() {
    let outcome = outcome(&mut icl(["fnd", "a"]));
    assert_eq!(outcome, (2, String::new(), "icl: fnd is no command (icl --help tells more)\n".to_string()));
}
