//! The commands of the desk on every sort of input: a damaged, an empty and a missing file, a folder, a pipe; exit status and exact output.

mod common;

use std::fs;

use common::{piped, read, run, Folder};

const SOUND: &str = "peer/samples/sound-2-checks.x9";
const DAMAGED: &str = "peer/samples/damaged-06-item-count.x9";
const LINE: &str = "refused 9 record 10 field 2 offset 818";
const TOTAL: &str = "TOTAL: a control field is not what its part of the file adds up to; record 10, Bundle Control Record (type 70), at offset 818; field \
                     2, Bundle Debit Item Count, at offset 824; found \"0003\"; debit items in the bundle: 2";
const SIZE: &str =
    "refused 1 record 0 field 0 offset 0: SIZE: the file has no byte, or more than 268435456; found 0 bytes";

/// The table of `icl summary`, its columns as wide as its cells: file or total, letter, and eight numbers; or a file and its refusal.
fn summary(rows: &[(&str, &str)]) -> String {
    let head = "letter records bundles items views debits debit~amount credits credit~amount";
    let rows: Vec<(&str, &str)> = [("file", head)].into_iter().chain(rows.iter().copied()).collect();
    let cells = |row: &str| row.split(' ').map(|cell| cell.replace('~', " ")).collect::<Vec<String>>();
    let first = rows.iter().map(|row| row.0.len()).max().unwrap();
    let mut widths = vec![0; 9];
    for (_, row) in rows.iter().filter(|row| !row.1.starts_with("refused")) {
        widths.iter_mut().zip(cells(row)).for_each(|(width, cell)| *width = (*width).max(cell.len()));
    }
    let line = |(name, row): &(&str, &str)| {
        let rest = match row.starts_with("refused") {
            true => format!("  {row}"),
            false => cells(row).iter().zip(&widths).map(|(cell, width)| format!("  {cell:>width$}")).collect(),
        };
        format!("{name:<first$}{rest}\n")
    };
    rows.iter().map(line).collect()
}

/// The numbers of the sound sample: 12 records, of which 10 in its letter.
const ALL: &str = "all 12 1 2 0 2 3.50 0 0.00";
const LETTER: &str = "1 10 1 2 0 2 3.50 0 0.00";
const NONE: &str = "all 0 0 0 0 0 0.00 0 0.00";

#[test]
fn summaries() {
    let folder = Folder::new("desk-summary");
    let (empty, missing) = (folder.with("empty", b""), folder.path("missing"));
    let sound = |name| [(name, ALL), (name, LETTER), ("1 accepted file (0 refused, 0 not read)", ALL)];
    assert_eq!(run(&format!("summary {SOUND}")), (0, summary(&sound(SOUND)), String::new()));
    assert_eq!(piped("summary -", &read(SOUND)), (0, summary(&sound("-")), String::new()));
    let refused = |name, line| summary(&[(name, line), ("0 accepted files (1 refused, 0 not read)", NONE)]);
    assert_eq!(run(&format!("summary {DAMAGED}")), (1, refused(DAMAGED, LINE), String::new()));
    let size = "refused 1 record 0 field 0 offset 0";
    assert_eq!(run(&format!("summary {empty}")), (1, refused(&empty, size), String::new()));
    let none = summary(&[("0 accepted files (0 refused, 1 not read)", NONE)]);
    let complaint = format!("icl: {missing}: there is no such file or folder\n");
    assert_eq!(run(&format!("summary {missing}")), (2, none, complaint));
    fs::create_dir(folder.0.join("in")).unwrap();
    let [one, other] = [folder.with("in/a", &read(SOUND)), folder.with("in/b", &read(DAMAGED))];
    let rows = [(one.as_str(), ALL), (&one, LETTER), (&other, LINE), ("1 accepted file (1 refused, 0 not read)", ALL)];
    assert_eq!(run(&format!("summary {}", folder.path("in"))), (1, summary(&rows), String::new()));
}

/// What `find`, `rows --walk` and `tree --walk` say where a file cannot be gone through.
#[test]
fn finds_and_walks() {
    let folder = Folder::new("desk-walk");
    let (empty, missing) = (folder.with("empty", b""), folder.path("missing"));
    let none = "0 items found: amount 1.00\n".to_string();
    let find = |file: &str| run(&format!("find {file} --amount 1.00"));
    assert_eq!(find(DAMAGED), (1, none.clone(), format!("icl: {DAMAGED}: {LINE}: {TOTAL}\n")));
    assert_eq!(find(&empty), (1, none.clone(), format!("icl: {empty}: {SIZE}\n")));
    let gone = format!("icl: {missing}: there is no such file or folder\n");
    assert_eq!(find(&missing), (2, none, gone.clone()));
    for command in ["rows", "tree"] {
        let walk = |file: &str| run(&format!("{command} --walk {file}"));
        let head = if command == "rows" { "record  type  offset  length  name\n" } else { "" };
        let indent = if command == "rows" { "        " } else { "    " };
        let fault = [
            "refused 1 record 0 field 0 offset 0",
            "SIZE: the file has no byte, or more than 268435456",
            "found 0 bytes",
        ];
        let fault: String = fault.iter().map(|line| format!("{indent}{line}\n")).collect();
        let expected = format!("not accepted: refused 1 record 0 field 0 offset 0\n{head}{fault}");
        assert_eq!(walk(&empty), (1, expected.clone(), String::new()));
        assert_eq!(walk(&missing), (2, String::new(), gone.clone()));
        // The folder has the empty file alone.
        let path = folder.path("");
        assert_eq!(walk(&path), (1, format!("{path}empty:\n{expected}"), String::new()));
        let (status, from_file, _) = walk(DAMAGED);
        assert_eq!(piped(&format!("{command} --walk -"), &read(DAMAGED)), (status, from_file, String::new()));
    }
}
