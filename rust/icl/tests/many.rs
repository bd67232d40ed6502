//! Several files and folders: check, rows, tree, pictures and summary; the forms for programs; whole outputs.

mod common;

use std::fs;
use std::process::Stdio;

use common::{icl, outcome, piped, read, run, Folder};

const PICTURED: &str = "samples/two-letters-with-pictures.x9";
const CREDITED: &str = "samples/credits-with-pictures.x9";
const EBCDIC: &str = "samples/ebcdic-with-pictures.x9";
const SOUND: &str = "peer/samples/sound-2-checks.x9";
const DAMAGED: &str = "peer/samples/damaged-06-item-count.x9";
const LINE: &str = "accepted records 12 letters 1 bundles 1 items 2 views 0 debit 350";
const REFUSED: &str = "refused 9 record 10 field 2 offset 818";

/// A folder `in` with a sound and a damaged file, a hidden one, and a folder in it.
fn folder_of_files(test: &str) -> (Folder, String) {
    let folder = Folder::new(test);
    fs::create_dir_all(folder.0.join("in/below")).unwrap();
    folder.with("in/b-damaged", &read(DAMAGED));
    folder.with("in/a-sound", &read(SOUND));
    folder.with("in/.hidden", b"");
    folder.with("in/below/c", b"");
    let path = folder.path("in");
    (folder, path)
}

#[test]
fn a_folder_stands_for_its_files() {
    let (_folder, path) = folder_of_files("folder-of-files");
    let expected = format!("{path}/a-sound: {LINE}\n{path}/b-damaged: {REFUSED}\n");
    assert_eq!(run(&format!("check {path}")), (1, expected.clone(), String::new()));
    // In the order given, whatever is quicker.
    let line = "accepted records 38 letters 2 bundles 3 items 4 views 8 debit 47557";
    let expected = format!("{PICTURED}: {line}\n{expected}{SOUND}: {LINE}\n");
    assert_eq!(run(&format!("check {PICTURED} {path} {SOUND}")), (1, expected, String::new()));
    // The plain words of several.
    let (status, output, _) = run(&format!("check --explain {path}"));
    assert_eq!((status, output.lines().count()), (1, 3 + 7));
}

#[test]
fn rows_and_trees_of_several() {
    let (_folder, path) = folder_of_files("rows-of-several");
    for command in ["rows", "tree", "tree --depth bundle"] {
        let (_, sound, _) = run(&format!("{command} {SOUND}"));
        let (_, pictured, _) = run(&format!("{command} {PICTURED}"));
        let (status, output, complaint) = run(&format!("{command} {path} {PICTURED}"));
        assert_eq!((status, output), (1, format!("{path}/a-sound:\n{sound}\n{PICTURED}:\n{pictured}")), "{command}");
        assert!(complaint.starts_with(&format!("icl: {path}/b-damaged: {REFUSED}: TOTAL: ")), "{complaint}");
        assert_eq!(complaint.lines().count(), 1);
    }
    // For programs all are one list.
    let (_, sound, _) = run(&format!("rows --csv {SOUND}"));
    let (_, pictured, _) = run(&format!("rows --csv {PICTURED}"));
    let (_, both, _) = run(&format!("rows --csv {SOUND} {PICTURED}"));
    let (head, rest) = pictured.split_once('\n').unwrap();
    assert_eq!(both, format!("{sound}{rest}"));
    assert!(sound.starts_with(head));
    let (_, sound, _) = run(&format!("rows --json {SOUND}"));
    let (_, pictured, _) = run(&format!("rows --json {PICTURED}"));
    let (_, both, _) = run(&format!("rows --json {SOUND} missing {PICTURED}"));
    let inside = |list: &str| list.strip_prefix("[\n").unwrap().strip_suffix("\n]\n").unwrap().to_string();
    assert_eq!(both, format!("[\n{},\n{}\n]\n", inside(&sound), inside(&pictured)));
}

#[test]
fn depths() {
    let (_, all, _) = run(&format!("tree {CREDITED}"));
    let starts = |line: &str, words: &[&str]| words.iter().any(|word| line.trim_start().starts_with(word));
    // What a line belongs to is the last line before it that is a level's.
    let levels = ["file", "cash letter ", "bundle ", "item ", "credit record ", "addendum ", "view "];
    for (depth, count) in [("letter", 2), ("bundle", 3), ("item", 5)] {
        let (mut kept, mut expected) = (true, String::new());
        for line in all.lines() {
            if starts(line, &levels) {
                kept = starts(line, &levels[..count]);
            }
            if kept {
                expected.push_str(&format!("{line}\n"));
            }
        }
        assert_eq!(run(&format!("tree --depth {depth} {CREDITED}")), (0, expected, String::new()), "{depth}");
    }
    for (words, complaint) in [
        ("tree --depth view a", "view is no depth: letter, bundle or item is asked"),
        ("tree --depth letter --walk a", "--walk and --depth exclude each other"),
        ("tree", "no file was named"),
    ] {
        assert_eq!(run(words), (2, String::new(), format!("icl: {complaint} (icl --help tells more)\n")));
    }
}

const CHECK_HEAD: &str = "file,result,number,fault,record,field,offset,records,letters,bundles,items,views,debit_items,debit,credit_items,credit,set,words\n";

#[test]
fn check_for_programs() {
    let words = "\"TOTAL: a control field is not what its part of the file adds up to; record 10, Bundle Control Record (type 70), at offset \
                 818; field 2, Bundle Debit Item Count, at offset 824; found \"\"0003\"\"; debit items in the bundle: 2\"";
    let expected = format!(
        "{CHECK_HEAD}{CREDITED},accepted,0,,,,,52,2,3,11,14,5,47807,6,164364,ASCII,\n\
         {EBCDIC},accepted,0,,,,,38,2,3,4,8,4,47557,0,0,EBCDIC,\n\
         missing,unread,,,,,,,,,,,,,,,,missing: there is no such file or folder\n\
         {DAMAGED},refused,9,TOTAL,10,2,818,,,,,,,,,,ASCII,{words}\n"
    );
    let complaint = "icl: missing: there is no such file or folder\n".to_string();
    assert_eq!(run(&format!("check --csv {CREDITED} {EBCDIC} missing {DAMAGED}")), (2, expected, complaint));
    let expected = format!(
        "[\n  {{\"file\": \"{SOUND}\", \"result\": \"accepted\", \"number\": 0, \"fault\": null, \"record\": null, \"field\": null, \
         \"offset\": null, \"records\": 12, \"letters\": 1, \"bundles\": 1, \"items\": 2, \"views\": 0, \"debit_items\": 2, \"debit\": 350, \
         \"credit_items\": 0, \"credit\": 0, \"set\": \"ASCII\", \"words\": null}}\n]\n"
    );
    assert_eq!(run(&format!("check --json {SOUND}")), (0, expected, String::new()));
    assert_eq!(run("check --csv --json a").0, 2);
}

/// A row for each level, by the description in common/pictured_credits.rs and the rows in tests/listings.rs.
#[test]
fn trees_for_programs() {
    let head = "file,level,letter,bundle,item,credit_record,addendum,view,kind,record,offset,amount,letters,bundles,items,views,\
                debit_items,debit,credit_items,credit,sequence,routing,side,bytes\n";
    let (status, output, _) = run(&format!("tree --csv {CREDITED}"));
    assert_eq!((status, output.starts_with(head)), (0, true));
    let rows: Vec<&str> =
        output.lines().skip(1).map(|row| row.strip_prefix(&format!("{CREDITED},")).unwrap()).collect();
    // File, 2 letters, 3 bundles, 11 items, 1 addendum, 14 views.
    assert_eq!(rows.len(), 1 + 2 + 3 + 11 + 1 + 14);
    for row in [
        "file,0,0,0,0,0,0,,1,0,,2,3,11,14,5,47807,6,164364,,,,",
        "letter,1,0,0,0,0,0,,2,84,,1,2,8,10,4,16807,4,33364,,,,",
        "item,1,0,0,1,0,0,credit,3,168,16557,,,,,,,,,000000000000301,123456780,,",
        "view,1,0,0,1,0,2,,7,737,,,,,,,,,,,,back,178",
        "bundle,1,1,0,0,0,0,,8,1058,,0,1,4,5,3,16800,1,16550,,,,",
        "item,1,1,4,0,0,0,debit adjustment,22,3496,250,,,,,,,,,000000000000303,123456780,,",
        "item,2,1,1,0,0,0,return,38,5605,31000,,,,,,,,,000000000000201,123456780,,",
        "addendum,2,1,1,0,1,0,Return Addendum B Record,39,5689,,,,,,,,,,,,,",
        "view,2,1,1,0,0,1,,41,5857,,,,,,,,,,,,front,188",
    ] {
        assert!(rows.contains(&row), "{row}\nnot in\n{output}");
    }
    let (_, output, _) = run(&format!("tree --json --depth letter {SOUND}"));
    let sums = "\"items\": 2, \"views\": 0, \"debit_items\": 2, \"debit\": 350, \"credit_items\": 0, \"credit\": 0, \"sequence\": null, \
                \"routing\": null, \"side\": null, \"bytes\": null}";
    let place = |level: &str, letter: u64, record: u64, offset: u64| {
        format!(
            "  {{\"file\": \"{SOUND}\", \"level\": \"{level}\", \"letter\": {letter}, \"bundle\": 0, \"item\": 0, \"credit_record\": 0, \
             \"addendum\": 0, \"view\": 0, \"kind\": null, \"record\": {record}, \"offset\": {offset}, \"amount\": null, \"letters\": 1, \
             \"bundles\": 1, {sums}"
        )
    };
    assert_eq!(output, format!("[\n{},\n{}\n]\n", place("file", 0, 1, 0), place("letter", 1, 2, 84)));
}

#[test]
fn summary() {
    let expected = format!(
        "\
file                                      letter  records  bundles  items  views  debits  debit amount  credits  credit amount
{CREDITED}             all       52        3     11     14       5        478.07        6       1,643.64
{CREDITED}               1       34        2      8     10       4        168.07        4         333.64
{CREDITED}               2       16        1      3      4       1        310.00        2       1,310.00
{DAMAGED}     {REFUSED}
{SOUND}               all       12        1      2      0       2          3.50        0           0.00
{SOUND}                 1       10        1      2      0       2          3.50        0           0.00
2 accepted files (1 refused, 1 not read)     all       64        4     13     14       7        481.57        6       1,643.64
"
    );
    let complaint = "icl: missing: there is no such file or folder\n".to_string();
    assert_eq!(run(&format!("summary {CREDITED} {DAMAGED} missing {SOUND}")), (2, expected, complaint));
    let head = "file,level,letter,result,number,files_accepted,files_refused,files_unread,records,letters,bundles,items,views,debit_items,\
                debit,credit_items,credit\n";
    let expected = format!(
        "{head}{SOUND},file,0,accepted,0,,,,12,1,1,2,0,2,350,0,0\n{SOUND},letter,1,accepted,0,,,,10,1,1,2,0,2,350,0,0\n\
         {DAMAGED},file,0,refused,9,,,,,,,,,,,,\n,total,0,,,1,1,0,12,1,1,2,0,2,350,0,0\n"
    );
    assert_eq!(run(&format!("summary --csv {SOUND} {DAMAGED}")), (1, expected, String::new()));
    let (status, output, _) = run(&format!("summary --json {SOUND}"));
    let last = "  {\"file\": null, \"level\": \"total\", \"letter\": 0, \"result\": null, \"number\": null, \"files_accepted\": 1, \
                \"files_refused\": 0, \"files_unread\": 0, \"records\": 12, \"letters\": 1, \"bundles\": 1, \"items\": 2, \"views\": 0, \
                \"debit_items\": 2, \"debit\": 350, \"credit_items\": 0, \"credit\": 0}";
    assert_eq!((status, output.lines().nth(3), output.lines().last()), (0, Some(last), Some("]")));
}

/// An empty file, a pipe, a folder.
#[test]
fn summaries_of_sorts_of_input() {
    let (folder, path) = folder_of_files("summaries");
    let empty = folder.with("empty", b"");
    let (status, output, complaint) = run(&format!("summary {empty}"));
    assert_eq!((status, complaint.as_str()), (1, ""));
    assert!(
        output.contains(&format!("{empty}")) && output.contains("  refused 1 record 0 field 0 offset 0\n"),
        "{output}"
    );
    assert!(output.contains("\n0 accepted files (1 refused, 0 not read)"), "{output}");
    let (status, output, _) = piped("summary -", &read(SOUND));
    assert_eq!(status, 0);
    let cells: Vec<&str> = output.lines().nth(1).unwrap().split_whitespace().collect();
    assert_eq!(cells, ["-", "all", "12", "1", "2", "0", "2", "3.50", "0", "0.00"]);
    let (status, output, _) = run(&format!("summary {path}"));
    assert_eq!((status, output.lines().count()), (1, 5));
    assert!(output.contains("\n1 accepted file (1 refused, 0 not read)"), "{output}");
}

/// A folder for each file; a refused one is told, and the others are written.
#[test]
fn pictures_of_several() {
    let folder = Folder::new("pictures-of-several");
    let out = folder.path("out");
    let (status, output, complaint) = run(&format!("pictures {PICTURED} {DAMAGED} {CREDITED} {out}"));
    let expected = format!(
        "{PICTURED}: 8 pictures (1,519 bytes) written to {out}/two-letters-with-pictures.x9\n\
         {CREDITED}: 14 pictures (2,640 bytes) written to {out}/credits-with-pictures.x9\n"
    );
    assert_eq!((status, output), (1, expected));
    assert!(complaint.starts_with(&format!("icl: {DAMAGED}: {REFUSED}: TOTAL: ")), "{complaint}");
    assert_eq!(folder.names("out"), ["credits-with-pictures.x9", "two-letters-with-pictures.x9"]);
    assert_eq!(folder.all("out").len(), 8 + 14);
    assert_eq!(folder.all("out")[0], "credits-with-pictures.x9/letter-001/bundle-001/item-0001_view-01.tif");
    // Nothing comes of none: no folder is left.
    assert_eq!(run(&format!("pictures {DAMAGED} missing {}", folder.path("none"))).0, 2);
    assert_eq!(folder.names(""), ["out"]);
    // A file where the folder should be.
    let file = folder.with("file", b"");
    let complaint = format!("icl: {file}: it is a file, and a folder for the pictures is asked\n");
    assert_eq!(run(&format!("pictures {PICTURED} {SOUND} {file}")), (2, String::new(), complaint));
}

/// Many files, some of which cannot be read, and a reader that goes away: the order stays, and nothing hangs.
#[test]
fn many_files_in_order() {
    let folder = Folder::new("in-order");
    let (sound, damaged, large) = (read(SOUND), read(DAMAGED), common::many_checks());
    let (mut words, mut lines, mut complaints) = (vec!["check".to_string()], String::new(), String::new());
    for index in 0..60 {
        let (name, line) = match index % 7 {
            0 => (
                folder.with(&format!("{index}"), &large),
                "accepted records 10005 letters 1 bundles 1 items 9999 views 0 debit 9999",
            ),
            1 | 4 => (folder.with(&format!("{index}"), &damaged), REFUSED),
            2 => (folder.path(&format!("{index}")), ""),
            _ => (folder.with(&format!("{index}"), &sound), LINE),
        };
        match line {
            "" => complaints.push_str(&format!("icl: {name}: there is no such file or folder\n")),
            line => lines.push_str(&format!("{name}: {line}\n")),
        }
        words.push(name);
    }
    assert_eq!(outcome(&mut icl(words.clone())), (2, lines, complaints));
    words[0] = "rows".to_string();
    let mut child = icl(words).stdout(Stdio::piped()).stderr(Stdio::null()).spawn().unwrap();
    let mut start = [0; 10];
    std::io::Read::read_exact(&mut child.stdout.take().unwrap(), &mut start).unwrap();
    assert_eq!(child.wait().unwrap().code(), Some(0));
}
