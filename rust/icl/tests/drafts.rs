//! `draft` and `write`: the text and the files beside it, the file made out of them, what is refused and where, and what is left behind.

mod common;

use std::fs;
use std::path::Path;
use std::process::{Command, Stdio};

use common::{icl, outcome, piped, read, run, write_largest, Folder};
use peer_reader::copy::copy;

const CHECKS: &str = "peer/samples/sound-2-checks.x9";
const SIGNED: &str = "peer/samples/sound-8-signed-view.x9";
const PICTURED: &str = "samples/two-letters-with-pictures.x9";
const EBCDIC: &str = "samples/ebcdic-with-pictures.x9";

/// The names of the sound samples.
fn sound_samples() -> Vec<String> {
    let mut names = Vec::new();
    for folder in ["peer/samples", "peer/samples/ebcdic", "samples"] {
        let entries = fs::read_dir(common::root().join(folder)).unwrap();
        let files = entries.map(|entry| entry.unwrap().file_name().into_string().unwrap());
        let sound = files.filter(|name| name.ends_with(".x9") && !name.starts_with("damaged"));
        names.extend(sound.map(|name| format!("{folder}/{name}")));
    }
    assert_eq!(names.len(), 13 + 6 + 3);
    names
}

/// A draft in a folder of its own, to be changed.
struct Drafted {
    folder: Folder,
    dir: String,
    text: String,
}

impl Drafted {
    fn of(test: &str, file: &str) -> Drafted {
        let folder = Folder::new(test);
        let dir = folder.path("dir");
        assert_eq!(run(&format!("draft {file} -o {dir}")).0, 0);
        let text = fs::read_to_string(Path::new(&dir).join("letter.json")).unwrap();
        Drafted { folder, dir, text }
    }

    /// Puts other words in the place of the first such words of the text.
    fn with(&self, old: &str, new: &str) -> &Drafted {
        assert!(self.text.contains(old), "{old}");
        self.with_text(self.text.replacen(old, new, 1).as_bytes())
    }

    fn with_text(&self, text: &[u8]) -> &Drafted {
        fs::write(Path::new(&self.dir).join("letter.json"), text).unwrap();
        self
    }

    /// What `write` says, which is to leave nothing behind.
    fn refused(&self) -> (i32, String) {
        let before = self.folder.names("");
        let (status, output, complaint) = run(&format!("write {} -o {}", self.dir, self.folder.path("out")));
        assert_eq!((output.as_str(), self.folder.names("")), ("", before));
        let start = format!("icl: {}/letter.json: ", self.dir);
        (status, complaint.strip_prefix(&start).unwrap_or(&complaint).trim_end().to_string())
    }

    /// The file that is made.
    fn written(&self) -> Vec<u8> {
        let output = icl(["write", &self.dir, "-o", "-"]).output().unwrap();
        assert!(output.status.success() && output.stderr.is_empty(), "{}", String::from_utf8_lossy(&output.stderr));
        output.stdout
    }
}

#[test]
fn every_sound_sample_comes_back() {
    let folder = Folder::new("round");
    for (index, name) in sound_samples().into_iter().enumerate() {
        let (dir, out) = (folder.path(&format!("dir-{index}")), folder.path(&format!("out-{index}")));
        assert_eq!(run(&format!("draft {name} -o {dir}")).0, 0, "{name}");
        let (file, text) = (read(&name), fs::read_to_string(Path::new(&dir).join("letter.json")).unwrap());
        assert!(
            text.is_ascii()
                && text.starts_with("[\n  {\n    \"type\": \"01\",\n    \"record\": \"File Header Record\",\n")
        );
        let records = text.matches("    \"type\": ").count();
        let (status, output, complaint) = run(&format!("write {dir} -o {out}"));
        let (thousands, rest) = (file.len() / 1_000, file.len() % 1_000);
        let bytes = if thousands > 0 { format!("{thousands},{rest:03}") } else { rest.to_string() };
        assert_eq!(output, format!("{records} records ({bytes} bytes) written to {out}\n"), "{complaint}");
        assert_eq!((status, complaint.as_str()), (0, ""));
        assert_eq!(fs::read(&out).unwrap(), *copy(&file), "{name}");
    }
}

/// Files of the independent generator, in both sets, whose fields hold all that a field can hold.
#[test]
fn generated_files_come_back() {
    let folder = Folder::new("generated-drafts");
    let mut seen = 0;
    for index in 0..60 {
        let ascii = peer_reader::stream::file(40, index).bytes;
        for (set, file) in [("ascii", ascii.clone()), ("ebcdic", peer_reader::copy::to_ebcdic(&ascii))] {
            if file.len() > 100_000 || !peer_reader::line::line(&file).starts_with("accepted") {
                continue;
            }
            let (name, dir) = (folder.with("file", &file), folder.path(&format!("{set}-{index}")));
            assert_eq!(run(&format!("draft {name} -o {dir}")).0, 0);
            let output = icl(["write", &dir, "-o", "-"]).output().unwrap();
            assert!(output.status.success() && output.stdout == *copy(&file), "{set} {index}");
            seen += 1;
        }
    }
    assert!(seen >= 20, "{seen}");
}

#[test]
fn the_text_of_a_draft() {
    let drafted = Drafted::of("text", SIGNED);
    // A 52 with both names, clipping from the third corner, a signature, no image, ancillary data.
    let expected = r#"  {
    "type": "52",
    "record": "Image View Data Record",
    "ECE Institution Routing Number": "123456780",
    "Bundle Business Date": "20050230",
    "Cycle Number": "AB",
    "ECE Institution Item Sequence Number": "1",
    "Security Authenticator Name": "AUTHENTICATOR",
    "Security Key Name": "KEY 1",
    "Clipping Origin": "3",
    "Clipping Coordinate h1": "0001",
    "Clipping Coordinate h2": "0200",
    "Clipping Coordinate v1": "0003",
    "Clipping Coordinate v2": "0400",
    "Ancillary Data Indicator": "89",
    "Digital Signature": {"file": "letter-001_bundle-001_item-0001_view-01.signature"},
    "Ancillary Data": {"file": "letter-001_bundle-001_item-0001_view-01.ancillary"}
  },
  {
    "type": "70",
    "record": "Bundle Control Record",
    "blank MICR total": true
  },
  {
    "type": "90",
    "record": "Cash Letter Control Record"
  },
  {
    "type": "99",
    "record": "File Control Record"
  }
]
"#;
    assert!(drafted.text.ends_with(expected), "{}", drafted.text);
    let names = ["ancillary", "signature"].map(|end| format!("letter-001_bundle-001_item-0001_view-01.{end}"));
    assert_eq!(drafted.folder.names("dir"), [&names[0], &names[1], "letter.json"]);

    // The pictures have the bytes and the ordinals that `pictures` gives them, all in one folder.
    let drafted = Drafted::of("text-pictures", PICTURED);
    assert_eq!(run(&format!("pictures {PICTURED} {}", drafted.folder.path("pictures"))).0, 0);
    let pictures = drafted.folder.all("pictures");
    let flat: Vec<String> = pictures.iter().map(|path| path.replace('/', "_")).collect();
    assert_eq!(drafted.folder.names("dir"), [flat.as_slice(), &["letter.json".to_string()]].concat());
    for (path, name) in pictures.iter().zip(flat) {
        let of = |folder: &str, name: &str| fs::read(drafted.folder.0.join(folder).join(name)).unwrap();
        assert_eq!(of("dir", &name), of("pictures", path), "{name}");
        assert!(drafted.text.contains(&format!("    \"Image Data\": {{\"file\": \"{name}\"}}\n")));
    }
    // A file in EBCDIC gives the same text.
    assert_eq!(Drafted::of("text-ebcdic", EBCDIC).text, drafted.text);
}

#[test]
fn values_are_changed() {
    let drafted = Drafted::of("changed", PICTURED);
    let picture = "letter-001_bundle-001_item-0001_view-01.tif";
    fs::write(Path::new(&drafted.dir).join("other.tif"), b"another picture").unwrap();
    let text = drafted.text.replace("\"Item Amount\": \"0000012550\"", "\"Item Amount\": \"1\"");
    let text = text
        .replace(picture, "other.tif")
        .replace("    \"blank MICR total\": true\n", "    \"User Field\": \"\\u0041\"\n");
    let written = drafted.with_text(text.as_bytes()).written();
    let name = drafted.folder.with("written", &written);
    // 0.01 in the place of 125.50.
    let line = "accepted records 38 letters 2 bundles 3 items 4 views 8 debit 35008\n";
    assert_eq!(run(&format!("check {name}")), (0, line.to_string(), String::new()));
    let picture = icl(["picture", &name, "623", "-o", "-"]).output().unwrap();
    assert_eq!(picture.stdout, b"another picture");
}

/// Order, blanks and escapes are the writer's; the name of the kind may be left out.
#[test]
fn the_same_text_written_otherwise() {
    let drafted = Drafted::of("otherwise", CHECKS);
    let file = read(CHECKS);
    let squeezed: String = drafted.text.lines().map(str::trim_start).collect();
    assert_eq!(drafted.with_text(squeezed.as_bytes()).written(), file);
    let mut pieces = drafted.text.split(",\n    \"record\": \"");
    let first = pieces.next().unwrap().to_string();
    let text = pieces.fold(first, |text, piece| text + piece.split_once('"').unwrap().1);
    assert!(!text.contains("\"record\""));
    let text = text.replace('\n', "\r\n").replace("Item Amount", "Item\\u0020Amount");
    assert_eq!(drafted.with_text(text.as_bytes()).written(), file);
    // The type behind the fields; blanks that fill a field up.
    let old = "    \"type\": \"01\",\n    \"record\": \"File Header Record\",\n    \"Standard Level\": \"20\",\n";
    let new = "    \"Standard Level\": \"20\",\n    \"User Field\": \"    \",\n    \"type\": \"01\",\n";
    assert_eq!(drafted.with(old, new).written(), file);
}

/// What is no draft: the line and the column at which it is seen, and exit status 2.
#[test]
fn texts_that_are_not_taken() {
    let drafted = Drafted::of("not-taken", CHECKS);
    let cases = [
        ("[\n", "", "line 1, column 3: a list of records in [ ] is asked"),
        ("  {\n", "  [\n", "line 2, column 3: a record in { } is asked"),
        ("\"20\",", "\"20\"", "line 6, column 5: a comma or } is asked, and found \""),
        ("\"20\"", "20", "line 5, column 23: \"Standard Level\" is to be in quotes, numbers too"),
        ("\"20\"", "null", "line 5, column 23: \"Standard Level\" is to be a text in quotes"),
        ("\"20\"", "true", "line 5, column 5: \"Standard Level\" is to be a text in quotes"),
        ("\"20\"", "{\"file\": \"x\"}", "line 5, column 5: \"Standard Level\" is to be a text in quotes"),
        ("\"20\"", "{}", "line 5, column 23: {\"file\": NAME} is asked, and nothing else in it"),
        ("\"20\"", "{\"file\": [", "line 5, column 23: {\"file\": NAME} is asked, and nothing else in it"),
        ("\"20\"", "{\"file\": \"x\", \"y\"", "line 5, column 40: a : is asked behind the name, and found ,"),
        ("\"20\"", "{\"name\": \"x\"}", "line 5, column 23: {\"file\": NAME} is asked, and nothing else in it"),
        ("\"20\"", "\"2\\0\"", "line 5, column 25: a backslash stands before none of \" \\ / b f n r t u"),
        ("Standard Level", "Standart Level", "line 5, column 5: \"Standart Level\" is no field of the File Header Record (type 01)"),
        ("Standard Level", "Record Type", "line 5, column 5: \"Record Type\" is worked out, and is not to be given"),
        ("Standard Level", "Reserved", "line 5, column 5: \"Reserved\" is always blank, and is not to be given"),
        ("Standard Level", "Resend Indicator", "line 11, column 5: \"Resend Indicator\" is given twice"),
        ("\"20\"", "\"2 \"", "line 5, column 5: \"Standard Level\": given \"2 \"; asked: digits; \" \" is none of them"),
        ("\"20\"", "\"200\"", "line 5, column 5: \"Standard Level\": given \"200\"; asked: digits, at most 2 of them"),
        ("\"20\"", "\"\"", "line 5, column 5: \"Standard Level\": given \"\"; asked: digits"),
        ("    \"type\": \"01\",\n", "", "line 2, column 3: the \"type\" of the record is missing"),
        ("\"01\"", "\"1\"", "line 3, column 5: the \"type\" is to be the two digits of a type of record that is carried, in quotes"),
        ("\"01\"", "\"68\"", "line 3, column 5: the \"type\" is to be the two digits of a type of record that is carried, in quotes"),
        ("\"01\"", "\"99\"", "line 4, column 5: the \"record\" of type 99 is to be \"File Control Record\""),
        ("\"01\"", "true", "line 3, column 5: the \"type\" is to be the two digits of a type of record that is carried, in quotes"),
        (
            "Standard Level\": \"20\"",
            "blank MICR total\": true",
            "line 5, column 5: \"blank MICR total\": asked: a Bundle Control Record (type 70), which alone has a MICR total that may be blank",
        ),
    ];
    for (old, new, complaint) in cases {
        assert_eq!(drafted.with(old, new).refused(), (2, complaint.to_string()), "{old} {new}");
    }
    let control = "\"record\": \"Bundle Control Record\"";
    let flagged = format!("{control},\n    \"blank MICR total\": \"true\"");
    let complaint = "\"blank MICR total\" is to be true or false";
    let (status, said) = drafted.with(control, &flagged).refused();
    assert!(status == 2 && said.ends_with(complaint), "{said}");
    let counted = format!("{control},\n    \"Bundle Debit Item Count\": \"0002\"");
    let (status, said) = drafted.with(control, &counted).refused();
    assert!(
        status == 2 && said.ends_with(": \"Bundle Debit Item Count\" is worked out, and is not to be given"),
        "{said}"
    );

    for (text, complaint) in [
        (b"".as_slice(), "line 1, column 1: a value is asked, and the text ends"),
        (b"{}", "line 1, column 1: a list of records in [ ] is asked"),
        (b"[] []", "line 1, column 4: nothing may follow, and found ["),
        (b"[\n\"\xC3\xA9\", \"\xFF\"]", "line 2, column 7: this is not UTF-8"),
    ] {
        assert_eq!(drafted.with_text(text).refused(), (2, complaint.to_string()));
    }
    fs::remove_file(Path::new(&drafted.dir).join("letter.json")).unwrap();
    assert_eq!(drafted.refused(), (2, "there is no such file or folder".to_string()));
    let missing = run("write missing -o out");
    assert_eq!(missing, (2, String::new(), "icl: missing/letter.json: there is no such file or folder\n".to_string()));
}

#[test]
fn files_that_are_not_taken() {
    let drafted = Drafted::of("files", SIGNED);
    let dir = Path::new(&drafted.dir);
    let name = "letter-001_bundle-001_item-0001_view-01.signature";
    let line = 1 + drafted.text.lines().position(|line| line.contains("Digital Signature\"")).unwrap();
    let place = format!("line {line}, column 5: \"Digital Signature\": ");
    let beside = "a file in the same folder is asked, by its name alone";
    fs::create_dir(dir.join("folder")).unwrap();
    fs::write(dir.join("folder/inside"), b"1").unwrap();
    fs::write(drafted.folder.0.join("outside"), b"1").unwrap();
    fs::write(dir.join("long"), vec![0; 100_000]).unwrap();
    let cases = [
        ("missing", "missing: there is no such file or folder".to_string()),
        ("folder", "folder: it is a folder, not a file".to_string()),
        ("folder/inside", format!("folder/inside: {beside}")),
        ("./long", format!("./long: {beside}")),
        ("../outside", format!("../outside: {beside}")),
        ("/etc/hostname", format!("/etc/hostname: {beside}")),
        ("..", format!("..: {beside}")),
        ("", format!(": {beside}")),
        ("a\\u0000b", "a\\u{0}b: file name contained an unexpected NUL byte".to_string()),
        ("long", "long: it has more than 99999 bytes, and the field holds no more".to_string()),
    ];
    for (other, complaint) in cases {
        assert_eq!(drafted.with(name, other).refused(), (2, format!("{place}{complaint}")), "{other}");
    }
    let old = format!("{{\"file\": \"{name}\"}}");
    let (status, complaint) = drafted.with(&old, "\"text\"").refused();
    assert_eq!(
        (status, complaint),
        (2, format!("line {line}, column 5: \"Digital Signature\" is to be {{\"file\": NAME}}"))
    );
    // 99,999 bytes may be stated.
    fs::write(dir.join("long"), vec![0; 99_999]).unwrap();
    assert_eq!(
        drafted.with(name, "long").written().len(),
        read(SIGNED).len() + 99_999 - fs::read(dir.join(name)).unwrap().len()
    );
}

/// What the rules refuse: exit status 1, the numbers, the place in the text and the plain words.
#[test]
fn drafts_that_are_refused() {
    let drafted = Drafted::of("refused-drafts", CHECKS);
    let line_of = |words: &str| 1 + drafted.text.lines().position(|line| line.contains(words)).unwrap();

    let line = line_of("Payor Bank Routing Number");
    let (status, said) = drafted
        .with("\"Payor Bank Routing Number\": \"123456780\"", "\"Payor Bank Routing Number\": \"123456781\"")
        .refused();
    let start = format!(
        "line {line}, column 5: refused 7 record 4 field 4 offset 252: FIELD: a field breaks its data type or its defined values; record 4 of \
         the draft, Check Detail Record (type 25), at offset 252 of the file being made; field 4, Payor Bank Routing Number, at offset 274; \
         given \"123456781\"; asked: a routing number in one of these forms: "
    );
    assert!(status == 1 && said.starts_with(&start), "{said}");

    // A field that is not given: its record's place.
    let line = line_of("\"type\": \"25\"") - 1;
    let (status, said) = drafted.with("    \"Payor Bank Routing Number\": \"123456780\",\n", "").refused();
    assert!(
        status == 1
            && said.starts_with(&format!("line {line}, column 3: refused 7 record 4 field 4 offset 252: FIELD: ")),
        "{said}"
    );
    assert!(said.contains("; given \"         \"; asked: "), "{said}");

    let line = line_of("\"type\": \"10\"") - 1;
    let start = drafted.text.find("  {\n    \"type\": \"10\"").unwrap();
    let end = start + drafted.text[start..].find("  {\n    \"type\": \"20\"").unwrap();
    let without = [&drafted.text[..start], &drafted.text[end..]].concat();
    let complaint = format!(
        "line {line}, column 3: refused 6 record 2 field 0 offset 84: PLACE: a record of this type may not stand here; record 2 of the draft, \
         Bundle Header Record (type 20), at offset 84 of the file being made; the record before it is record 1, File Header Record (type 01)"
    );
    assert_eq!(drafted.with_text(without.as_bytes()).refused(), (1, complaint));

    // Without the 99 at the end: the end of the list.
    let end = drafted.text.find(",\n  {\n    \"type\": \"99\"").unwrap();
    let without = format!("{}\n]\n", &drafted.text[..end]);
    let complaint = format!(
        "line {}, column 1: refused 6 record 12 field 0 offset {}: PLACE: a record of this type may not stand here; record 12 of the draft, \
         which ends without a File Control Record (type 99); the record before it is record 11, Cash Letter Control Record (type 90)",
        without.lines().count(),
        read(CHECKS).len() - 84,
    );
    assert_eq!(drafted.with_text(without.as_bytes()).refused(), (1, complaint));
    let complaint = "line 1, column 2: refused 6 record 1 field 0 offset 0: PLACE: a record of this type may not stand here; record 1 of the \
                     draft, which ends without a File Control Record (type 99); a file begins with a File Header Record (type 01)";
    assert_eq!(drafted.with_text(b"[]").refused(), (1, complaint.to_string()));

    let viewed = Drafted::of("refused-view", PICTURED);
    let line = 1 + viewed
        .text
        .lines()
        .position(|line| line.contains("ECE Institution Item Sequence Number\": \"000000000000101\""))
        .unwrap();
    let old = "\"ECE Institution Item Sequence Number\": \"000000000000101\"\n";
    assert!(!viewed.text.contains(old));
    // The first stands in the 25; the second in its first 52.
    let second = viewed.text.match_indices("000000000000101").nth(1).unwrap().0;
    let text = format!("{}000000000000109{}", &viewed.text[..second], &viewed.text[second + 15..]);
    let line_of_52 = 1 + text.lines().position(|line| line.contains("000000000000109")).unwrap();
    assert!(line_of_52 > line);
    let (status, said) = viewed.with_text(text.as_bytes()).refused();
    let start = format!("line {line_of_52}, column 5: refused 8 record 8 field 5 offset 623: LINK: a field or record disagrees with an earlier one; ");
    let end = "; given \"000000000000109\"; field 7, ECE Institution Item Sequence Number, of record 4 is \"000000000000101\"";
    assert!(status == 1 && said.starts_with(&start) && said.ends_with(end), "{said}");
}

/// 27 pictures of 9,999,999 bytes and more are not read to the end.
#[test]
fn pictures_past_the_limit() {
    let drafted = Drafted::of("past", PICTURED);
    drafted.folder.sparse("dir/large", 9_999_999);
    let pictures = drafted.text.lines().filter(|line| line.contains("\"Image Data\"")).count();
    assert_eq!(pictures, 8);
    let view = drafted.text.find("  {\n    \"type\": \"50\"").unwrap();
    let end = view + drafted.text[view..].find("  {\n    \"type\": \"50\"").unwrap();
    let data = drafted.text[end..].find("  },\n").unwrap() + end + 5;
    let data = drafted.text[data..].find("  },\n").unwrap() + data + 5;
    let one = drafted.text[view..data].replace("letter-001_bundle-001_item-0001_view-01.tif", "large");
    assert_eq!((one.matches("large").count(), one.matches("\"type\"").count()), (1, 2));
    let text = [&drafted.text[..view], &one.repeat(27), &drafted.text[view..]].concat();
    let complaint = "refused 1 record 0 field 0 offset 0: SIZE: the file has no byte, or more than 268435456; the files beside it have \
                     269999973 bytes so far";
    assert_eq!(drafted.with_text(text.as_bytes()).refused(), (1, complaint.to_string()));
}

#[test]
fn nothing_is_overwritten_unless_asked() {
    let folder = Folder::new("force-drafts");
    let (dir, out) = (folder.path("dir"), folder.path("out"));
    fs::create_dir(&dir).unwrap();
    let mine = folder.with("dir/letter.json", b"mine");
    let there = |path: &str| (2, String::new(), format!("icl: {path}: it is there already (--force overwrites it)\n"));
    assert_eq!(run(&format!("draft {PICTURED} -o {dir}")), there(&mine));
    assert_eq!((folder.names("dir"), fs::read(&mine).unwrap()), (vec!["letter.json".to_string()], b"mine".to_vec()));
    let said = format!("38 records written to {mine}, and 8 files beside it\n");
    assert_eq!(run(&format!("draft --force {PICTURED} -o {dir}")), (0, said, String::new()));
    assert_eq!(folder.names("dir").len(), 9);

    // One of the pictures is there.
    fs::remove_file(&mine).unwrap();
    let names = folder.names("dir");
    assert_eq!(run(&format!("draft {PICTURED} -o {dir}")), there(&format!("{dir}/{}", names[0])));
    assert_eq!(folder.names("dir"), names);
    assert_eq!(run(&format!("draft {PICTURED} -o {dir} --force")).0, 0);

    folder.with("out", b"mine");
    assert_eq!(run(&format!("write {dir} -o {out}")), there(&out));
    assert_eq!(fs::read(&out).unwrap(), b"mine");
    let said = format!("38 records (5,263 bytes) written to {out}\n");
    assert_eq!(run(&format!("write {dir} -o {out} --force")), (0, said, String::new()));
    assert_eq!(fs::read(&out).unwrap(), read(PICTURED));
    assert_eq!(folder.names(""), ["dir", "out"]);
}

#[test]
fn places_where_nothing_can_be_written() {
    let folder = Folder::new("places-drafts");
    let (deep, file) = (folder.path("missing/deep"), folder.with("file", b""));
    let complaint = format!("icl: {deep}: there is no such file or folder\n");
    assert_eq!(run(&format!("draft {CHECKS} -o {deep}")), (2, String::new(), complaint));
    let complaint = format!("icl: {file}: it is a file, and -o takes the name of a folder\n");
    assert_eq!(run(&format!("draft {CHECKS} -o {file}")), (2, String::new(), complaint));
    let dir = folder.path("dir");
    assert_eq!(run(&format!("draft {CHECKS} -o {dir}")).0, 0);
    let complaint = format!("icl: {deep}: there is no folder {}\n", folder.path("missing"));
    assert_eq!(run(&format!("write {dir} -o {deep}")), (2, String::new(), complaint));
    assert_eq!(folder.names(""), ["dir", "file"]);
}

#[test]
fn a_draft_from_a_pipe() {
    let folder = Folder::new("piped-draft");
    let dir = folder.path("dir");
    assert_eq!(piped(&format!("draft - -o {dir}"), &read(CHECKS)).0, 0);
    assert_eq!(icl(["write", &dir, "-o", "-"]).output().unwrap().stdout, read(CHECKS));
}

/// A write that fails halfway, here by a limit on the size of files: nothing is left behind.
#[cfg(target_os = "linux")]
#[test]
fn a_write_that_fails() {
    let folder = Folder::new("limit-drafts");
    let (file, dir) = (write_largest(&folder, "largest"), folder.path("dir"));
    assert_eq!(run(&format!("draft {file} -o {dir}")).0, 0);
    let icl = env!("CARGO_BIN_EXE_icl");
    for words in [format!("draft {file} -o {}", folder.path("new")), format!("write {dir} -o {}", folder.path("out"))] {
        let limited = Command::new("sh").arg("-c").arg(format!("ulimit -f 2048; exec {icl} {words}")).output().unwrap();
        assert_eq!((limited.status.code(), limited.stdout.as_slice()), (Some(2), b"".as_slice()), "{words}");
        let complaint = String::from_utf8(limited.stderr).unwrap();
        assert!(complaint.contains("File too large") && complaint.lines().count() == 1, "{complaint}");
    }
    assert_eq!(folder.names(""), ["dir", "largest"]);
    // Without the limit the largest file comes back.
    let out = folder.path("out");
    let said = format!("61 records (268,435,456 bytes) written to {out}\n");
    assert_eq!(outcome(&mut common::icl(["write", &dir, "-o", &out])), (0, said, String::new()));
    let compared = Command::new("cmp").args([&file, &out]).stdin(Stdio::null()).status().unwrap();
    assert!(compared.success());
}
