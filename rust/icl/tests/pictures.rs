//! `picture` and `pictures`: what is written, what is not, and what is left behind.

mod common;

use std::fs;
use std::process::{Command, Stdio};

use common::{icl, read, root, run, write_largest, Folder};

const PICTURED: &str = "samples/two-letters-with-pictures.x9";
const CREDITED: &str = "samples/credits-with-pictures.x9";

/// Each view of the sample with pictures: name, offset of its 52, and the length of its picture. With their lengths a record takes 84
/// bytes, a 26 or 32 takes 119, a 90 takes 89, a 52 takes 143 and its picture.
const VIEWS: [(&str, usize, usize); 8] = [
    ("letter-001/bundle-001/item-0001_view-01.tif", 623, 179),
    ("letter-001/bundle-001/item-0001_view-02.tif", 1029, 188),
    ("letter-001/bundle-001/item-0002_view-01.tif", 1612, 188),
    ("letter-001/bundle-001/item-0002_view-02.tif", 2027, 196),
    ("letter-001/bundle-002/item-0001_view-01.tif", 2702, 188),
    ("letter-001/bundle-002/item-0001_view-02.tif", 3117, 196),
    ("letter-002/bundle-001/item-0001_view-01.tif", 4252, 188),
    ("letter-002/bundle-001/item-0001_view-02.tif", 4667, 196),
];

/// The picture that the generator put into the view of this name.
fn drawn(name: &str) -> Vec<u8> {
    let numbers = name.split(|letter: char| !letter.is_ascii_digit()).filter(|digits| !digits.is_empty());
    peer_reader::pictures::tiff(&numbers.map(|digits| digits.parse().unwrap()).collect::<Vec<usize>>())
}

#[test]
fn every_picture_under_its_ordinals() {
    let folder = Folder::new("every");
    let out = folder.path("out");
    let bytes: usize = VIEWS.iter().map(|view| view.2).sum();
    let said = format!("8 pictures ({},{:03} bytes) written to {out}\n", bytes / 1000, bytes % 1000);
    assert_eq!(run(&format!("pictures {PICTURED} {out}")), (0, said, String::new()));
    assert_eq!(folder.all("out"), VIEWS.map(|view| view.0));
    let file = read(PICTURED);
    for (name, offset, length) in VIEWS {
        let written = fs::read(folder.0.join("out").join(name)).unwrap();
        assert_eq!(written, file[offset + 143..][..length], "{name}");
        assert_eq!(written, drawn(name), "{name}");
    }
}

/// Each view of the sample with credits, in the order of the names. A picture of so many bars, n, in g groups has 138 bytes and 32 + 66 n + 8 g bits.
const CREDIT_VIEWS: [(&str, usize, usize); 14] = [
    ("letter-001/bundle-001/item-0001_view-01.tif", 1314, 179),
    ("letter-001/bundle-001/item-0002_view-01.tif", 1804, 188),
    ("letter-001/bundle-001/item-0002_view-02.tif", 2219, 196),
    ("letter-001/bundle-001/item-0003_view-01.tif", 2726, 196),
    ("letter-001/bundle-001/item-0003_view-02.tif", 3149, 204),
    ("letter-001/bundle-002/item-0001_view-01.tif", 4008, 188),
    ("letter-001/bundle-002/item-0001_view-02.tif", 4423, 196),
    ("letter-001/credit-0001_view-01.tif", 340, 170),
    ("letter-001/credit-0001_view-02.tif", 737, 178),
    ("letter-001/credit-0003_view-01.tif", 5018, 187),
    ("letter-002/bundle-001/item-0001_view-01.tif", 5857, 188),
    ("letter-002/bundle-001/item-0001_view-02.tif", 6272, 196),
    ("letter-002/bundle-001/item-0002_view-01.tif", 6783, 196),
    ("letter-002/credit-0001_view-01.tif", 7378, 178),
];

/// A credit in a bundle is one of its items; one directly in a cash letter is counted among those, with a view or without.
#[test]
fn pictures_of_credits() {
    let folder = Folder::new("credits");
    let out = folder.path("out");
    // 179 + 3 x 188 + 5 x 196 + 204 + 170 + 2 x 178 + 187 = 2,640.
    let said = format!("14 pictures (2,640 bytes) written to {out}\n");
    assert_eq!(run(&format!("pictures {CREDITED} {out}")), (0, said, String::new()));
    assert_eq!(folder.all("out"), CREDIT_VIEWS.map(|view| view.0));
    let file = read(CREDITED);
    for (name, offset, length) in CREDIT_VIEWS {
        let written = fs::read(folder.0.join("out").join(name)).unwrap();
        assert_eq!(written, file[offset + 143..][..length], "{name}");
        assert_eq!(written, drawn(name), "{name}");
        let one = icl(["picture", CREDITED, &offset.to_string(), "-o", "-"]).output().unwrap();
        assert_eq!(one.stdout, written, "{name}");
    }
}

#[test]
fn one_picture() {
    let folder = Folder::new("one");
    let out = folder.path("picture.tif");
    for (name, offset, length) in VIEWS {
        let said = format!("{length} bytes written to {out}\n");
        assert_eq!(run(&format!("picture {PICTURED} {offset} -o {out}")), (0, said, String::new()));
        assert_eq!(fs::read(&out).unwrap(), drawn(name));
        fs::remove_file(&out).unwrap();
    }
    let output = icl(["picture", PICTURED, "623", "-o", "-"]).output().unwrap();
    assert!(output.status.success() && output.stdout == drawn(VIEWS[0].0));
    assert_eq!(folder.names(""), [""; 0]);
    // Without a folder in its name it comes to be where the command is run.
    let here = icl(["picture", root().join(PICTURED).to_str().unwrap(), "623", "-o", "here.tif"])
        .current_dir(&folder.0)
        .output();
    assert_eq!(here.unwrap().stdout, b"179 bytes written to here.tif\n");
    assert_eq!(folder.names(""), ["here.tif"]);
}

/// The record is judged alone: a file that is refused further on still gives its pictures.
#[test]
fn one_picture_of_a_damaged_file() {
    let folder = Folder::new("alone");
    let mut file = read(PICTURED);
    file.truncate(5000);
    let (file, out) = (folder.with("torn", &file), folder.path("out"));
    assert_eq!(run(&format!("picture {file} 623 -o {out}")).0, 0);
    assert_eq!(fs::read(&out).unwrap(), drawn(VIEWS[0].0));
    let (status, output, complaint) = run(&format!("pictures {file} {}", folder.path("all")));
    assert_eq!((status, output.as_str()), (1, ""));
    // The 52 at 4667 takes 339 bytes and ends at 5006.
    assert!(
        complaint.starts_with(&format!("icl: {file}: refused 3 record 35 field 0 offset 4667: CUT: ")),
        "{complaint}"
    );
    assert_eq!(folder.names(""), ["out", "torn"]);
}

#[test]
fn a_picture_refused() {
    let folder = Folder::new("refused");
    let out = folder.path("out");
    for (offset, words) in [
        (
            "252",
            "refused 5 record 0 field 0 offset 252: TYPE: the record's first two characters name no type that is read here; the \
             record, Check Detail Record (type 25), at offset 252; found in place of the type: \"25\"; a picture stands in an Image \
             View Data Record (type 52) only",
        ),
        (
            "5263",
            "refused 3 record 0 field 0 offset 5263: CUT: the file ends before the record does; the record, at offset 5263; a length \
             of four bytes should stand here; bytes left: 0",
        ),
    ] {
        let outcome = run(&format!("picture {PICTURED} {offset} -o {out}"));
        assert_eq!(outcome, (1, String::new(), format!("icl: {PICTURED}: {words}\n")));
    }
    assert_eq!(folder.names(""), [""; 0]);
}

#[test]
fn nothing_is_overwritten_unless_asked() {
    let folder = Folder::new("force");
    let mine = folder.with("mine", b"mine");
    let there = format!("icl: {mine}: it is there already (--force overwrites it)\n");
    assert_eq!(run(&format!("picture {PICTURED} 623 -o {mine}")), (2, String::new(), there));
    assert_eq!(fs::read(&mine).unwrap(), b"mine");
    assert_eq!(run(&format!("picture --force {PICTURED} 623 -o {mine}")).0, 0);
    assert_eq!(fs::read(&mine).unwrap(), drawn(VIEWS[0].0));
    assert_eq!(folder.names(""), ["mine"]);

    // One of the eight is there: none is written.
    let out = folder.path("out");
    fs::create_dir_all(folder.0.join("out/letter-001/bundle-002")).unwrap();
    let fifth = folder.with(&format!("out/{}", VIEWS[4].0), b"mine");
    let there = format!("icl: {fifth}: it is there already (--force overwrites it)\n");
    assert_eq!(run(&format!("pictures {PICTURED} {out}")), (2, String::new(), there));
    assert_eq!(folder.all("out"), [VIEWS[4].0]);
    assert_eq!(fs::read(&fifth).unwrap(), b"mine");
    assert_eq!(run(&format!("pictures {PICTURED} {out} --force")).0, 0);
    assert_eq!(folder.all("out"), VIEWS.map(|view| view.0));
    assert_eq!(fs::read(&fifth).unwrap(), drawn(VIEWS[4].0));
    assert_eq!(run(&format!("pictures {PICTURED} {out}")).0, 2);
}

/// Devices, folders and links are no files to put a picture in the place of, even if asked.
#[test]
fn only_plain_files_are_overwritten() {
    let folder = Folder::new("plain");
    fs::create_dir(folder.0.join("folder")).unwrap();
    let path = folder.path("folder");
    let complaint = format!("icl: {path}: it is a folder, and -o takes the name of a file to write\n");
    for force in ["", "--force "] {
        assert_eq!(run(&format!("picture {force}{PICTURED} 623 -o {path}")), (2, String::new(), complaint.clone()));
    }
    let mut paths: Vec<String> = Vec::new();
    #[cfg(unix)]
    {
        let target = folder.with("target", b"mine");
        std::os::unix::fs::symlink(target, folder.0.join("link")).unwrap();
        paths.push(folder.path("link"));
        // A pipe stands for any device.
        assert!(Command::new("mkfifo").arg(folder.path("pipe")).status().unwrap().success());
        paths.push(folder.path("pipe"));
    }
    let before = folder.names("");
    for path in paths {
        let complaint = format!("icl: {path}: it is there already and is no plain file\n");
        assert_eq!(run(&format!("picture --force {PICTURED} 623 -o {path}")), (2, String::new(), complaint));
    }
    assert_eq!(folder.names(""), before);
}

#[test]
fn places_where_nothing_can_be_written() {
    let folder = Folder::new("places");
    let out = folder.path("missing/out");
    let complaint = format!("icl: {out}: there is no folder {}\n", folder.path("missing"));
    assert_eq!(run(&format!("picture {PICTURED} 623 -o {out}")), (2, String::new(), complaint));
    let complaint = format!("icl: {out}: there is no such file or folder\n");
    assert_eq!(run(&format!("pictures {PICTURED} {out}")), (2, String::new(), complaint));
    let file = folder.with("file", b"");
    let complaint = format!("icl: {file}: it is a file, and a folder for the pictures is asked\n");
    assert_eq!(run(&format!("pictures {PICTURED} {file}")), (2, String::new(), complaint));
    assert_eq!(folder.names(""), ["file"]);
}

/// A write that fails halfway, here by a limit on the size of files: nothing is left behind.
#[cfg(target_os = "linux")]
#[test]
fn a_write_that_fails() {
    let folder = Folder::new("limit");
    let file = write_largest(&folder, "largest");
    let kept = folder.path("kept");
    fs::create_dir(&kept).unwrap();
    folder.with("kept/mine", b"mine");
    let icl = env!("CARGO_BIN_EXE_icl");
    for words in [
        format!("pictures {file} {}", folder.path("new")),
        format!("pictures {file} {kept}"),
        format!("picture {file} 420 -o {}", folder.path("out")),
    ] {
        let limited = Command::new("sh").arg("-c").arg(format!("ulimit -f 2048; exec {icl} {words}")).output().unwrap();
        assert_eq!((limited.status.code(), limited.stdout.as_slice()), (Some(2), b"".as_slice()), "{words}");
        let complaint = String::from_utf8(limited.stderr).unwrap();
        assert!(complaint.contains("File too large") && complaint.lines().count() == 1, "{complaint}");
    }
    assert_eq!(folder.names(""), ["kept", "largest"]);
    assert_eq!(folder.names("kept"), ["mine"]);
}

/// Told to stop while the pictures are written: nothing is left behind.
#[cfg(target_os = "linux")]
#[test]
fn an_interrupted_run() {
    let folder = Folder::new("stopped");
    let file = write_largest(&folder, "largest");
    let out = folder.path("out");
    let child = icl(["pictures", &file, &out]).stdout(Stdio::piped()).stderr(Stdio::piped()).spawn().unwrap();
    while !fs::read_dir(&out).is_ok_and(|mut entries| entries.next().is_some()) {
        std::thread::sleep(std::time::Duration::from_millis(1));
    }
    assert!(Command::new("kill").arg(child.id().to_string()).status().unwrap().success());
    let output = child.wait_with_output().unwrap();
    // Should the machine have been quick enough to finish, all 27 are there and whole.
    if output.status.success() {
        assert_eq!(folder.all("out").len(), 27);
        return;
    }
    let complaint = String::from_utf8(output.stderr).unwrap();
    assert_eq!(output.status.code(), Some(2));
    assert!(complaint.ends_with(": stopped before the end; nothing was left behind\n"), "{complaint}");
    assert_eq!(folder.names(""), ["largest"]);
}

#[test]
fn endings_by_the_format() {
    let folder = Folder::new("endings");
    for (format, ending) in [("21", "jpg"), ("22", "png"), ("23", "tif"), ("25", "jp2"), ("26", "ica"), ("01", "img")] {
        let mut file = read("peer/samples/sound-8-signed-view.x9");
        // The 50 is the fifth record, at 336; its field 5 stands at positions 21 and 22.
        file[336 + 4 + 20..][..2].copy_from_slice(format.as_bytes());
        let (name, out) = (folder.with("file", &file), folder.path(format));
        let said = format!("1 picture (0 bytes) written to {out}\n");
        assert_eq!(run(&format!("pictures {name} {out}")), (0, said, String::new()));
        assert_eq!(folder.all(format), [format!("letter-001/bundle-001/item-0001_view-01.{ending}")]);
    }
}
