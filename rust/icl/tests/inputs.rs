//! Every command on every sort of input: exit status and exact output.

mod common;

use common::{icl, outcome, pictured_credits, piped, read, run, Folder};

const SOUND: &str = "peer/samples/sound-2-checks.x9";
const DAMAGED: &str = "peer/samples/damaged-06-item-count.x9";

/// The commands that read one file, with the words after its name.
fn commands(folder: &Folder) -> [(&'static str, String); 8] {
    [
        ("rows", String::new()),
        ("rows --csv", String::new()),
        ("rows --json", String::new()),
        ("tree", String::new()),
        ("picture", format!(" 0 -o {}", folder.path("out"))),
        ("pictures", format!(" {}", folder.path("out"))),
        ("tags", String::new()),
        ("draft", format!(" -o {}", folder.path("out"))),
    ]
}

/// What a command prints of no file at all: in the forms for programs the column names, or an empty list.
fn nothing(command: &str) -> String {
    match command {
        "rows --csv" => "record,type,offset,length,letter,bundle,item,amount,name,file\n".to_string(),
        "rows --json" => "[]\n".to_string(),
        _ => String::new(),
    }
}

/// Runs each command on a file, and expects this status and this line on standard error, nothing else, and nothing written.
fn each(folder: &Folder, file: &str, status: i32, complaint: &str) {
    each_but(folder, &[], file, status, complaint);
}

/// The same, without some of the commands.
fn each_but(folder: &Folder, without: &[&str], file: &str, status: i32, complaint: &str) {
    for (command, rest) in commands(folder).into_iter().filter(|(command, _)| !without.contains(command)) {
        let outcome = run(&format!("{command} {file}{rest}"));
        assert_eq!(outcome, (status, nothing(command), format!("icl: {complaint}\n")), "{command} {file}");
    }
    assert!(!folder.0.join("out").exists());
}

#[test]
fn check_prints_the_expected_line_of_every_sample() {
    let expected = String::from_utf8(read("peer/samples/expected.txt")).unwrap();
    let mut all = vec!["check".to_string()];
    let mut lines = String::new();
    for line in expected.lines() {
        let (name, line) = line.split_once('\t').unwrap();
        let file = format!("peer/samples/{name}");
        let status = if line.starts_with("accepted") { 0 } else { 1 };
        assert_eq!(run(&format!("check {file}")), (status, format!("{line}\n"), String::new()), "{name}");
        lines.push_str(&format!("{file}: {line}\n"));
        all.push(file);
    }
    assert_eq!(outcome(&mut icl(all)), (1, lines, String::new()));
    let line = peer_reader::pictures::LINE;
    let pictured = "samples/two-letters-with-pictures.x9";
    assert_eq!(run(&format!("check {pictured}")), (0, format!("{line}\n"), String::new()));
    assert_eq!(peer_reader::pictures::pictured(), read(pictured), "the sample is the one that the generator writes");
    let credits = "samples/credits-with-pictures.x9";
    assert_eq!(run(&format!("check {credits}")), (0, format!("{}\n", pictured_credits::LINE), String::new()));
    assert_eq!(pictured_credits::pictured_credits(), read(credits), "the sample is the one that the example writes");
}

#[test]
fn check_explains() {
    assert_eq!(
        run(&format!("check --explain {SOUND} {DAMAGED}")),
        (
            1,
            format!(
                "{SOUND}: accepted records 12 letters 1 bundles 1 items 2 views 0 debit 350\n\
                 \x20 ACCEPTED: all rules hold\n\
                 \x20 12 records, 1 cash letter, 1 bundle, 2 items, 0 views, 2 debits of 3.50, 0 credits of 0.00\n\
                 {DAMAGED}: refused 9 record 10 field 2 offset 818\n\
                 \x20 TOTAL: a control field is not what its part of the file adds up to\n\
                 \x20 record 10, Bundle Control Record (type 70), at offset 818\n\
                 \x20 field 2, Bundle Debit Item Count, at offset 824\n\
                 \x20 found \"0003\"\n\
                 \x20 debit items in the bundle: 2\n\
                 \x20 no bytes that follow can mend it: the fault stands in the bytes up to the end of record 10, before offset 902\n"
            ),
            String::new()
        )
    );
}

/// Request 2: both sides of an accepted file, and both sides of a part that does not add up.
#[test]
fn check_explains_credits() {
    // Debits: the check of 400.00 and the 61 of usage 9 and 0.05. Credits: 61s of 1,000.00, 123.45 and 0.07.
    assert_eq!(
        run("check --explain peer/samples/sound-11-credits.x9"),
        (
            0,
            "accepted records 17 letters 1 bundles 1 items 5 views 3 debit 40005\n  ACCEPTED: all rules hold\n  17 records, 1 cash \
             letter, 1 bundle, 5 items, 3 views, 2 debits of 400.05, 3 credits of 1,123.52\n"
                .to_string(),
            String::new()
        )
    );
    // The 70 stands at 764; its field 3 is at positions 7 to 18. Returns of 10 and 20 cents, 61s of 1,000 and 2,000, of which the first was added to the debits.
    let lines = [
        "refused 9 record 10 field 3 offset 764",
        "  TOTAL: a control field is not what its part of the file adds up to",
        "  record 10, Bundle Control Record (type 70), at offset 764",
        "  field 3, Bundle Debit Total Amount, at offset 774",
        "  found \"000000001030\"",
        "  cents of the debit items in the bundle: 30; of the credit items: 3000",
        "  no bytes that follow can mend it: the fault stands in the bytes up to the end of record 10, before offset 848",
    ];
    let output = format!("{}\n", lines.join("\n"));
    assert_eq!(run("check --explain peer/samples/damaged-24-credit-as-debit.x9"), (1, output, String::new()));
    let output = "refused 6 record 2 field 0 offset 84\n  PLACE: a record of this type may not stand here\n  \
                  record 2, Credit/Reconciliation Record (type 61), at offset 84\n  \
                  the record before it is record 1, File Header Record (type 01)\n  no cash letter is open here\n  \
                  no bytes that follow can mend it: the fault stands in the bytes up to the end of record 2, before offset 172\n";
    let file = "peer/samples/damaged-19-61-in-no-letter.x9";
    assert_eq!(run(&format!("check --explain {file}")), (1, output.to_string(), String::new()));
}

/// Request 1: the forms that the field takes, and the check digit that should stand there.
#[test]
fn check_explains_routing_numbers() {
    let file = "peer/samples/damaged-02-check-digit.x9";
    let lines = [
        "refused 7 record 4 field 4 offset 252",
        "  FIELD: a field breaks its data type or its defined values",
        "  record 4, Check Detail Record (type 25), at offset 252",
        "  field 4, Payor Bank Routing Number, at offset 274",
        "  found \"123456781\"",
        "  asked: a routing number in one of these forms: TTTTAAAAC (nine digits, the ninth the check digit of the ABA rule), TTTTT-FFF (five \
         digits, a dash, three digits), TTTT-AAAA (four digits, a dash, four digits) or bTTTTAAAA (a blank, eight digits), unless it holds \
         a can't-read mark *",
        "  the check digit is wrong: it is 1 and should be 0",
        "  no bytes that follow can mend it: the fault stands in the bytes up to the end of record 4, before offset 336",
    ];
    let output = format!("{}\n", lines.join("\n"));
    assert_eq!(run(&format!("check --explain {file}")), (1, output, String::new()));
}

#[test]
fn check_agrees_with_the_independent_reader() {
    let folder = Folder::new("generated");
    let (mut words, mut lines) = (vec!["check".to_string()], String::new());
    for index in 0..400 {
        let made = peer_reader::stream::file(180, index).bytes;
        let line = peer_reader::line::line(&made);
        if made.len() <= 65_536 {
            let name = folder.with(&format!("{index}.x9"), &made);
            lines.push_str(&format!("{name}: {line}\n"));
            words.push(name);
        }
    }
    assert!(words.len() > 300 && lines.contains("accepted") && lines.contains("refused"));
    assert_eq!(outcome(&mut icl(words)), (1, lines, String::new()));
}

#[test]
fn damaged() {
    let folder = Folder::new("damaged");
    for (command, rest) in commands(&folder).iter().filter(|(command, _)| *command != "picture") {
        let (status, output, complaint) = run(&format!("{command} {DAMAGED}{rest}"));
        assert_eq!((status, output), (1, nothing(command)), "{command}");
        assert_eq!(
            complaint,
            format!(
                "icl: {DAMAGED}: refused 9 record 10 field 2 offset 818: TOTAL: a control field is not what its part of the file \
                 adds up to; record 10, Bundle Control Record (type 70), at offset 818; field 2, Bundle Debit Item Count, at offset \
                 824; found \"0003\"; debit items in the bundle: 2\n"
            )
        );
    }
    assert!(!folder.0.join("out").exists());
}

#[test]
fn empty() {
    let folder = Folder::new("empty");
    let file = folder.with("empty", b"");
    let line = "refused 1 record 0 field 0 offset 0";
    let words = "SIZE: the file has no byte, or more than 268435456; found 0 bytes";
    assert_eq!(run(&format!("check {file}")), (1, format!("{line}\n"), String::new()));
    each(&folder, &file, 1, &format!("{file}: {line}: {words}"));
    assert_eq!(piped("check -", b""), (1, format!("{line}\n"), String::new()));
}

#[test]
fn missing() {
    let folder = Folder::new("missing");
    let file = folder.path("missing");
    let complaint = format!("{file}: there is no such file or folder");
    assert_eq!(run(&format!("check {file}")), (2, String::new(), format!("icl: {complaint}\n")));
    each(&folder, &file, 2, &complaint);
}

#[test]
fn a_folder() {
    let folder = Folder::new("folder");
    let file = folder.path("");
    let several = ["rows", "rows --csv", "rows --json", "tree", "pictures"];
    each_but(&folder, &several, &file, 2, &format!("{file}: it is a folder, not a file"));
    // These take a folder for the files in it, and there are none.
    let complaint = format!("icl: {file}: there is no file in this folder\n");
    assert_eq!(run(&format!("check {file}")), (2, String::new(), complaint.clone()));
    for (command, rest) in commands(&folder).into_iter().filter(|(command, _)| several.contains(command)) {
        assert_eq!(run(&format!("{command} {file}{rest}")), (2, nothing(command), complaint.clone()));
    }
    assert!(!folder.0.join("out").exists());
}

/// Root may read all, so that root tries it as nobody, with a copy of the tool that nobody can reach.
#[cfg(unix)]
#[test]
fn unreadable() {
    use std::os::unix::fs::PermissionsExt;
    use std::os::unix::process::CommandExt;
    let folder = Folder::new("unreadable");
    let file = folder.with("locked", &read(SOUND));
    let allow = |path: &str, mode| std::fs::set_permissions(path, std::fs::Permissions::from_mode(mode)).unwrap();
    allow(&file, 0o000);
    let complaint = format!("{file}: permission was denied");
    if std::fs::read(&file).is_err() {
        assert_eq!(run(&format!("check {file}")), (2, String::new(), format!("icl: {complaint}\n")));
        return each(&folder, &file, 2, &complaint);
    }
    let copy = folder.path("icl");
    std::fs::copy(env!("CARGO_BIN_EXE_icl"), &copy).unwrap();
    allow(&folder.path(""), 0o755);
    allow(&copy, 0o755);
    let mut nobody = std::process::Command::new(&copy);
    nobody.args(["check", &file]).uid(65534).gid(65534);
    match nobody.output() {
        Ok(output) => {
            let said = String::from_utf8_lossy(&output.stderr).into_owned();
            assert_eq!((output.status.code(), said), (Some(2), format!("icl: {complaint}\n")));
        }
        Err(error) => eprintln!("not tried: nobody cannot be started here ({error})"),
    }
}

#[test]
fn three_hundred_mebibytes() {
    let folder = Folder::new("large");
    let file = folder.sparse("large", 300 << 20);
    let complaint = format!("{file}: too large: at most 268435456 bytes are read, and it has 314572800");
    let line = "refused 1 record 0 field 0 offset 0\n";
    assert_eq!(run(&format!("check {file}")), (1, line.to_string(), format!("icl: {complaint}\n")));
    each(&folder, &file, 1, &complaint);

    let one_more = folder.sparse("one-more", 268_435_457);
    let (status, output, complaint) = run(&format!("check --explain {one_more}"));
    assert_eq!((status, complaint.ends_with("and it has 268435457\n")), (1, true), "{complaint}");
    assert_eq!(
        output,
        format!(
            "{line}  SIZE: the file has no byte, or more than 268435456\n  found 268435457 bytes\n  \
             no bytes that follow can mend it: the file has too many already\n"
        )
    );
}

#[test]
fn a_pipe() {
    let folder = Folder::new("pipe");
    let sound = read(SOUND);
    for command in ["check", "rows", "rows --csv", "rows --json", "tree", "tags"] {
        let mut from_file = run(&format!("{command} {SOUND}"));
        assert_eq!(from_file.0, 0);
        from_file.1 = from_file.1.replace(SOUND, "-");
        assert_eq!(piped(&format!("{command} -"), &sound), from_file, "{command}");
    }
    let (status, output, complaint) = piped(&format!("check {DAMAGED} -"), &sound);
    assert_eq!((status, complaint.as_str()), (1, ""));
    let line = "accepted records 12 letters 1 bundles 1 items 2 views 0 debit 350";
    assert_eq!(output, format!("{DAMAGED}: refused 9 record 10 field 2 offset 818\n-: {line}\n"));

    let views = read("peer/samples/sound-5-returns-with-views.x9");
    let out = folder.path("out");
    let said = format!("3 pictures (3 bytes) written to {out}\n");
    assert_eq!(piped(&format!("pictures - {out}"), &views), (0, said, String::new()));
    assert_eq!(folder.all("out").len(), 3);
}

/// A picture's record is judged alone: a fault elsewhere in the file does not keep it back, a fault of its own does.
#[test]
fn one_picture_of_a_damaged_file_and_from_a_pipe() {
    let folder = Folder::new("one-picture");
    let out = folder.path("out");
    let (status, output, complaint) = run(&format!("picture {DAMAGED} 818 -o {out}"));
    assert_eq!((status, output.as_str()), (1, ""));
    assert!(
        complaint.starts_with(&format!("icl: {DAMAGED}: refused 5 record 0 field 0 offset 818: TYPE: ")),
        "{complaint}"
    );
    assert!(!folder.0.join("out").exists());

    // The first 52 of this sample stands at 922; its field 9, at position 85 of the record, takes 0 to 4.
    let mut views = read("peer/samples/sound-5-returns-with-views.x9");
    views[922 + 4 + 84] = b'5';
    let damaged = folder.with("damaged", &views);
    let (status, output, complaint) = run(&format!("picture {damaged} 922 -o {out}"));
    assert_eq!((status, output.as_str()), (1, ""));
    assert!(
        complaint.starts_with(&format!("icl: {damaged}: refused 7 record 0 field 9 offset 922: FIELD: ")),
        "{complaint}"
    );
    assert!(!folder.0.join("out").exists());
    // The second stands at 1150 and is sound.
    assert_eq!(piped(&format!("picture - 1150 -o {out}"), &views).0, 0);
    assert_eq!(std::fs::read(&out).unwrap(), b"R");
}

#[test]
fn a_pipe_that_never_ends() {
    let zeros = std::fs::File::open("/dev/zero").unwrap();
    let complaint = "icl: standard input: too large: at most 268435456 bytes are read, and it has more\n";
    assert_eq!(
        outcome(icl(["check", "-"]).stdin(zeros)),
        (1, "refused 1 record 0 field 0 offset 0\n".to_string(), complaint.to_string())
    );
    // Named, it is known for what it is.
    let complaint = "icl: /dev/zero: it is a device, not a file, and gives more than 268435456 bytes\n";
    for command in ["check", "tree"] {
        assert_eq!(run(&format!("{command} /dev/zero")), (2, String::new(), complaint.to_string()));
    }
}

#[test]
fn the_largest_file() {
    let folder = Folder::new("largest");
    let file = common::write_largest(&folder, "largest");
    let line = "accepted records 61 letters 1 bundles 1 items 1 views 27 debit 1\n";
    assert_eq!(run(&format!("check {file}")), (0, line.to_string(), String::new()));
    // The last picture begins after the 143 bytes of its 52: 268,435,456 - 84 - 89 - 84 - 8,428,760 - 143 is the 52's offset.
    let out = folder.path("out");
    assert_eq!(run(&format!("picture {file} 260006296 -o {out}")).0, 0);
    assert_eq!(std::fs::metadata(&out).unwrap().len(), 8_428_760);
}

#[test]
fn several_files_of_which_some_cannot_be_read() {
    let (status, output, complaint) = run(&format!("check missing-1 {SOUND} missing-2 {DAMAGED}"));
    assert_eq!(status, 2);
    assert_eq!(
        output,
        format!(
            "{SOUND}: accepted records 12 letters 1 bundles 1 items 2 views 0 debit 350\n\
             {DAMAGED}: refused 9 record 10 field 2 offset 818\n"
        )
    );
    assert_eq!(
        complaint,
        "icl: missing-1: there is no such file or folder\nicl: missing-2: there is no such file or folder\n"
    );
    assert_eq!(run(&format!("check {DAMAGED} missing")).0, 2);
}

#[test]
fn names_that_begin_with_a_dash_or_hold_a_line_end() {
    let folder = Folder::new("names");
    let sound = read(SOUND);
    folder.with("-x", &sound);
    folder.with("a\nb", &sound);
    let line = "accepted records 12 letters 1 bundles 1 items 2 views 0 debit 350";
    let output = outcome(icl(["check", "--", "-x", "a\nb"]).current_dir(&folder.0));
    assert_eq!(output, (0, format!("-x: {line}\na\\nb: {line}\n"), String::new()));
}

#[test]
fn commands_not_understood() {
    for (words, complaint) in [
        ("chekc x", "chekc is no command"),
        ("check", "no file was named"),
        ("check --what x", "--what is not known here"),
        ("check - -", "standard input (-) can be read once only"),
        ("rows", "no file was named"),
        ("rows --csv --json a", "--csv and --json exclude each other"),
        ("picture a", "OFFSET is missing"),
        ("picture a 5", "-o OUT is missing"),
        ("picture a 5 -o", "-o needs a value"),
        ("picture a 5x -o b", "5x is no offset: a decimal number is needed"),
        (
            "picture a 18446744073709551616 -o b",
            "18446744073709551616 is too large for a number: offset is at most 18446744073709551615",
        ),
        ("pictures a", "DIR is missing"),
        ("tags", "FILE is missing"),
        ("tags a b", "b is a word too many: FILE alone is asked"),
        ("tags --tiff", "no file was named"),
        ("tags --tiff - a -", "standard input (-) can be read once only"),
        ("tags --force a", "--force is not known here"),
        ("draft -o b", "FILE is missing"),
        ("draft a", "-o DIR is missing"),
        ("draft a b -o c", "b is a word too many: FILE alone is asked"),
        ("write -o b", "DIR is missing"),
        ("write a", "-o FILE is missing"),
        ("write a -o b -o c", "-o was given twice"),
        ("book", "new, enter, withdraw, tidy, show, list, totals, grow or convert is asked behind icl book"),
        ("book enlarge a", "enlarge is no command of icl book"),
        ("book new", "BOOK is missing"),
        ("book new a b", "b is a word too many: BOOK alone is asked"),
        ("book new a --rows", "--rows needs a value"),
        ("book new a --rows ten", "ten is no number of rows: a decimal number is needed"),
        ("book new a --force", "--force is not known here"),
        ("book enter a --number 1", "FILE is missing"),
        ("book enter a b", "--number N is missing"),
        ("book enter a b --number -1", "-1 is no file number: a decimal number is needed"),
        ("book enter a b --number 1 --number 2", "--number was given twice"),
        (
            "book enter a b --number 18446744073709551616",
            "18446744073709551616 is too large for a number: file number is at most 18446744073709551615",
        ),
        ("book enter a b --number 1", "--owner N is missing, N being 1 or 2"),
        ("book enter a b --number 1 --owner one", "one is no owner: a decimal number is needed"),
        ("book enter a b --number 1 --owner", "--owner needs a value"),
        ("book enter a b --number 1 --owner 1 --owner 2", "--owner was given twice"),
        ("book show a", "ENTRY is missing"),
        ("book show a 1", "--owner N is missing, N being 1 or 2"),
        ("book list a", "--owner N is missing, N being 1 or 2"),
        ("book totals a", "--owner N is missing, N being 1 or 2"),
        ("book totals a --owner -1", "-1 is no owner: a decimal number is needed"),
        ("book show a +1", "+1 is no entry number: a decimal number is needed"),
        ("book list --csv --json a --owner 1", "--csv and --json exclude each other"),
        ("book totals", "BOOK is missing"),
        ("book grow a", "--rows N or --places N is missing"),
        ("book grow a --rows 1 --owner 1", "--owner is not known here"),
        ("book convert a", "NEW is missing"),
        ("book convert a b --owner both", "both is no owner: a decimal number is needed"),
        ("book convert a b --owner 1 --force", "--force is not known here"),
    ] {
        assert_eq!(run(words), (2, String::new(), format!("icl: {complaint} (icl --help tells more)\n")), "{words}");
    }
    let nothing: [&str; 0] = [];
    let complaint = "icl: no command was given (icl --help tells more)\n";
    assert_eq!(outcome(&mut icl(nothing)), (2, String::new(), complaint.to_string()));
}

#[test]
fn help_and_version_everywhere() {
    let commands = [
        "check", "rows", "tree", "picture", "pictures", "tags", "draft", "write", "book", "find", "show", "follow",
        "summary", "diff",
    ];
    for command in commands {
        for words in [format!("{command} --help"), format!("{command} x --help y")] {
            let (status, output, complaint) = run(&words);
            assert_eq!((status, complaint.as_str()), (0, ""));
            assert!(output.starts_with(&format!("icl {command}")) && output.contains("Exit status"), "{output}");
        }
        assert_eq!(run(&format!("{command} --version")), (0, "icl 0.1.0\n".to_string(), String::new()));
    }
    let (status, output, _) = run("--help");
    assert!(status == 0 && commands.iter().all(|word| output.contains(&format!("  icl {word}"))));
    assert_eq!(run("--version"), (0, "icl 0.1.0\n".to_string(), String::new()));
    assert_eq!(run("-h"), run("--help"));
}
