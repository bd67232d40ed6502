//! `salvage`: torn samples, what is written of them and what is said, by figures worked out from the samples' own records; the list beside the independent
//! salvage; refusals, and what is left behind.

mod common;

use std::fs;

use common::{icl, outcome, piped, read, run, Folder};
use peer_reader::copy::{copy, to_ebcdic};
use peer_reader::plain::*;
use peer_salvage::generate;

const PICTURED: &str = "samples/two-letters-with-pictures.x9";
const CREDITS: &str = "samples/credits-with-pictures.x9";

/// A torn file in a folder of its own, salvaged: the status, what is said behind the first line, and what is written.
struct Torn {
    folder: Folder,
    name: String,
}

impl Torn {
    fn new(test: &str, bytes: &[u8]) -> Torn {
        let folder = Folder::new(&format!("salvage-{test}"));
        let name = folder.with("torn.x9", bytes);
        Torn { folder, name }
    }

    /// The lines behind the first, which tells how many records and bytes were written.
    #[track_caller]
    fn told(&self, written: &str) -> String {
        let out = self.folder.path("left.x9");
        let (status, output, complaint) = run(&format!("salvage {} -o {out}", self.name));
        assert_eq!((status, complaint.as_str()), (0, ""));
        let (first, rest) = output.split_once('\n').unwrap();
        assert_eq!(first, format!("{written} written to {out}"));
        rest.to_string()
    }

    fn left(&self) -> Vec<u8> {
        fs::read(self.folder.0.join("left.x9")).unwrap()
    }

    /// What is refused leaves nothing behind.
    #[track_caller]
    fn refused(&self) -> (i32, String) {
        let (status, output, complaint) = run(&format!("salvage {} -o {}", self.name, self.folder.path("left.x9")));
        assert_eq!((output.as_str(), self.folder.names("")), ("", vec!["torn.x9".to_string()]));
        let start = format!("icl: {}: ", self.name);
        (status, complaint.strip_prefix(&start).unwrap_or(&complaint).trim_end().to_string())
    }
}

/// Cut at byte 2,900 of 5,263. Of the first letter the first bundle has come whole: checks of 125.50 and 40.00; of the second bundle the header, a check of 0.07 and
/// the 50 of its first view, and 194 of the 327 bytes of the 52.
#[test]
fn cut_in_a_bundle() {
    let torn = Torn::new("bundle", &read(PICTURED)[..2_900]);
    let expected = "\
new file: 1 cash letter, 1 bundle, 2 items, 4 views, 2 debits of 165.50, 0 credits of 0.00
torn file: 20 records walked: 17 kept, 0 made new, 3 dropped
    record 21 is cut off, at offset 2702: its length says 327 bytes; bytes left: 194
  cash letter 1: kept, 1 bundle, 2 items, 4 views, 2 debits of 165.50, 0 credits of 0.00
    bundle 1, records 3 to 17: kept, 2 items, 4 views, 2 debits of 165.50, 0 credits of 0.00
    bundle 2, records 18 to 20: dropped, 1 item, 1 view, 1 debit of 0.07, 0 credits of 0.00
      PLACE: no Bundle Control Record (type 70) closes it
    no control was walked: what the cash letter should come to is not known
  no file control was walked: what the whole file should come to is not known
    nor was the control of any cash letter
";
    // 2,450 bytes as they stood, a 90 of 89 and a 99 of 84.
    assert_eq!(torn.told("19 records (2,623 bytes)"), expected);
    let controls = file(&[letter_control(1, 2, 16_550, 4), file_control(1, 19, 2, 16_550)]);
    assert_eq!(torn.left(), [&read(PICTURED)[..2_450], &controls].concat());
    let line = "accepted records 19 letters 1 bundles 1 items 2 views 4 debit 16550\n";
    assert_eq!(run(&format!("check {}", torn.folder.path("left.x9"))), (0, line.to_string(), String::new()));
}

/// Cut behind the 32 of the second letter, at a record's end: the first letter has come whole, and of the second no bundle has, which is of I.
#[test]
fn cut_in_the_second_letter() {
    let torn = Torn::new("letter", &read(PICTURED)[..4_000]);
    let expected = "\
new file: 1 cash letter, 2 bundles, 3 items, 6 views, 3 debits of 165.57, 0 credits of 0.00
torn file: 29 records walked: 24 kept, 1 made new, 4 dropped
    the bytes end behind record 29, at offset 4000
  cash letter 1: kept, 2 bundles, 3 items, 6 views, 3 debits of 165.57, 0 credits of 0.00
    bundle 1, records 3 to 17: kept, 2 items, 4 views, 2 debits of 165.50, 0 credits of 0.00
    bundle 2, records 18 to 24: kept, 1 item, 2 views, 1 debit of 0.07, 0 credits of 0.00
    control, record 25: made new
      debits: it states 3 of 165.57, kept are 3 of 165.57: nothing missing
  cash letter 2, record 26: dropped
    PLACE: its cash letter is to hold a bundle (Annex B), and no sound one is left
    bundle 1, records 27 to 29: dropped, 1 item, 0 views, 1 debit of 310.00, 0 credits of 0.00
      PLACE: no Bundle Control Record (type 70) closes it
    no control was walked: what the cash letter should come to is not known
  no file control was walked: what the whole file should come to is not known
    by the 1 cash letter control walked: debits of 0.00 and credits of 0.00 missing
";
    // 01 and the first letter end at 3,629; the 99 has 84 bytes.
    assert_eq!(torn.told("26 records (3,713 bytes)"), expected);
    let control = file(&[file_control(1, 26, 3, 16_557)]);
    assert_eq!(torn.left(), [&read(PICTURED)[..3_629], &control].concat());
}

/// In EBCDIC, a check digit wrong in the second bundle of the first letter, and the 70 of the second letter lost.
#[test]
fn a_fault_in_a_bundle_and_a_control_lost() {
    let mut bytes = read("samples/ebcdic-with-pictures.x9");
    bytes[2_534 + 4 + 26] = 0xF9; // the last digit of 25.4, positions 19 to 27
    bytes.drain(5_006..5_090);
    let torn = Torn::new("ebcdic", &bytes);
    let expected = "\
new file: 1 cash letter, 1 bundle, 2 items, 4 views, 2 debits of 165.50, 0 credits of 0.00
torn file: 37 records walked: 17 kept, 2 made new, 18 dropped
    character set: EBCDIC (code page 037)
  cash letter 1: kept, 1 bundle, 2 items, 4 views, 2 debits of 165.50, 0 credits of 0.00
    bundle 1, records 3 to 17: kept, 2 items, 4 views, 2 debits of 165.50, 0 credits of 0.00
    bundle 2, records 18 to 24: dropped, 1 item, 2 views, 1 debit of 0.07, 0 credits of 0.00
      FIELD: a field breaks its data type or its defined values
      record 19, Check Detail Record (type 25), at offset 2534
      field 4, Payor Bank Routing Number, at offset 2556
      found \"333333339\"
      asked: a routing number in one of these forms: TTTTAAAAC (nine digits, the ninth the check digit of the ABA rule), \
TTTTT-FFF (five digits, a dash, three digits), TTTT-AAAA (four digits, a dash, four digits) or \
bTTTTAAAA (a blank, eight digits), unless it holds a can't-read mark *
      the check digit is wrong: it is 9 and should be 4
    control, record 25: made new
      debits: it states 3 of 165.57, kept are 2 of 165.50: 0.07 missing
  cash letter 2, record 26: dropped
    PLACE: its cash letter is to hold a bundle (Annex B), and no sound one is left
    bundle 1, records 27 to 35: dropped, 1 item, 2 views, 1 debit of 310.00, 0 credits of 0.00
      PLACE: no Bundle Control Record (type 70) closes it
    control, record 36: dropped
      debits: it states 1 of 310.00, kept are 0 of 0.00: 310.00 missing
  file control, record 37: made new
    items: it states 4, kept are 2: 2 missing
    debits: it states 475.57, kept are 165.50: 310.07 missing
";
    assert_eq!(torn.told("19 records (2,623 bytes)"), expected);
    // The blank controls' other fields are blank in the sample too, and what is kept is in ASCII.
    let controls = file(&[letter_control(1, 2, 16_550, 4), file_control(1, 19, 2, 16_550)]);
    assert_eq!(torn.left(), [&read(PICTURED)[..2_450], &controls].concat());
}

/// Credits among the bundles: the first view of the first one has lost its 52, and a 52 of the first bundle is spoiled; its records move up by one, and the kept ones by
/// their ordinals too. Of 165.57, 165.50, 2.50 and 0.07 of credits in the letter the last two are kept, and of debits 0.07.
#[test]
fn credits_and_their_views() {
    let mut bytes = read(CREDITS);
    bytes[2_219 + 4 + 90] = b'e'; // in 52.11, positions 90 to 93
    bytes.drain(340..653);
    let torn = Torn::new("credits", &bytes);
    let expected = "\
new file: 2 cash letters, 2 bundles, 6 items, 7 views, 2 debits of 310.07, 4 credits of 1,312.57
torn file: 51 records walked: 28 kept, 3 made new, 20 dropped
  cash letter 1: kept, 1 bundle, 3 items, 3 views, 1 debit of 0.07, 2 credits of 2.57
    credit record 1, records 3 to 6: dropped, 1 item, 2 views, 0 debits of 0.00, 1 credit of 165.57
      PLACE: a record of this type may not stand here
      record 5, Image View Detail Record (type 50), at offset 340
      the record before it is record 4, Image View Detail Record (type 50)
      the Image View Data Record (type 52) of the view has to come first
    bundle 1, records 7 to 22: dropped, 4 items, 5 views, 3 debits of 168.00, 1 credit of 165.50
      FIELD: a field breaks its data type or its defined values
      record 15, Image View Data Record (type 52), at offset 1906
      field 11, Clipping Coordinate h2, at offset 1999
      found \"0e00\"
";
    let told = torn.told("31 records (4,372 bytes)");
    assert!(told.starts_with(expected), "{told}");
    let behind = "
    credit record 2 (1 in the new file), record 23: kept, 1 item, 0 views, 0 debits of 0.00, 1 credit of 2.50
    bundle 2 (1 in the new file), records 24 to 30: kept, 1 item, 2 views, 1 debit of 0.07, 0 credits of 0.00
    credit record 3 (2 in the new file), records 31 to 33: kept, 1 item, 1 view, 0 debits of 0.00, 1 credit of 0.07
    control, record 34: made new
      debits: it states 4 of 168.07, kept are 1 of 0.07: 168.00 missing
      credits: it states 4 of 333.64, kept are 2 of 2.57: 331.07 missing
  cash letter 2: kept, 1 bundle, 3 items, 4 views, 1 debit of 310.00, 2 credits of 1,310.00
    bundle 1, records 36 to 46: kept, 2 items, 3 views, 1 debit of 310.00, 1 credit of 310.00
    credit record 1, records 47 to 49: kept, 1 item, 1 view, 0 debits of 0.00, 1 credit of 1,000.00
    control, record 50: made new
      debits: it states 1 of 310.00, kept are 1 of 310.00: nothing missing
      credits: it states 2 of 1,310.00, kept are 2 of 1,310.00: nothing missing
  file control, record 51: made new
    items: it states 11, kept are 6: 5 missing
    debits: it states 478.07, kept are 310.07: 168.00 missing
    credits: it states 1,643.64, kept are 1,312.57: 331.07 missing
";
    assert!(told.ends_with(behind), "{told}");
}

/// A letter without its header, a header that is not sound, controls that cannot be read, bytes behind the 99, an amount that is none.
#[test]
fn headers_lost_and_controls_spoiled() {
    let bundle = |cents| [bundle_header(), check(cents, ' ', 0), bundle_control(1, cents, NOT_STATED, 0)];
    let records = [
        vec![file_header()],
        bundle(100).to_vec(), // 2 to 4, their header lost
        vec![letter_control(1, 1, 100, 0), letter_header('e')],
        bundle(2_000).to_vec(), // 7 to 9
        vec![bundle_header(), put(check(0, ' ', 0), 48, "00000000?0"), bundle_control(1, 0, NOT_STATED, 0)],
        vec![put(letter_control(2, 1, 5_000, 0), 17, "0000000000A000"), put(letter_header('N'), 43, "X")],
        vec![credit('9', 300), letter_sums(0, (1, 300), 0, (2, 400))],
        vec![file_sums(3, 17, 4, 1_000, 0)],
    ];
    let torn = Torn::new("spoiled", &[file(&records.concat()), b"more".to_vec()].concat());
    let amount = "      FIELD: a field breaks its data type or its defined values
      record 11, Check Detail Record (type 25), at offset 845
      field 6, Item Amount, at offset 896
      found \"00000000?0\"
      asked: ";
    let expected = [
        "\
new file: 1 cash letter, 1 bundle, 1 item, 0 views, 1 debit of 20.00, 0 credits of 0.00
torn file: 17 records walked: 5 kept, 2 made new, 10 dropped
    behind the file control, at offset 1447, 4 bytes more, not looked at
  astray, records 2 to 5: dropped, 1 item, 0 views, 1 debit of 1.00, 0 credits of 0.00
    PLACE: it belongs to no bundle, credit or cash letter that is kept
    record 5 is the control of a cash letter without its header
      debits: it states 1 of 1.00, kept are 0 of 0.00: 1.00 missing
  cash letter 1: kept, 1 bundle, 1 item, 0 views, 1 debit of 20.00, 0 credits of 0.00
    bundle 1, records 7 to 9: kept, 1 item, 0 views, 1 debit of 20.00, 0 credits of 0.00
    bundle 2, records 10 to 12: dropped, 1 item, 0 views, 1 debit of 0.00, 0 credits of 0.00, 1 amount that cannot be read left out
",
        "\
    control, record 13: made new
      debits: what it states cannot be read, kept are 1 of 20.00: what is missing is not known
  cash letter 2, record 14: dropped
    FIELD: a field breaks its data type or its defined values
    record 14, Cash Letter Header Record (type 10), at offset 1102
    field 8, Cash Letter Record Type Indicator, at offset 1148
    found \"X\"
    asked: one of ",
        "\
    credit record 1, record 15: dropped, 1 item, 0 views, 1 debit of 3.00, 0 credits of 0.00
      PLACE: the header of its cash letter is not sound
    control, record 16: dropped
      debits: it states 1 of 3.00, kept are 0 of 0.00: 3.00 missing
      credits: it states 2 of 4.00, kept are 0 of 0.00: 4.00 missing
  file control, record 17: made new
    items: it states 4, kept are 1: 3 missing
    debits: it states 10.00, kept are 20.00: 10.00 more than it states
",
    ];
    let told = torn.told("7 records (593 bytes)");
    // Between them stand the words for what is asked of a field.
    let mut rest = told.as_str();
    for (place, part) in [expected[0], amount, expected[1], expected[2]].into_iter().enumerate() {
        let at = rest.find(part).unwrap_or_else(|| panic!("part {place} is not in {told}"));
        assert_eq!(at == 0, place < 2, "{told}");
        rest = &rest[at + part.len()..];
    }
    assert_eq!(rest, "");
}

#[test]
fn a_sound_file_loses_nothing() {
    let folder = Folder::new("salvage-sound");
    for (index, name) in [PICTURED, CREDITS, "samples/ebcdic-with-pictures.x9"].into_iter().enumerate() {
        let out = folder.path(&format!("left-{index}"));
        let (status, output, _) = run(&format!("salvage {name} -o {out}"));
        assert_eq!((status, output.contains("dropped,") || output.contains("0.01 missing")), (0, false));
        assert!(output
            .lines()
            .filter(|line| line.contains("it states"))
            .all(|line| line.ends_with(": nothing missing")));
        assert_eq!(fs::read(&out).unwrap(), copy(&read(name)).as_ref(), "{name}");
    }
}

const HEADS: &str = "file,record,type,offset,length,name,status,number,fault,letter,bundle,credit_record,words";

#[test]
fn the_list_for_programs() {
    // A letter of N with a credit, whose second 10 is cut off, and what is no type before it.
    let records =
        [file_header(), letter_header('N'), credit('1', 100), b"?? and so on".to_vec(), letter_control(0, 0, 0, 0)];
    let torn = Torn::new("list", &[file(&records), vec![0, 0, 0, 80, b'1', b'0']].concat());
    let name = &torn.name;
    let astray = "PLACE: it belongs to no bundle, credit or cash letter that is kept";
    let csv = format!(
        "{HEADS}
{name},1,01,0,80,File Header Record,kept,0,,0,0,0,
{name},2,10,84,80,Cash Letter Header Record,kept,0,,1,0,0,
{name},3,61,168,84,Credit/Reconciliation Record,kept,0,,1,0,1,
{name},4,00,256,12,,dropped,6,PLACE,1,0,0,\"{astray}\"
{name},5,90,272,85,Cash Letter Control Record,new,0,,1,0,0,
"
    );
    for flags in ["", " --csv"] {
        assert_eq!(run(&format!("salvage --list{flags} {name}")), (0, csv.clone(), String::new()));
    }
    let (status, json, _) = run(&format!("salvage --list --json {name}"));
    let lines: Vec<&str> = json.lines().collect();
    assert_eq!((status, lines.len(), lines[0], lines[6]), (0, 7, "[", "]"));
    assert_eq!(
        lines[4],
        format!(
            "  {{\"file\": \"{name}\", \"record\": 4, \"type\": \"00\", \"offset\": 256, \"length\": 12, \"name\": \"\", \"status\": \"dropped\", \
             \"number\": 6, \"fault\": \"PLACE\", \"letter\": 1, \"bundle\": 0, \"credit_record\": 0, \"words\": \"{astray}\"}},"
        )
    );
    assert!(
        lines[5].contains("\"status\": \"new\", \"number\": 0, \"fault\": null, ")
            && lines[5].ends_with("\"words\": null}")
    );
    // With -o the file is written too, and nothing but the list is printed.
    let out = torn.folder.path("left.x9");
    assert_eq!(run(&format!("salvage --list {name} -o {out}")), (0, csv, String::new()));
    let written = [
        file_header(),
        letter_header('N'),
        credit('1', 100),
        letter_sums(0, (0, 0), 0, (1, 100)),
        file_sums(1, 5, 1, 0, 100),
    ];
    assert_eq!(torn.left(), file(&written));
}

/// Offset, type, status and number of each row are those of the independent salvage.
#[test]
fn lists_beside_the_independent_salvage() {
    let folder = Folder::new("salvage-lists");
    let mut rows = 0;
    for index in 0..150 {
        let torn = generate::file(22, index).bytes;
        let expected = peer_salvage::salvage::outcome(&torn);
        let name = folder.with("torn", &torn);
        let (status, output, complaint) = run(&format!("salvage --list {name}"));
        if !expected.is_written() {
            let [number, record, field, offset, ..] = expected.answer;
            let start = format!("icl: {name}: refused {number} record {record} field {field} offset {offset}: ");
            assert!(status == 1 && output.is_empty() && complaint.starts_with(&start), "file {index}: {complaint}");
            continue;
        }
        assert_eq!((status, complaint.as_str()), (0, ""), "file {index}");
        let told: Vec<[u64; 4]> = output.lines().skip(1).map(numbers).collect();
        assert_eq!(told, expected.list, "file {index}");
        rows += told.len();
    }
    assert!(rows > 1_000, "{rows}");
}

/// Offset, type, status and number of a line of the list.
fn numbers(line: &str) -> [u64; 4] {
    // No name of a kind has a comma in it.
    let cells: Vec<&str> = line.split(',').collect();
    let status = ["kept", "new", "dropped"].iter().position(|word| *word == cells[6]).unwrap() as u64;
    [cells[3].parse().unwrap(), cells[2].parse().unwrap(), status, cells[7].parse().unwrap()]
}

#[test]
fn nothing_is_left() {
    let nothing = "refused 17 record 0 field 0 offset 0: NOTHING: no sound cash letter is left of the torn file";
    let torn = Torn::new("nothing", &read(PICTURED)[..500]);
    let words = "the file header is sound; Cash Letter Header Records (type 10) walked: 1; \
                 not sound: 0; sound, but without the sound bundle that Annex B asks for: 1";
    assert_eq!(torn.refused(), (1, format!("{nothing}; {words}")));
    let spoiled = to_ebcdic(&file(&[put(file_header(), 5, "X")]));
    let torn = Torn::new("header", &spoiled);
    let (status, complaint) = torn.refused();
    assert!(
        complaint.starts_with(&format!("{nothing}; record 1, File Header Record (type 01), at offset 0; field 3, ")),
        "{complaint}"
    );
    assert!(status == 1 && complaint.ends_with("; character set: EBCDIC (code page 037)"), "{complaint}");
    let torn = Torn::new("empty", b"");
    assert_eq!(torn.refused().1.split(':').next(), Some("refused 1 record 0 field 0 offset 0"));
    assert_eq!(run("salvage --list peer/samples/damaged-01-cut.x9").0, 1);
    let most = 99_999_999_999_999;
    let torn = Torn::new("total", &file(&[file_header(), letter_header('N'), credit('1', most), credit('1', most)]));
    assert!(torn.refused().1.starts_with("refused 9 record 5 field 9 offset 344: TOTAL: "));
}

#[test]
fn where_it_is_written() {
    let torn = Torn::new("places", &read(PICTURED)[..2_900]);
    let (name, out) = (&torn.name, torn.folder.path("left.x9"));
    // To standard output, from standard input.
    let output = icl(["salvage", name, "-o", "-"]).output().unwrap();
    assert!(output.status.success() && output.stderr.is_empty() && output.stdout.len() == 2_623);
    let (status, told, complaint) = piped(&format!("salvage - -o {out}"), &read(PICTURED)[..2_900]);
    assert!(status == 0 && complaint.is_empty() && told.starts_with("19 records (2,623 bytes) written to "));
    assert_eq!(torn.left(), output.stdout);
    // Nothing is overwritten without --force, and the torn file never.
    fs::write(&out, b"mine").unwrap();
    let (status, told, complaint) = run(&format!("salvage {name} -o {out}"));
    assert!(status == 2 && told.is_empty() && complaint.starts_with(&format!("icl: {out}: ")), "{complaint}");
    assert_eq!(torn.left(), b"mine");
    assert_eq!(run(&format!("salvage --force {name} -o {out}")).0, 0);
    assert_eq!(torn.left(), output.stdout);
    let itself = format!("icl: {name}: it is the torn file itself, which is not overwritten\n");
    assert_eq!(run(&format!("salvage --force {name} -o {name}")), (2, String::new(), itself));
    assert_eq!(fs::read(name).unwrap(), read(PICTURED)[..2_900]);
    assert_eq!(run(&format!("salvage {name} -o {}", torn.folder.path("none/left.x9"))).0, 2);
    assert_eq!(torn.folder.names(""), ["left.x9", "torn.x9"]);
}

#[test]
fn words_that_are_not_understood() {
    for (words, complaint) in [
        ("salvage a", "-o OUT is missing"),
        ("salvage -o b", "FILE is missing"),
        ("salvage a b -o c", "b is a word too many: FILE alone is asked"),
        ("salvage --csv a -o b", "--csv and --json are for --list"),
        ("salvage --list --csv --json a", "--csv and --json exclude each other"),
        ("salvage --list a -o -", "-o - and --list exclude each other: both write to standard output"),
        ("salvage --walk a -o b", "--walk is not known here"),
    ] {
        let expected = format!("icl: {complaint} (icl --help tells more)\n");
        assert_eq!(outcome(&mut icl(words.split(' '))), (2, String::new(), expected));
    }
    assert_eq!(run("salvage no-such-file -o left.x9").0, 2);
    let (status, help, _) = run("salvage --help");
    assert!(status == 0 && help.starts_with("icl salvage [--force] FILE -o OUT\n"));
}
