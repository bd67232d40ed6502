//! `rows` and `tree`, on rows and trees worked out by hand.

mod common;

use std::io::Read;
use std::process::Stdio;

use common::{icl, many_checks, outcome, run, Folder};

/// Type, offset, length, cash letter, bundle, item, amount, name.
type Row = (u64, u64, u64, u64, u64, u64, u64, &'static str);

/// The rows of sound-2-checks.x9, by its description in peer/reader/src/samples.rs. A record takes 84 bytes with its length, a 26 takes
/// 119, the 27 with its 34 bytes takes 111, the 90 takes 89.
const ROWS: [Row; 12] = [
    (1, 0, 80, 0, 0, 0, 0, "File Header Record"),
    (10, 84, 80, 1, 0, 0, 0, "Cash Letter Header Record"),
    (20, 168, 80, 1, 1, 0, 0, "Bundle Header Record"),
    (25, 252, 80, 1, 1, 1, 100, "Check Detail Record"),
    (26, 336, 115, 1, 1, 1, 0, "Check Detail Addendum A Record"),
    (27, 455, 107, 1, 1, 1, 0, "Check Detail Addendum B Record"),
    (28, 566, 80, 1, 1, 1, 0, "Check Detail Addendum C Record"),
    (28, 650, 80, 1, 1, 1, 0, "Check Detail Addendum C Record"),
    (25, 734, 80, 1, 1, 2, 250, "Check Detail Record"),
    (70, 818, 80, 1, 1, 0, 350, "Bundle Control Record"),
    (90, 902, 85, 1, 0, 0, 350, "Cash Letter Control Record"),
    (99, 991, 80, 0, 0, 0, 350, "File Control Record"),
];

#[test]
fn rows() {
    let file = "peer/samples/sound-2-checks.x9";
    let mut csv = "record,type,offset,length,letter,bundle,item,amount,name,file\n".to_string();
    let mut json = Vec::new();
    let mut table = "record  type  offset  length  letter  bundle  item  amount  name\n".to_string();
    for (record, row) in (1..).zip(ROWS) {
        let (kind, offset, length, letter, bundle, item, amount, name) = row;
        csv.push_str(&format!(
            "{record},{kind:02},{offset},{length},{letter},{bundle},{item},{amount},{name},{file}\n"
        ));
        json.push(format!(
            "  {{\"record\": {record}, \"type\": \"{kind:02}\", \"offset\": {offset}, \"length\": {length}, \"letter\": {letter}, \
             \"bundle\": {bundle}, \"item\": {item}, \"amount\": {amount}, \"name\": \"{name}\", \"file\": \"{file}\"}}"
        ));
        table.push_str(&format!(
            "{record:6}    {kind:02}  {offset:6}  {length:6}  {letter:6}  {bundle:6}  {item:4}  {amount:6}  {name}\n"
        ));
    }
    assert_eq!(run(&format!("rows {file}")), (0, table, String::new()));
    assert_eq!(run(&format!("rows {file} --csv")), (0, csv, String::new()));
    assert_eq!(run(&format!("rows --json {file}")), (0, format!("[\n{}\n]\n", json.join(",\n")), String::new()));
}

/// By the description in peer/reader/src/samples.rs. Offsets: 01 at 0, 10 at 84, 90 at 168, 10 at 257, 20 at 341, 25 at 425, 50 at
/// 509, 52 at 593 with 143 bytes, 70 at 736, 20 at 820, 31 at 904, 33 at 988, 50 at 1072, 52 at 1156 with 148, 31 at 1304, 33 at
/// 1388, 50 at 1472, 52 at 1556.
#[test]
fn tree() {
    let letter =
        "      Destination Routing Number \"123456780\", ECE Institution Routing Number \"123456780\",\n      \
                  Cash Letter Business Date \"20050230\", Cash Letter Creation Date \"20050230\"\n";
    let bundle = "        Bundle Destination Routing Number \"123456780\", Bundle ECE Institution Routing Number \"123456780\",\n        \
                  Bundle Business Date \"20050230\"\n";
    let item =
        "          Payor Bank Routing Number \"123456780\", ECE Institution Item Sequence Number \"1              \"\n";
    let view = "            Image Creator Routing Number \"123456780\", Image Creator Date \"20050230\"\n";
    let expected = format!(
        "file: 21 records, 2 cash letters, 2 bundles, 3 items, 3 views, 3 debits of 100,000,000.00, 0 credits of 0.00\n    \
         Immediate Destination Routing Number \"123456780\", Immediate Origin Routing Number \"123456780\",\n    \
         File Creation Date \"20050230\"\n  \
         cash letter 1: 0 bundles, 0 items, 0 views, 0 debits of 0.00, 0 credits of 0.00\n{letter}  \
         cash letter 2: 2 bundles, 3 items, 3 views, 3 debits of 100,000,000.00, 0 credits of 0.00\n{letter}    \
         bundle 1: 1 item, 1 view, 1 debit of 99,999,999.99, 0 credits of 0.00\n{bundle}      \
         item 1: check of 99,999,999.99\n{item}        \
         view 1: front, picture of 0 bytes, at offset 593\n{view}    \
         bundle 2: 2 items, 2 views, 2 debits of 0.01, 0 credits of 0.00\n{bundle}      \
         item 1: return of 0.01\n{item}        \
         addendum 1: Return Addendum B Record (type 33)\n        \
         view 1: front, picture of 5 bytes, at offset 1156\n{view}      \
         item 2: return of 0.00\n{item}        \
         addendum 1: Return Addendum B Record (type 33)\n        \
         view 1: front, picture of 5 bytes, at offset 1556\n{view}"
    );
    assert_eq!(run("tree peer/samples/sound-6-two-letters.x9"), (0, expected, String::new()));
}

/// The fields of the sample with pictures as peer/reader/src/pictures.rs sets them.
#[test]
fn tree_of_the_sample_with_pictures() {
    let (status, output, complaint) = run("tree samples/two-letters-with-pictures.x9");
    assert_eq!((status, complaint.as_str()), (0, ""));
    for line in [
        "file: 38 records, 2 cash letters, 3 bundles, 4 items, 8 views, 4 debits of 475.57, 0 credits of 0.00",
        "  cash letter 1: 2 bundles, 3 items, 6 views, 3 debits of 165.57, 0 credits of 0.00",
        "    bundle 1: 2 items, 4 views, 2 debits of 165.50, 0 credits of 0.00",
        "        Bundle Business Date \"20240115\", Bundle Sequence Number \"0001\"",
        "      item 1: check of 125.50",
        "          Payor Bank Routing Number \"111111118\", ECE Institution Item Sequence Number \"000000000000101\"",
        "        addendum 1: Check Detail Addendum A Record (type 26)",
        "            Return Location Routing Number \"222222226\", BOFD Business Endorsement Date \"20240112\",",
        "            BOFD Item Sequence Number \"000000000000901\"",
        "        addendum 2: Check Detail Addendum C Record (type 28)",
        // 7 records before the 52: six of 84 bytes and the 26 of 119.
        "        view 1: front, picture of 179 bytes, at offset 623",
        "    bundle 2: 1 item, 2 views, 1 debit of 0.07, 0 credits of 0.00",
        "  cash letter 2: 1 bundle, 1 item, 2 views, 1 debit of 310.00, 0 credits of 0.00",
        "      item 1: return of 310.00",
        "        addendum 3: Return Addendum D Record (type 35)",
        "            Image Creator Routing Number \"123456780\", Image Creator Date \"20240116\"",
    ] {
        assert!(output.lines().any(|printed| printed == line), "{line}\nnot in\n{output}");
    }
    assert_eq!(output.matches(": back, picture of").count(), 4);
}

/// The rows of the sample with credits by its description in common/pictured_credits.rs: type, offset, cash letter, bundle, item and amount. With
/// its length a record takes 84 bytes, a 61 takes 88, a 90 takes 89, a 52 takes 143 and its picture, whose lengths stand in pictures.rs. Directly
/// in a letter a 61 and its views have bundle 0 and item 0.
const CREDIT_ROWS: [(u64, u64, u64, u64, u64, u64); 52] = [
    (1, 0, 0, 0, 0, 0),
    (10, 84, 1, 0, 0, 0),
    (61, 168, 1, 0, 0, 16_557),
    (50, 256, 1, 0, 0, 0),
    (52, 340, 1, 0, 0, 0),
    (50, 653, 1, 0, 0, 0),
    (52, 737, 1, 0, 0, 0),
    (20, 1058, 1, 1, 0, 0),
    (61, 1142, 1, 1, 1, 16_550),
    (50, 1230, 1, 1, 1, 0),
    (52, 1314, 1, 1, 1, 0),
    (25, 1636, 1, 1, 2, 12_550),
    (50, 1720, 1, 1, 2, 0),
    (52, 1804, 1, 1, 2, 0),
    (50, 2135, 1, 1, 2, 0),
    (52, 2219, 1, 1, 2, 0),
    (25, 2558, 1, 1, 3, 4_000),
    (50, 2642, 1, 1, 3, 0),
    (52, 2726, 1, 1, 3, 0),
    (50, 3065, 1, 1, 3, 0),
    (52, 3149, 1, 1, 3, 0),
    (61, 3496, 1, 1, 4, 250),
    (70, 3584, 1, 1, 0, 16_800),
    (61, 3668, 1, 0, 0, 250),
    (20, 3756, 1, 2, 0, 0),
    (25, 3840, 1, 2, 1, 7),
    (50, 3924, 1, 2, 1, 0),
    (52, 4008, 1, 2, 1, 0),
    (50, 4339, 1, 2, 1, 0),
    (52, 4423, 1, 2, 1, 0),
    (70, 4762, 1, 2, 0, 7),
    (61, 4846, 1, 0, 0, 7),
    (50, 4934, 1, 0, 0, 0),
    (52, 5018, 1, 0, 0, 0),
    (90, 5348, 1, 0, 0, 16_807),
    (10, 5437, 2, 0, 0, 0),
    (20, 5521, 2, 1, 0, 0),
    (31, 5605, 2, 1, 1, 31_000),
    (33, 5689, 2, 1, 1, 0),
    (50, 5773, 2, 1, 1, 0),
    (52, 5857, 2, 1, 1, 0),
    (50, 6188, 2, 1, 1, 0),
    (52, 6272, 2, 1, 1, 0),
    (61, 6611, 2, 1, 2, 31_000),
    (50, 6699, 2, 1, 2, 0),
    (52, 6783, 2, 1, 2, 0),
    (70, 7122, 2, 1, 0, 31_000),
    (61, 7206, 2, 0, 0, 100_000),
    (50, 7294, 2, 0, 0, 0),
    (52, 7378, 2, 0, 0, 0),
    (90, 7699, 2, 0, 0, 31_000),
    (99, 7788, 0, 0, 0, 47_807),
];

#[test]
fn rows_of_credits() {
    let (status, output, complaint) = run("rows --csv samples/credits-with-pictures.x9");
    assert_eq!((status, complaint.as_str()), (0, ""));
    let lines: Vec<&str> = output.lines().skip(1).collect();
    assert_eq!(lines.len(), CREDIT_ROWS.len());
    for (record, (line, row)) in (1..).zip(lines.iter().zip(CREDIT_ROWS)) {
        let (kind, offset, letter, bundle, item, amount) = row;
        let next = CREDIT_ROWS.get(record).map_or(7872, |next| next.1);
        let start = format!("{record},{kind:02},{offset},{},{letter},{bundle},{item},{amount},", next - offset - 4);
        assert!(line.starts_with(&start), "{line} is not {start}");
    }
    assert_eq!(lines[2], "3,61,168,84,1,0,0,16557,Credit/Reconciliation Record,samples/credits-with-pictures.x9");
    assert_eq!(lines[8], "9,61,1142,84,1,1,1,16550,Credit/Reconciliation Record,samples/credits-with-pictures.x9");
    let (_, json, _) = run("rows --json samples/credits-with-pictures.x9");
    let line = "  {\"record\": 24, \"type\": \"61\", \"offset\": 3668, \"length\": 84, \"letter\": 1, \"bundle\": 0, \"item\": 0, \
                \"amount\": 250, \"name\": \"Credit/Reconciliation Record\", \"file\": \"samples/credits-with-pictures.x9\"},";
    assert_eq!(json.lines().nth(24), Some(line));
}

/// Credits stand between the bundles and among the items, in the order of the file; each level with both its sides.
#[test]
fn tree_of_credits() {
    let letter =
        "      Destination Routing Number \"123456780\", ECE Institution Routing Number \"222222226\",\n      \
                  Cash Letter Business Date \"20240116\", Cash Letter Creation Date \"20240116\"\n";
    let bundle = |sequence: &str| {
        format!(
            "        Bundle Destination Routing Number \"123456780\", Bundle ECE Institution Routing Number \"123456780\",\n        \
             Bundle Business Date \"20240115\", Bundle Sequence Number \"{sequence}\"\n"
        )
    };
    let item = |sequence: &str| {
        format!("          Payor Bank Routing Number \"123456780\", ECE Institution Item Sequence Number \"000000000000{sequence}\"\n")
    };
    let credit = |indent: &str, usage: &str, sequence: &str| {
        format!(
            "{indent}Record Usage Indicator \"{usage}\", Posting Bank Routing Number \"123456780\",\n\
             {indent}Item Sequence Number \"000000000000{sequence}\"\n"
        )
    };
    let view = |indent: &str, text: &str, date: &str| {
        format!(
            "{indent}view {text}\n{indent}    Image Creator Routing Number \"123456780\", Image Creator Date \"{date}\"\n"
        )
    };
    let in_letter = |text: &str| view("      ", text, "20240116");
    let in_bundle = |text: &str| view("        ", text, "20240115");
    let (below_letter, below_bundle) = ("        ", "          ");
    let expected = [
        "file: 52 records, 2 cash letters, 3 bundles, 11 items, 14 views, 5 debits of 478.07, 6 credits of 1,643.64\n    \
         Immediate Destination Routing Number \"123456780\", Immediate Origin Routing Number \"123456780\",\n    \
         File Creation Date \"20240116\"\n",
        "  cash letter 1: 2 bundles, 8 items, 10 views, 4 debits of 168.07, 4 credits of 333.64\n",
        letter,
        "    credit record 1: credit of 165.57\n",
        &credit(below_letter, "1", "301"),
        &in_letter("1: front, picture of 170 bytes, at offset 340"),
        &in_letter("2: back, picture of 178 bytes, at offset 737"),
        "    bundle 1: 4 items, 5 views, 3 debits of 168.00, 1 credit of 165.50\n",
        &bundle("0001"),
        "      item 1: credit of 165.50\n",
        &credit(below_bundle, "7", "302"),
        &in_bundle("1: front, picture of 179 bytes, at offset 1314"),
        "      item 2: check of 125.50\n",
        &item("101"),
        &in_bundle("1: front, picture of 188 bytes, at offset 1804"),
        &in_bundle("2: back, picture of 196 bytes, at offset 2219"),
        "      item 3: check of 40.00\n",
        &item("102"),
        &in_bundle("1: front, picture of 196 bytes, at offset 2726"),
        &in_bundle("2: back, picture of 204 bytes, at offset 3149"),
        "      item 4: debit adjustment of 2.50\n",
        &credit(below_bundle, "9", "303"),
        "    credit record 2: credit of 2.50\n",
        &credit(below_letter, "8", "304"),
        "    bundle 2: 1 item, 2 views, 1 debit of 0.07, 0 credits of 0.00\n",
        &bundle("0002"),
        "      item 1: check of 0.07\n",
        &item("103"),
        &in_bundle("1: front, picture of 188 bytes, at offset 4008"),
        &in_bundle("2: back, picture of 196 bytes, at offset 4423"),
        "    credit record 3: credit of 0.07\n",
        &credit(below_letter, "7", "305"),
        &in_letter("1: front, picture of 187 bytes, at offset 5018"),
        "  cash letter 2: 1 bundle, 3 items, 4 views, 1 debit of 310.00, 2 credits of 1,310.00\n",
        letter,
        "    bundle 1: 2 items, 3 views, 1 debit of 310.00, 1 credit of 310.00\n",
        &bundle("0001"),
        "      item 1: return of 310.00\n",
        &item("201"),
        "        addendum 1: Return Addendum B Record (type 33)\n",
        &in_bundle("1: front, picture of 188 bytes, at offset 5857"),
        &in_bundle("2: back, picture of 196 bytes, at offset 6272"),
        "      item 2: credit of 310.00\n",
        &credit(below_bundle, "6", "306"),
        &in_bundle("1: front, picture of 196 bytes, at offset 6783"),
        "    credit record 1: credit of 1,000.00\n",
        &credit(below_letter, "7", "307"),
        &in_letter("1: front, picture of 178 bytes, at offset 7378"),
    ];
    assert_eq!(run("tree samples/credits-with-pictures.x9"), (0, expected.concat(), String::new()));
}

/// A debit adjustment directly in a cash letter, and a credit without a usage indicator, which is not shown.
#[test]
fn tree_of_adjustments() {
    let (_, output, _) = run("tree peer/samples/sound-13-credits-among-items.x9");
    let credit = "Posting Bank Routing Number \"123456780\",\n        Item Sequence Number \"1              \"\n";
    let direct = format!(
        "    credit record 1: debit adjustment of 3.00\n        Record Usage Indicator \"9\", {credit}    \
         credit record 2: credit of 4.00\n        Record Usage Indicator \"8\", {credit}    \
         bundle 2: 2 items, 0 views, 1 debit of 0.07, 1 credit of 0.50\n"
    );
    assert!(output.contains(&direct), "{output}");
    let blank = "      item 1: credit of 0.50\n          Posting Bank Routing Number \"123456780\", Item Sequence Number \"1              \"\n      \
                 item 2: check of 0.07\n";
    assert!(output.contains(blank), "{output}");
}

/// A blank sequence number and a routing number with marks, as they stand.
#[test]
fn tree_of_marks() {
    let (_, output, _) = run("tree peer/samples/sound-7-marks.x9");
    let line =
        "          Payor Bank Routing Number \"12-4 678*\", ECE Institution Item Sequence Number \"               \"";
    assert!(output.lines().any(|printed| printed == line), "{output}");
}

/// Routing numbers of other forms, as they stand.
#[test]
fn tree_of_routing_numbers() {
    let (_, canadian, _) = run("tree peer/samples/sound-9-canadian.x9");
    let (_, others, _) = run("tree peer/samples/sound-10-other-numbers.x9");
    for (output, line) in [
        (&canadian, "    Immediate Destination Routing Number \"00002-003\", Immediate Origin Routing Number \"10202-006\","),
        (&canadian, "        Bundle Destination Routing Number \"00002-815\", Bundle ECE Institution Routing Number \"10202-006\","),
        (&canadian, "        Bundle Business Date \"20050230\", Return Location Routing Number \"99999-999\""),
        (&others, "    Immediate Destination Routing Number \"7        \", Immediate Origin Routing Number \"123456781\","),
        (&others, "            Image Creator Routing Number \"        0\", Image Creator Date \"20050230\""),
    ] {
        assert!(output.lines().any(|printed| printed == line), "{line}\nnot in\n{output}");
    }
}

/// As `icl rows f | head` does: reads a little and goes.
#[test]
fn a_reader_that_goes_away() {
    let folder = Folder::new("head");
    let file = folder.with("many", &many_checks());
    for words in [vec!["rows"], vec!["rows", "--csv"], vec!["rows", "--json"], vec!["tree"]] {
        let mut child =
            icl(words.iter().chain([&file.as_str()])).stdout(Stdio::piped()).stderr(Stdio::piped()).spawn().unwrap();
        let mut start = [0; 10];
        child.stdout.take().unwrap().read_exact(&mut start).unwrap();
        let output = child.wait_with_output().unwrap();
        assert_eq!((output.status.code(), output.stderr.as_slice()), (Some(0), b"".as_slice()), "{words:?}");
    }
}

#[test]
fn an_output_that_is_full() {
    let full = || std::fs::OpenOptions::new().write(true).open("/dev/full").unwrap();
    for words in ["check", "rows", "tree"] {
        let outcome = outcome(icl([words, "peer/samples/sound-2-checks.x9"]).stdout(full()));
        assert_eq!(outcome, (2, String::new(), "icl: standard output: no space is left\n".to_string()), "{words}");
    }
}

#[test]
fn many_rows() {
    let folder = Folder::new("many");
    let file = folder.with("many", &many_checks());
    let (status, output, _) = run(&format!("rows --csv {file}"));
    let lines: Vec<&str> = output.lines().collect();
    assert_eq!((status, lines.len()), (0, 10_006));
    // The last check: 3 + 9,998 records of 84 bytes before it.
    assert_eq!(lines[10_002], format!("10002,25,840084,80,1,1,9999,1,Check Detail Record,{file}"));
}
