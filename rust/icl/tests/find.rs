//! `icl find`: items by a number, an amount or an account; whole outputs.

mod common;

use std::fs;

use common::{icl, outcome, piped, read, run, Folder};
use peer_reader::plain::*;

const PICTURED: &str = "samples/two-letters-with-pictures.x9";
const EBCDIC: &str = "samples/ebcdic-with-pictures.x9";
const CREDITED: &str = "samples/credits-with-pictures.x9";
const DAMAGED: &str = "peer/samples/damaged-06-item-count.x9";

/// What is said of the first check of the sample with pictures, by the fields that the generator sets (peer/reader/src/pictures.rs): 125.50, sequence
/// number 101, its 25 at offset 252, and its 52s at 623 and 1029 (tests/pictures.rs). The bundle has 125.50 and 40.00, the letter 0.07 more.
fn first_check(file: &str, matched: &str) -> String {
    format!(
        "{file}: cash letter 1, bundle 1, item 1: check of 125.50, record 4\n    \
         Payor Bank Routing Number \"111111118\", On-Us \"                    \", ECE Institution Item Sequence Number \
         \"000000000000101\"\n    \
         matched: {matched} of the Check Detail Record (type 25) at offset 252\n    \
         pictures at offset 623, 1029\n    \
         bundle 1: 2 items, 4 views, 2 debits of 165.50, 0 credits of 0.00\n    \
         cash letter 1: 2 bundles, 3 items, 6 views, 3 debits of 165.57, 0 credits of 0.00\n"
    )
}

const SEQUENCE: &str = "ECE Institution Item Sequence Number \"000000000000101\"";

#[test]
fn by_sequence_number() {
    for number in ["101", "000000000000101", "0101"] {
        let expected = format!("{}1 item found: sequence number 101\n", first_check(PICTURED, SEQUENCE));
        assert_eq!(run(&format!("find {PICTURED} --sequence {number}")), (0, expected, String::new()));
    }
    let blanks = outcome(&mut icl(["find", PICTURED, "--sequence", " 101 "]));
    assert_eq!(blanks, run(&format!("find {PICTURED} --sequence 101")));
    // The file in EBCDIC has the same values.
    let expected = format!("{}1 item found: sequence number 101\n", first_check(EBCDIC, SEQUENCE));
    assert_eq!(run(&format!("find --sequence 101 {EBCDIC}")), (0, expected, String::new()));
    // Thirty digits are a number like any other.
    let expected = format!("0 items found: sequence number {}\n", "9".repeat(30));
    assert_eq!(run(&format!("find {PICTURED} --sequence {}", "9".repeat(30))), (0, expected, String::new()));
}

#[test]
fn by_amount() {
    for amount in ["125.50", "12550", "0000012550"] {
        let expected = format!("{}1 item found: amount 125.50\n", first_check(PICTURED, "Item Amount \"0000012550\""));
        assert_eq!(run(&format!("find {PICTURED} --amount {amount}")), (0, expected, String::new()));
    }
    let none = "0 items found: amount 125.51\n".to_string();
    assert_eq!(run(&format!("find {PICTURED} --amount 125.51")), (0, none, String::new()));
}

/// A credit in a bundle, a debit adjustment, and one directly in a cash letter: by the description in common/pictured_credits.rs.
#[test]
fn credits() {
    let credit = |place: &str, what: &str, sequence: &str, offset: u64| {
        format!(
            "{CREDITED}: cash letter 1, {place}: {what} of 2.50, record {}\n    \
             Posting Bank Routing Number \"123456780\", Posting Account Number (On-Us) \"                    \", \
             Item Sequence Number \"000000000000{sequence}\"\n    \
             matched: Item Amount \"00000000000250\" of the Credit/Reconciliation Record (type 61) at offset {offset}\n    \
             no pictures\n",
            if offset == 3496 { 22 } else { 24 }
        )
    };
    let bundle = "    bundle 1: 4 items, 5 views, 3 debits of 168.00, 1 credit of 165.50\n";
    let letter = "    cash letter 1: 2 bundles, 8 items, 10 views, 4 debits of 168.07, 4 credits of 333.64\n";
    let first = credit("bundle 1, item 4", "debit adjustment", "303", 3496);
    let second = credit("credit record 2", "credit", "304", 3668);
    let expected = format!("{first}{bundle}{letter}{second}{letter}2 items found: amount 2.50\n");
    assert_eq!(run(&format!("find {CREDITED} --amount 2.50")), (0, expected, String::new()));
}

/// Conditions together, and files together: what is refused is told, and the others are looked through.
#[test]
fn several_files_and_conditions() {
    let words = format!("find {PICTURED} {DAMAGED} {EBCDIC} --routing 111111118 --amount 125.50");
    let (status, output, complaint) = run(&words);
    let matched = "Item Amount \"0000012550\" of the Check Detail Record (type 25) at offset 252; Payor Bank Routing Number \"111111118\"";
    let expected = format!(
        "{}{}2 items found in 2 of 3 files: amount 125.50, routing number 111111118\n",
        first_check(PICTURED, matched),
        first_check(EBCDIC, matched)
    );
    assert_eq!((status, output), (1, expected));
    assert!(
        complaint.starts_with(&format!("icl: {DAMAGED}: refused 9 record 10 field 2 offset 818: TOTAL: ")),
        "{complaint}"
    );
    assert_eq!(complaint.lines().count(), 1);
}

/// A check with an On-Us field, and a deposit account in its addendum A.
fn with_accounts() -> Vec<u8> {
    let mut check = check(100, ' ', 1);
    check[27..47].copy_from_slice(b"     12 34567/0101  "); // field 5, positions 28 to 47
    let mut addendum = check_addendum_a(1);
    addendum[35..53].copy_from_slice(b"DEP-0042          "); // field 6, positions 36 to 53
    let end = [bundle_control(1, 100, NOT_STATED, 0), letter_control(1, 1, 100, 0), file_control(1, 8, 1, 100)];
    file(&[&[file_header(), letter_header('E'), bundle_header(), check, addendum][..], &end].concat())
}

#[test]
fn by_account() {
    let folder = Folder::new("account");
    let file = folder.with("file", &with_accounts());
    let expected = |matched: &str, wanted: &str| {
        let expected = format!(
            "{file}: cash letter 1, bundle 1, item 1: check of 1.00, record 4\n    \
             Payor Bank Routing Number \"123456780\", On-Us \"     12 34567/0101  \", ECE Institution Item Sequence Number \
             \"1              \"\n    \
             matched: {matched}\n    no pictures\n    \
             bundle 1: 1 item, 0 views, 1 debit of 1.00, 0 credits of 0.00\n    \
             cash letter 1: 1 bundle, 1 item, 0 views, 1 debit of 1.00, 0 credits of 0.00\n\
             1 item found: account {wanted}\n"
        );
        (0, expected, String::new())
    };
    let on_us = "On-Us \"     12 34567/0101  \" of the Check Detail Record (type 25) at offset 252";
    let deposit =
        "Deposit Account Number at BOFD \"DEP-0042          \" of the Check Detail Addendum A Record (type 26) at offset 336";
    assert_eq!(run(&format!("find {file} --account 1234567")), expected(on_us, "1234567"));
    assert_eq!(run(&format!("find {file} --account 001234567/")), expected(on_us, "1234567/"));
    assert_eq!(run(&format!("find {file} --account DEP-0042")), expected(deposit, "DEP-0042"));
    let none = (0, "0 items found: account 1234568\n".to_string(), String::new());
    assert_eq!(run(&format!("find {file} --account 1234568")), none);
}

#[test]
fn for_programs() {
    let head = "file,letter,bundle,item,credit_record,record,offset,kind,debit,amount,sequence,routing,account,matched,pictures,bundle_items,\
                bundle_views,bundle_debit_items,bundle_debit,bundle_credit_items,bundle_credit,letter_bundles,letter_items,letter_views,\
                letter_debit_items,letter_debit,letter_credit_items,letter_credit\n";
    let line = format!(
        "{PICTURED},1,1,1,0,4,252,check,true,12550,000000000000101,111111118,                    ,\"ECE Institution Item Sequence \
         Number \"\"000000000000101\"\" of the Check Detail Record (type 25) at offset 252\",623 1029,2,4,2,16550,0,0,2,3,6,3,16557,0,0\n"
    );
    assert_eq!(run(&format!("find --csv {PICTURED} --sequence 101")), (0, format!("{head}{line}"), String::new()));
    assert_eq!(run(&format!("find --csv {PICTURED} --sequence 1")), (0, head.to_string(), String::new()));
    let object = format!(
        "[\n  {{\"file\": \"{CREDITED}\", \"letter\": 1, \"bundle\": 0, \"item\": 0, \"credit_record\": 2, \"record\": 24, \"offset\": 3668, \
         \"kind\": \"credit\", \"debit\": false, \"amount\": 250, \"sequence\": \"000000000000304\", \"routing\": \"123456780\", \
         \"account\": \"                    \", \"matched\": \"Item Sequence Number \\\"000000000000304\\\" of the \
         Credit/Reconciliation Record (type 61) at offset 3668\", \"pictures\": [], \"bundle_items\": null, \"bundle_views\": null, \
         \"bundle_debit_items\": null, \"bundle_debit\": null, \"bundle_credit_items\": null, \"bundle_credit\": null, \
         \"letter_bundles\": 2, \"letter_items\": 8, \"letter_views\": 10, \"letter_debit_items\": 4, \"letter_debit\": 16807, \
         \"letter_credit_items\": 4, \"letter_credit\": 33364}}\n]\n"
    );
    assert_eq!(run(&format!("find --json {CREDITED} --sequence 304")), (0, object, String::new()));
    assert_eq!(run(&format!("find --json {CREDITED} --sequence 1")), (0, "[]\n".to_string(), String::new()));
}

#[test]
fn pictures_of_what_was_found() {
    let folder = Folder::new("found");
    let out = folder.path("out");
    // 179 and 188 bytes, by tests/pictures.rs.
    let said = format!("2 pictures (367 bytes) written to {out}\n1 item found: sequence number 101\n");
    let expected = (0, format!("{}{said}", first_check(PICTURED, SEQUENCE)), String::new());
    assert_eq!(run(&format!("find {PICTURED} --sequence 101 --pictures {out}")), expected);
    let paths = ["letter-001/bundle-001/item-0001_view-01.tif", "letter-001/bundle-001/item-0001_view-02.tif"];
    assert_eq!(folder.all("out"), paths);
    assert_eq!(fs::read(folder.0.join("out").join(paths[0])).unwrap(), read(PICTURED)[623 + 143..][..179]);
    // There already: told, and nothing is lost; the list comes all the same.
    let (status, output, complaint) = run(&format!("find {PICTURED} --sequence 101 --pictures {out}"));
    let found = format!("{}1 item found: sequence number 101\n", first_check(PICTURED, SEQUENCE));
    assert_eq!((status, output), (2, found));
    assert_eq!(complaint, format!("icl: {out}/{}: it is there already (--force overwrites it)\n", paths[0]));
    assert_eq!(run(&format!("find {PICTURED} --sequence 101 --pictures {out} --force")), expected);
    // Several files: a folder for each.
    let both = folder.path("both");
    assert_eq!(run(&format!("find {PICTURED} {EBCDIC} --sequence 101 --pictures {both}")).0, 0);
    assert_eq!(folder.names("both"), ["ebcdic-with-pictures.x9", "two-letters-with-pictures.x9"]);
    assert_eq!(folder.all("both").len(), 4);
    // Nothing found, or nothing to take out: no folder.
    for words in ["--sequence 1", "--sequence 304"] {
        assert_eq!(run(&format!("find {CREDITED} {words} --pictures {}", folder.path("none"))).0, 0);
    }
    assert_eq!(folder.names(""), ["both", "out"]);
    let clash = "icl: samples/two-letters-with-pictures.x9 and ./samples/two-letters-with-pictures.x9: their pictures would go into one folder\n";
    let words = format!("find {PICTURED} ./{PICTURED} --sequence 1 --pictures {}", folder.path("none"));
    assert_eq!(run(&words), (2, String::new(), clash.to_string()));
}

/// An empty file, a missing one, a pipe, a folder.
#[test]
fn sorts_of_input() {
    let folder = Folder::new("sorts");
    let empty = folder.with("empty", b"");
    let none = "0 items found: sequence number 101\n".to_string();
    let words =
        "refused 1 record 0 field 0 offset 0: SIZE: the file has no byte, or more than 268435456; found 0 bytes";
    assert_eq!(run(&format!("find {empty} --sequence 101")), (1, none.clone(), format!("icl: {empty}: {words}\n")));
    let missing = folder.path("missing");
    let complaint = format!("icl: {missing}: there is no such file or folder\n");
    assert_eq!(run(&format!("find {missing} --sequence 101")), (2, none, complaint));
    let expected = format!("{}1 item found: sequence number 101\n", first_check("-", SEQUENCE));
    assert_eq!(piped("find - --sequence 101", &read(PICTURED)), (0, expected, String::new()));
    fs::create_dir(folder.0.join("in")).unwrap();
    let inside = folder.with("in/file", &read(PICTURED));
    folder.with("in/.hidden", b"");
    fs::create_dir(folder.0.join("in/below")).unwrap();
    let expected = format!("{}1 item found in 1 of 1 file: sequence number 101\n", first_check(&inside, SEQUENCE));
    assert_eq!(run(&format!("find {} --sequence 101", folder.path("in"))), (0, expected, String::new()));
    let below = folder.path("in/below");
    let complaint = format!("icl: {below}: there is no file in this folder\n");
    let none = "0 items found in 0 of 1 file: sequence number 101\n".to_string();
    assert_eq!(run(&format!("find {below} --sequence 101")), (2, none, complaint));
}

#[test]
fn not_understood() {
    for (words, complaint) in [
        ("find a", "--sequence, --amount, --routing or --account is missing"),
        ("find --sequence 1", "no file was named"),
        ("find a --sequence 1x", "1x is no sequence number: digits are asked"),
        ("find a --routing x", "x is no routing number: digits and dashes are asked"),
        ("find a --amount 1.5", "1.5 is no amount: dollars and cents as 125.50, or cents as 12550, are asked"),
        ("find a --amount 1 --amount 2", "--amount was given twice"),
        ("find a --sequence 1 --force", "--force goes with --pictures DIR"),
        ("find a --csv --json --sequence 1", "--csv and --json exclude each other"),
    ] {
        assert_eq!(run(words), (2, String::new(), format!("icl: {complaint} (icl --help tells more)\n")), "{words}");
    }
    let empty = outcome(&mut icl(["find", "a", "--account", ""]));
    let complaint = "icl: \"\" is no account: a text is asked (icl --help tells more)\n";
    assert_eq!(empty, (2, String::new(), complaint.to_string()));
}
