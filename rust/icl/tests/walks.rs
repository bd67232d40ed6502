//! `rows --walk` and `tree --walk`: what the lengths of a refused file frame, and the fault in its place; whole outputs.

mod common;

use common::{piped, read, run, Folder};

const SOUND: &str = "peer/samples/sound-2-checks.x9";
const DAMAGED: &str = "peer/samples/damaged-06-item-count.x9";
const LINE: &str = "refused 9 record 10 field 2 offset 818";
const TABLE: &str = "record  type  offset  length  name\n";

/// The first nine records of both samples, by the rows in tests/listings.rs.
const NINE: &str = "     1    01       0      80  File Header Record
     2    10      84      80  Cash Letter Header Record
     3    20     168      80  Bundle Header Record
     4    25     252      80  Check Detail Record
     5    26     336     115  Check Detail Addendum A Record
     6    27     455     107  Check Detail Addendum B Record
     7    28     566      80  Check Detail Addendum C Record
     8    28     650      80  Check Detail Addendum C Record
     9    25     734      80  Check Detail Record
    10    70     818      80  Bundle Control Record
";

/// The 90 of 89 bytes and the 99 of 84 stand behind the record at fault.
const FAULT: &str = "        refused 9 record 10 field 2 offset 818
        TOTAL: a control field is not what its part of the file adds up to
        record 10, Bundle Control Record (type 70), at offset 818
        field 2, Bundle Debit Item Count, at offset 824
        found \"0003\"
        debit items in the bundle: 2
";

#[test]
fn rows_up_to_the_fault() {
    let expected = format!("not accepted: {LINE}\n{TABLE}{NINE}{FAULT}behind: 173 bytes, not listed\n");
    assert_eq!(run(&format!("rows --walk {DAMAGED}")), (1, expected.clone(), String::new()));
    assert_eq!(piped("rows --walk -", &read(DAMAGED)), (1, expected.clone(), String::new()));
    // Of an accepted file, all, and no sums either.
    let rest =
        "    11    90     902      85  Cash Letter Control Record\n    12    99     991      80  File Control Record\n";
    let accepted = format!("accepted: every rule holds\n{TABLE}{NINE}{rest}");
    assert_eq!(run(&format!("rows --walk {SOUND}")), (0, accepted.clone(), String::new()));
    let both = format!("{SOUND}:\n{accepted}\n{DAMAGED}:\n{expected}");
    assert_eq!(run(&format!("rows --walk {SOUND} {DAMAGED}")), (1, both, String::new()));
}

#[test]
fn a_tree_up_to_the_fault() {
    let routing = "Payor Bank Routing Number \"123456780\", ECE Institution Item Sequence Number \"1              \"";
    let expected = format!(
        "not accepted: {LINE}
record 1: File Header Record (type 01), at offset 0
    Immediate Destination Routing Number \"123456780\", Immediate Origin Routing Number \"123456780\",
    File Creation Date \"20050230\"
  record 2: Cash Letter Header Record (type 10), at offset 84
      Destination Routing Number \"123456780\", ECE Institution Routing Number \"123456780\",
      Cash Letter Business Date \"20050230\", Cash Letter Creation Date \"20050230\"
    record 3: Bundle Header Record (type 20), at offset 168
        Bundle Destination Routing Number \"123456780\", Bundle ECE Institution Routing Number \"123456780\",
        Bundle Business Date \"20050230\"
      record 4: Check Detail Record (type 25), at offset 252
          {routing}
        record 5: Check Detail Addendum A Record (type 26), at offset 336
        record 6: Check Detail Addendum B Record (type 27), at offset 455
        record 7: Check Detail Addendum C Record (type 28), at offset 566
        record 8: Check Detail Addendum C Record (type 28), at offset 650
      record 9: Check Detail Record (type 25), at offset 734
          {routing}
    record 10: Bundle Control Record (type 70), at offset 818
{FAULT}behind: 173 bytes, not listed
"
    );
    assert_eq!(run(&format!("tree --walk {DAMAGED}")), (1, expected, String::new()));
}

/// Torn in the second picture of the second letter, as tests/pictures.rs has it: the 52 at 4667 is cut. Pictures before it are told.
#[test]
fn a_torn_file() {
    let folder = Folder::new("torn-walk");
    let file = folder.with("torn", &read("samples/two-letters-with-pictures.x9")[..5000]);
    let (status, output, complaint) = run(&format!("tree --walk {file}"));
    assert_eq!((status, complaint.as_str()), (1, ""));
    assert!(
        output.contains("        record 33: Image View Data Record (type 52), at offset 4252, picture of 188 bytes\n"),
        "{output}"
    );
    let end = "record 35, at offset 4667
    refused 3 record 35 field 0 offset 4667
    CUT: the file ends before the record does
    record 35, at offset 4667
    its length says 335 bytes; bytes left: 329
    found in place of the length: the bytes 00 00 01 4F (hexadecimal)
    the record before it is record 34, Image View Detail Record (type 50)
behind: 333 bytes, not listed
";
    assert!(output.ends_with(end), "{output}");
}

/// Faults where no record stands: no file control, a byte behind it, nothing at all; and a type of no record.
#[test]
fn faults_without_a_record() {
    let folder = Folder::new("without");
    let (status, output, _) = run("rows --walk peer/samples/damaged-08-open.x9");
    let end = "     3    90     168      85  Cash Letter Control Record
     4           257
        refused 10 record 4 field 0 offset 257
        OPEN: the file ends without a File Control Record (type 99)
        record 4, at offset 257
        the record before it is record 3, Cash Letter Control Record (type 90)
";
    assert!(status == 1 && output.ends_with(end), "{output}");
    let (status, output, _) = run("rows --walk peer/samples/damaged-09-after.x9");
    assert!(
        status == 1
            && output.contains("\n     5           341\n")
            && output.ends_with("\nbehind: 1 byte, not listed\n"),
        "{output}"
    );
    let empty = folder.with("empty", b"");
    let expected = format!(
        "not accepted: refused 1 record 0 field 0 offset 0\n{TABLE}        refused 1 record 0 field 0 offset 0\n        \
         SIZE: the file has no byte, or more than 268435456\n        found 0 bytes\n"
    );
    assert_eq!(run(&format!("rows --walk {empty}")), (1, expected, String::new()));
    let strange = folder.with("strange", b"\0\0\0\x04X\x01ab");
    let (_, output, _) = run(&format!("rows --walk {strange}"));
    assert!(output.contains("\n     1     ?       0       4\n"), "{output}");
    let (_, output, _) = run(&format!("tree --walk {strange}"));
    assert!(output.contains("\nrecord 1: of no type of the standard, at offset 0\n"), "{output}");
    for command in ["rows", "tree"] {
        let missing = folder.path("missing");
        let complaint = format!("icl: {missing}: there is no such file or folder\n");
        assert_eq!(run(&format!("{command} --walk {missing}")), (2, String::new(), complaint));
        let below = folder.path("");
        let status = run(&format!("{command} --walk {below}")).0;
        assert_eq!(status, 1);
    }
}

#[test]
fn for_programs() {
    let head = "file,record,type,offset,length,name,accepted,fault,field,words\n";
    let file = "peer/samples/damaged-03-place.x9";
    let words = "\"PLACE: a record of this type may not stand here; record 2, File Control Record (type 99), at offset 84; the record before it \
                 is record 1, File Header Record (type 01)\"";
    let expected = format!(
        "{head}{file},1,01,0,80,File Header Record,false,,,\n{file},2,99,84,80,File Control Record,false,6,0,{words}\n"
    );
    for command in ["rows", "tree"] {
        assert_eq!(run(&format!("{command} --walk --csv {file}")), (1, expected.clone(), String::new()));
    }
    let (status, output, _) = run("rows --walk --json peer/samples/damaged-08-open.x9");
    let last = "  {\"file\": \"peer/samples/damaged-08-open.x9\", \"record\": 4, \"type\": null, \"offset\": 257, \"length\": null, \"name\": \
                null, \"accepted\": false, \"fault\": 10, \"field\": 0, \"words\": \"OPEN: the file ends without a File Control Record (type \
                99); record 4, at offset 257; the record before it is record 3, Cash Letter Control Record (type 90)\"}";
    assert_eq!((status, output.lines().nth(4)), (1, Some(last)));
    let (status, output, _) = run(&format!("rows --walk --csv {SOUND}"));
    assert_eq!((status, output.lines().count()), (0, 13));
    assert_eq!(output.lines().nth(1), Some("peer/samples/sound-2-checks.x9,1,01,0,80,File Header Record,true,,,"));
}
