//! `icl diff`: what two files have in common and what not; whole outputs.

mod common;

use common::{icl, outcome, piped, read, run, Folder};
use peer_reader::plain::*;

const PICTURED: &str = "samples/two-letters-with-pictures.x9";
const EBCDIC: &str = "samples/ebcdic-with-pictures.x9";
const DAMAGED: &str = "peer/samples/damaged-06-item-count.x9";

fn counts(letters: [u64; 4], bundles: [u64; 4], items: [u64; 4]) -> String {
    let line = |name: &str, count: [u64; 4]| {
        let [same, changed, a, b] = count;
        format!("{name}: {same} the same, {changed} changed, {a} in A only, {b} in B only\n")
    };
    [line("cash letters", letters), line("bundles", bundles), line("items", items)].concat()
}

#[test]
fn the_same() {
    let same = format!(
        "file: header and control the same\ncash letters 1 to 2 in A and B: the same\n{}",
        counts([2, 0, 0, 0], [3, 0, 0, 0], [4, 0, 0, 0])
    );
    assert_eq!(run(&format!("diff {PICTURED} {PICTURED}")), (0, same.clone(), String::new()));
    let translated = format!("character sets: ASCII in A, EBCDIC in B; compared by their characters\n{same}");
    assert_eq!(run(&format!("diff {PICTURED} {EBCDIC}")), (0, translated, String::new()));
    assert_eq!(piped(&format!("diff - {PICTURED}"), &read(PICTURED)), (0, same, String::new()));
}

/// A bundle of checks, each of so many cents with this sequence number.
fn bundle(checks: &[(u64, &str)]) -> Vec<Vec<u8>> {
    let mut records = vec![bundle_header()];
    records.extend(checks.iter().map(|(cents, sequence)| put(check(*cents, ' ', 0), 58, &format!("{sequence:<15}"))));
    records.push(bundle_control(checks.len() as u64, checks.iter().map(|check| check.0).sum(), NOT_STATED, 0));
    records
}

/// A file of one cash letter.
fn letter(bundles: &[&[(u64, &str)]]) -> Vec<u8> {
    let items = bundles.iter().map(|checks| checks.len() as u64).sum();
    let cents = bundles.iter().flat_map(|checks| checks.iter()).map(|check| check.0).sum();
    let mut records = vec![file_header(), letter_header('E')];
    bundles.iter().for_each(|checks| records.extend(bundle(checks)));
    records.push(letter_control(bundles.len() as u64, items, cents, 0));
    records.push(file_control(1, records.len() as u64 + 1, items, cents));
    file(&records)
}

/// A: a bundle of 101 to 105, and one of 201. B: the same without 102, 104 with another amount, 106 new, and 201 in the first bundle.
#[test]
fn items_changed_missing_and_moved() {
    let folder = Folder::new("items");
    let first = [(100, "101"), (200, "102"), (300, "103"), (400, "104"), (500, "105")];
    let a = folder.with("a", &letter(&[&first, &[(7, "201")], &[(8, "301"), (9, "302")]]));
    let second = [(100, "101"), (300, "103"), (401, "104"), (500, "105"), (600, "106"), (7, "201")];
    let b = folder.with("b", &letter(&[&second, &[(8, "301"), (9, "302")]]));
    // In A the 70 of the first bundle is record 9, the 90 is record 17 and the 99 record 18; in B 10, 15 and 16.
    let control = |kind: &str, records: &str, fields: &[(&str, &str, &str)]| {
        let line = |(name, one, other): &(&str, &str, &str)| {
            format!("{kind} ({records}): {name}: \"{one}\" in A, \"{other}\" in B\n")
        };
        fields.iter().map(line).collect::<Vec<_>>()
    };
    let file = control(
        "  File Control Record (type 99)",
        "record 18 in A, 16 in B",
        &[
            ("field 3, Total Record Count", "00000018", "00000016"),
            ("field 5, File Debit Total Amount", "0000000000001524", "0000000000001925"),
        ],
    );
    let in_letter = control(
        "  Cash Letter Control Record (type 90)",
        "record 17 in A, 15 in B",
        &[
            ("field 2, Bundle Count", "000003", "000002"),
            ("field 4, Cash Letter Debit Total Amount", "00000000001524", "00000000001925"),
        ],
    );
    let in_bundle = control(
        "    Bundle Control Record (type 70)",
        "record 9 in A, 10 in B",
        &[
            ("field 2, Bundle Debit Item Count", "0005", "0006"),
            ("field 3, Bundle Debit Total Amount", "000000001500", "000000001908"),
        ],
    );
    let expected = [
        "file: header and control changed\n",
        &file.concat(),
        "cash letter 1 in A and B: changed\n",
        &in_letter.concat(),
        "  bundle 1 in A and B: changed\n",
        &in_bundle.concat(),
        "    item 1 in A and B: the same\n",
        "    item 2 in A only: check of 2.00, sequence number \"102            \"\n",
        "    item 3 in A, 2 in B: the same\n",
        "    item 4 in A, 3 in B: changed: check of 4.00, sequence number \"104            \"\n",
        "      Check Detail Record (type 25) (record 7 in A, 6 in B): field 6, Item Amount: \"0000000400\" in A, \"0000000401\" in B\n",
        "    item 5 in A, 4 in B: the same\n",
        "    item 5 in B only: check of 6.00, sequence number \"106            \"\n",
        "    item 6 in B only: check of 0.07, sequence number \"201            \"; the same stands in A as cash letter 1, bundle 2, item 1\n",
        "  bundle 2 in A only: 1 item, 0 views, 1 debit of 0.07, 0 credits of 0.00\n",
        "  bundle 3 in A, 2 in B: the same\n",
        &counts([0, 1, 0, 0], [1, 1, 1, 0], [5, 1, 2, 2]),
    ];
    assert_eq!(run(&format!("diff {a} {b}")), (1, expected.concat(), String::new()));
}

/// A picture of other bytes: in one view of one item.
#[test]
fn a_picture_changed() {
    let folder = Folder::new("picture-changed");
    let mut other = read(PICTURED);
    other[1029 + 143] ^= 1;
    let other = folder.with("other", &other);
    let expected = format!(
        "file: header and control the same\ncash letter 1 in A and B: changed\n  bundle 1 in A and B: changed\n    \
         item 1 in A and B: changed: check of 125.50, sequence number \"000000000000101\"\n      \
         Image View Data Record (type 52) (record 10): field 27, Image Data: 188 bytes in A, 188 bytes in B\n    \
         item 2 in A and B: the same\n  bundle 2 in A and B: the same\ncash letter 2 in A and B: the same\n{}",
        counts([1, 1, 0, 0], [2, 1, 0, 0], [3, 1, 0, 0])
    );
    assert_eq!(run(&format!("diff {PICTURED} {other}")), (1, expected, String::new()));
}

#[test]
fn sorts_of_input() {
    let folder = Folder::new("diff-sorts");
    let (empty, missing, below) = (folder.with("empty", b""), folder.path("missing"), folder.path(""));
    let damaged = "refused 9 record 10 field 2 offset 818: TOTAL: a control field is not what its part of the file adds up to; record 10, Bundle \
                   Control Record (type 70), at offset 818; field 2, Bundle Debit Item Count, at offset 824; found \"0003\"; debit items in the \
                   bundle: 2";
    let size = "refused 1 record 0 field 0 offset 0: SIZE: the file has no byte, or more than 268435456; found 0 bytes";
    for (words, status, complaint) in [
        (format!("diff {PICTURED} {DAMAGED}"), 1, format!("icl: {DAMAGED}: {damaged}\n")),
        (format!("diff {DAMAGED} {empty}"), 1, format!("icl: {DAMAGED}: {damaged}\nicl: {empty}: {size}\n")),
        (format!("diff {missing} {PICTURED}"), 2, format!("icl: {missing}: there is no such file or folder\n")),
        (
            format!("diff {DAMAGED} {missing}"),
            2,
            format!("icl: {DAMAGED}: {damaged}\nicl: {missing}: there is no such file or folder\n"),
        ),
        (format!("diff {PICTURED} {below}"), 2, format!("icl: {below}: it is a folder, not a file\n")),
        ("diff a".to_string(), 2, "icl: B is missing (icl --help tells more)\n".to_string()),
    ] {
        assert_eq!(run(&words), (status, String::new(), complaint), "{words}");
    }
    let twice = outcome(&mut icl(["diff", "-", "-"]));
    assert_eq!(
        twice,
        (2, String::new(), "icl: standard input (-) can be read once only (icl --help tells more)\n".to_string())
    );
}
