//! Records spelled out by hand from the tables of the standard, without the layouts of this program.
//! The samples and the hand-computed cases are made of them.

/// 123456780 keeps the ABA rule: 3+14+3+12+35+6+21+56+0 = 150.
pub const ROUTING: &str = "123456780";

/// 30 February passes by document 01.
pub const DATE: &str = "20050230";

/// An item's sequence number, left justified.
pub const SEQUENCE: &str = "1              ";

fn blanks(count: usize) -> String {
    " ".repeat(count)
}

/// A record's bytes from its text, which must have the length that the clause tables give.
fn text(record: String, length: usize) -> Vec<u8> {
    assert_eq!(record.len(), length, "{record}");
    record.into_bytes()
}

/// Clause 7.
pub fn file_header() -> Vec<u8> {
    text(format!("0120T{ROUTING}{ROUTING}{DATE}2359N{}", blanks(44)), 80)
}

/// Clause 8, with its field 8.
pub fn letter_header(content: char) -> Vec<u8> {
    text(format!("1001{ROUTING}{ROUTING}{DATE}{DATE}0000{content}{}", blanks(37)), 80)
}

/// Clause 9, with cycle number "AB".
pub fn bundle_header() -> Vec<u8> {
    text(format!("2001{ROUTING}{ROUTING}{DATE}{}{}{}AB{}", blanks(8), blanks(10), blanks(4), blanks(26)), 80)
}

/// Clause 10, with its amount, MICR Valid Indicator and addendum count.
pub fn check(amount: u64, micr_valid: char, addenda: u64) -> Vec<u8> {
    let (fore, on_us) = (blanks(16), blanks(20));
    text(format!("25{fore}{ROUTING}{on_us}{amount:010}{SEQUENCE}  {micr_valid} {addenda:02}  "), 80)
}

/// Clause 11, with its record number.
pub fn check_addendum_a(number: u64) -> Vec<u8> {
    text(format!("26{number:01}{}", blanks(112)), 115)
}

/// Clause 12, with an image archive locator alone.
pub fn check_addendum_b(locator: &str) -> Vec<u8> {
    let fixed = text(format!("27{}{:04}0000000000000{}", blanks(49), locator.len(), blanks(5)), 73);
    [&fixed, locator.as_bytes()].concat()
}

/// Clause 13, with its record number.
pub fn check_addendum_c(number: u64) -> Vec<u8> {
    text(format!("28{number:02}{}", blanks(76)), 80)
}

/// Clause 14, with its amount and addendum count.
pub fn returned(amount: u64, addenda: u64) -> Vec<u8> {
    let (fore, on_us) = (blanks(16), blanks(20));
    text(format!("31{fore}{ROUTING}{on_us}{amount:010}{SEQUENCE}{addenda:02}{}", blanks(6)), 80)
}

/// Clause 15, with its record number and business date.
pub fn return_addendum_a(number: u64, date: &str) -> Vec<u8> {
    text(format!("32{number:01}{}{date}{}", blanks(9), blanks(95)), 115)
}

/// Clause 16.
pub fn return_addendum_b() -> Vec<u8> {
    text(format!("33A {}", blanks(76)), 80)
}

/// Clause 17, with captured unparsed MICR data alone.
pub fn return_addendum_c(captured: &str) -> Vec<u8> {
    let fixed = text(format!("34{}0000{:02}00000000000{}", blanks(49), captured.len(), blanks(5)), 73);
    [&fixed, captured.as_bytes()].concat()
}

/// Clause 18, with its record number.
pub fn return_addendum_d(number: u64) -> Vec<u8> {
    text(format!("35{number:02}{}", blanks(76)), 80)
}

/// Clause 21, with its Digital Signature Indicator.
pub fn view_detail(signature: char) -> Vec<u8> {
    let unused = blanks(14);
    let record = format!("501{ROUTING}{DATE}00000000{signature}{unused}0    00000000000000{}", blanks(18));
    text(record, 80)
}

/// Clause 22 with an image alone: no names, no clipping.
pub fn view_data(image: &[u8]) -> Vec<u8> {
    let lengths = format!("00{:04}{:05}{:05}{:05}{:05}{:07}{:05}", 0, 0, 0, 0, 0, image.len(), 0);
    let record = format!("52{ROUTING}{DATE}AB{SEQUENCE}{}00000000000000000{lengths}", blanks(48));
    [&text(record, 139), image].concat()
}

/// Clause 22 with both names, clipping from the third corner, a signature, an image and ancillary data.
pub fn signed_view_data(signature: &[u8], image: &[u8], ancillary: &[u8]) -> Vec<u8> {
    let names = format!("{}AUTHENTICATOR   KEY 1           ", blanks(16));
    let sizes = [signature.len(), image.len(), ancillary.len()];
    let lengths = format!("89{:04}{:05}{:05}{:05}{:05}{:07}{:05}", 0, sizes[0], 0, 0, 0, sizes[1], sizes[2]);
    let record = format!("52{ROUTING}{DATE}AB{SEQUENCE}{names}30001020000030400{lengths}");
    [&text(record, 139), signature, image, ancillary].concat()
}

/// Clause 23.
pub fn view_analysis() -> Vec<u8> {
    text(format!("54012{}", blanks(75)), 80)
}

/// Clause 26, with its usage indicator and amount.
pub fn credit(usage: char, amount: u64) -> Vec<u8> {
    let (fore, on_us) = (blanks(16), blanks(20));
    text(format!("61{usage}{fore}{ROUTING}{on_us}{amount:014}{SEQUENCE}{}", blanks(7)), 84)
}

/// How many, and their cents.
pub type Side = (u64, u64);

/// Clause 31: debits, MICR valid cents as written, views, credits.
pub fn bundle_sums(debits: Side, micr_valid: &str, views: u64, credits: Side) -> Vec<u8> {
    let (debit, credit) = (format!("{:04}{:012}", debits.0, debits.1), format!("{:04}{:012}", credits.0, credits.1));
    text(format!("70{debit}{micr_valid}{views:05}{credit}{}", blanks(29)), 80)
}

/// Clause 31 without credits: items, cents, MICR valid cents as written, views.
pub fn bundle_control(items: u64, cents: u64, micr_valid: &str, views: u64) -> Vec<u8> {
    bundle_sums((items, cents), micr_valid, views, (0, 0))
}

/// Clause 34: bundles, debits, views, credits.
pub fn letter_sums(bundles: u64, debits: Side, views: u64, credits: Side) -> Vec<u8> {
    let (debit, credit) = (format!("{:08}{:014}", debits.0, debits.1), format!("{:08}{:014}", credits.0, credits.1));
    text(format!("90{bundles:06}{debit}{views:09}{}{credit}", blanks(24)), 85)
}

/// Clause 34 without credits: bundles, items, cents, views.
pub fn letter_control(bundles: u64, items: u64, cents: u64, views: u64) -> Vec<u8> {
    letter_sums(bundles, (items, cents), views, (0, 0))
}

/// Clause 35: cash letters, records, items of either side, debit cents, credit cents.
pub fn file_sums(letters: u64, records: u64, items: u64, debit_cents: u64, credit_cents: u64) -> Vec<u8> {
    let debit = format!("{letters:06}{records:08}{items:08}{debit_cents:016}");
    text(format!("99{debit}{}{credit_cents:016}", blanks(24)), 80)
}

/// Clause 35 without credits: cash letters, records, items, cents.
pub fn file_control(letters: u64, records: u64, items: u64, cents: u64) -> Vec<u8> {
    file_sums(letters, records, items, cents, 0)
}

/// A record with other contents from this position on; its first character is at position 1.
pub fn put(mut record: Vec<u8>, position: usize, contents: &str) -> Vec<u8> {
    record[position - 1..position - 1 + contents.len()].copy_from_slice(contents.as_bytes());
    record
}

/// Records with their lengths before them (Annex D).
pub fn file(records: &[Vec<u8>]) -> Vec<u8> {
    let with_length = |record: &Vec<u8>| [&(record.len() as u32).to_be_bytes(), record.as_slice()].concat();
    records.iter().flat_map(with_length).collect()
}

/// MICR valid cents that are not stated.
pub const NOT_STATED: &str = "            ";
