//! The codes of the standard in words: the Defined Values of clauses 7 to 26 and the return reasons of Annex G, shortened where the standard explains at
//! length. For people to read; what is right, the proved library alone decides. It imports no module.

/// A code, or the first and the last of a range, and its words.
type Codes = &'static [(&'static str, &'static str, &'static str)];

/// The words for a code in a field of this name. A letter may stand in either case.
pub fn words(field: &str, text: &str) -> Option<&'static str> {
    let code = text.trim().to_ascii_uppercase();
    let within = |first: &str, last: &str| code.len() == first.len() && *first <= *code && *code <= *last;
    of_field(field)?.iter().find(|(first, last, _)| within(first, last)).map(|(_, _, words)| *words)
}

/// The codes of a field. Fields of one name have the same in every record.
fn of_field(name: &str) -> Option<Codes> {
    Some(match name {
        "Standard Level" => STANDARD_LEVEL,
        "File Type Indicator" => FILE_TYPE,
        "Resend Indicator" => RESEND,
        "Collection Type Indicator" => COLLECTION_TYPE,
        "Cash Letter Record Type Indicator" => RECORD_TYPE,
        "Cash Letter Documentation Type Indicator"
        | "Documentation Type Indicator"
        | "Return Documentation Type Indicator" => DOCUMENTATION,
        "Work Type" => WORK_TYPE,
        "Electronic Return Acceptance Indicator" => RETURN_ACCEPTANCE,
        "MICR Valid Indicator" => MICR_VALID,
        "BOFD Indicator" => BOFD,
        "Correction Indicator" | "BOFD Correction Indicator" | "Endorsing Bank Correction Indicator" => CORRECTION,
        "Archive Type Indicator" => ARCHIVE,
        "Truncation Indicator" => TRUNCATION,
        "BOFD Conversion Indicator" | "Endorsing Bank Conversion Indicator" => CONVERSION,
        "BOFD Magnetic Read Indicator" | "Endorsing Bank Magnetic Read Indicator" => MAGNETIC_READ,
        "Endorsing Bank Identifier" => ENDORSER,
        "Return Reason" | "Additional Return Reason" => RETURN_REASON,
        "Number of Times Returned" => TIMES_RETURNED,
        "Image Indicator" => IMAGE,
        "Image View Format Indicator" => FORMAT,
        "Image View Compression Algorithm Identifier" => COMPRESSION,
        "Image View Type" => VIEW_TYPE,
        "View Side Indicator" => SIDE,
        "View Descriptor" => DESCRIPTOR,
        "Digital Signature Indicator" => SIGNATURE,
        "Digital Signature Hash Function Method" => HASH,
        "Digital Signature Cryptographic Algorithm Method" => CRYPTOGRAPHY,
        "Digital Certificate Indicator" => CERTIFICATE,
        "Digital Certificate Format" => CERTIFICATE_FORMAT,
        "Digital Certificate Conveyance Method" => CONVEYANCE,
        "Image Recreate Indicator" => RECREATE,
        "Image Test Override Indicator" => TEST_OVERRIDE,
        "Clipping Origin" => CLIPPING,
        "Ancillary Data Indicator" => ANCILLARY,
        "Global Image Defect" => GLOBAL_DEFECT,
        "Global Image Usability" => GLOBAL_USABILITY,
        "Imaging Bank Specific Test" => BANK_TEST,
        "Image-Enabled POD" => POD,
        "Source Document Bad" => SOURCE_BAD,
        "Record Usage Indicator" => CREDIT_USAGE,
        "Type of Account Code" => ACCOUNT_TYPE,
        "Source of Work Code" => SOURCE_OF_WORK,
        "Partial Image"
        | "Excessive Image Skew"
        | "Piggyback Image"
        | "Too Light"
        | "Too Dark"
        | "Streaks and or Bands"
        | "Below Minimum Image Size"
        | "Exceeds Maximum Image Size" => CONDITION,
        _ if name.ends_with(" Usability") => USABILITY,
        _ => return None,
    })
}

// Clause 7.
const STANDARD_LEVEL: Codes = &[
    ("01", "01", "ANS X9.37-1994"),
    ("02", "02", "ANS X9.37-2001"),
    ("03", "03", "DSTU X9.37-2003"),
    ("20", "20", "ANS X9.100-180-2006"),
];
const FILE_TYPE: Codes = &[
    ("P", "P", "production financial exchange file"),
    ("T", "T", "test financial exchange file"),
    ("A", "A", "production non-financial file"),
    ("B", "B", "test non-financial file"),
];
const RESEND: Codes = &[("Y", "Y", "sent again: the data of a file sent before"), ("N", "N", "original file")];

// Clauses 8 and 9.
const COLLECTION_TYPE: Codes = &[
    ("00", "00", "preliminary forward information"),
    ("01", "01", "forward presentment"),
    ("03", "03", "return"),
    ("05", "05", "preliminary return notification"),
    ("06", "06", "final return notification"),
    ("07", "07", "administrative return"),
    ("09", "09", "delayed processing notification"),
    ("10", "10", "account totals"),
    ("12", "12", "deposit"),
    ("20", "20", "no detail"),
    ("80", "80", "unqualified (Canadian use)"),
    ("81", "81", "large items (Canadian use)"),
    ("82", "82", "request for re-scan (Canadian use)"),
    ("83", "83", "re-scanned items (Canadian use)"),
    ("84", "84", "item on collection (Canadian use)"),
    ("85", "85", "paid or un-paid items on collection (Canadian use)"),
    ("86", "89", "reserved for future Canadian use"),
    ("99", "99", "bundles not the same collection type"),
];
const RECORD_TYPE: Codes = &[
    ("N", "N", "no electronic check records or image records"),
    ("E", "E", "electronic check records with no images"),
    ("I", "I", "electronic check records and image records"),
    ("F", "F", "electronic check records and image records of a cash letter sent before"),
];
const DOCUMENTATION: Codes = &[
    ("A", "A", "no image provided, paper provided separately"),
    ("B", "B", "no image provided, paper provided separately, image upon request"),
    ("C", "C", "image provided separately, no paper provided"),
    ("D", "D", "image provided separately, no paper provided, image upon request"),
    ("E", "E", "image and paper provided separately"),
    ("F", "F", "image and paper provided separately, image upon request"),
    ("G", "G", "image included, no paper provided"),
    ("H", "H", "image included, no paper provided, image upon request"),
    ("I", "I", "image included, paper provided separately"),
    ("J", "J", "image included, paper provided separately, image upon request"),
    ("K", "K", "no image provided, no paper provided"),
    ("L", "L", "no image provided, no paper provided, image upon request"),
    ("M", "M", "no image provided, electronic check provided separately"),
    ("Z", "Z", "not same type: each item tells"),
];
const WORK_TYPE: Codes = &[
    ("01", "01", "city"),
    ("02", "02", "city group"),
    ("03", "03", "city fine sort"),
    ("04", "04", "RCPC"),
    ("05", "05", "RCPC group"),
    ("06", "06", "RCPC fine sort"),
    ("07", "07", "high dollar group sort"),
    ("08", "08", "country"),
    ("09", "09", "country group sort"),
    ("10", "10", "country fine sort"),
    ("11", "11", "other district"),
    ("12", "12", "other district group sort"),
    ("13", "13", "mixed"),
    ("14", "14", "high volume mixed (master account option)"),
    ("15", "15", "electronic group sort"),
    ("16", "16", "government item fine sort deposits"),
    ("17", "17", "postal money order fine sort deposits"),
    ("18", "25", "reserved for future X9 use"),
    ("26", "26", "mixed"),
    ("27", "27", "high volume mixed"),
    ("28", "28", "payor bank group sort"),
    ("29", "29", "government item fine sort deposits"),
    ("30", "30", "postal money order fine sort deposits"),
    ("31", "31", "aggregation Fed work type I"),
    ("32", "32", "aggregation Fed work type II"),
    ("33", "33", "aggregation Fed work type III"),
    ("34", "34", "aggregation Fed work type IV"),
    ("35", "35", "mixed (non-iCPCS to iCPCS)"),
    ("36", "36", "mixed (iCPCS to iCPCS)"),
    ("37", "60", "reserved for future Federal Reserve use"),
    ("61", "61", "SDS"),
    ("62", "62", "CLHS clearing house"),
    ("63", "63", "unqualified returns"),
    ("64", "64", "mixed qualified"),
    ("65", "65", "mixed unqualified"),
    ("66", "66", "internal"),
    ("67", "90", "reserved for future private sector codes"),
    ("91", "91", "Canadian paper debits"),
    ("92", "92", "U.S. paper debits"),
    ("93", "93", "Canadian paper credits (bill payments in Canadian currency)"),
    ("94", "94", "U.S. paper credits (bill payments in US currency)"),
    ("95", "99", "reserved for future Canadian use"),
];

// Clause 10.
const RETURN_ACCEPTANCE: Codes = &[
    ("0", "0", "accepts no electronic information"),
    ("1", "1", "accepts electronic preliminary return notifications, returns and final return notifications"),
    ("2", "2", "accepts electronic preliminary return notifications and returns"),
    ("3", "3", "accepts electronic preliminary and final return notifications"),
    ("4", "4", "accepts electronic returns and final return notifications"),
    ("5", "5", "accepts electronic preliminary return notifications only"),
    ("6", "6", "accepts electronic returns only"),
    ("7", "7", "accepts electronic final return notifications only"),
    (
        "8",
        "8",
        "accepts electronic preliminary return notifications, returns, final return notifications and image returns",
    ),
    ("9", "9", "accepts electronic preliminary return notifications, returns and image returns"),
    ("A", "A", "accepts electronic preliminary and final return notifications and image returns"),
    ("B", "B", "accepts electronic returns, final return notifications and image returns"),
    ("C", "C", "accepts electronic preliminary return notifications and image returns"),
    ("D", "D", "accepts electronic returns and image returns"),
    ("E", "E", "accepts electronic final return notifications and image returns"),
    ("F", "F", "accepts electronic image returns only"),
];
const MICR_VALID: Codes = &[
    ("1", "1", "good read, On-Us field present"),
    ("2", "2", "good read, On-Us field missing"),
    ("3", "3", "read error, On-Us field present"),
    ("4", "4", "read error, On-Us field missing"),
];
const BOFD: Codes = &[
    ("Y", "Y", "the ECE institution is the bank of first deposit"),
    ("N", "N", "the ECE institution is not the bank of first deposit"),
    ("U", "U", "undetermined whether the ECE institution is the bank of first deposit"),
];
const CORRECTION: Codes = &[
    ("0", "0", "no repair"),
    ("1", "1", "repaired (method unknown)"),
    ("2", "2", "repaired without operator intervention"),
    ("3", "3", "repaired with operator intervention"),
    ("4", "4", "undetermined"),
];
const ARCHIVE: Codes = &[
    ("A", "A", "microfilm"),
    ("B", "B", "image"),
    ("C", "C", "paper"),
    ("D", "D", "microfilm and image"),
    ("E", "E", "microfilm and paper"),
    ("F", "F", "image and paper"),
    ("G", "G", "microfilm, image and paper"),
    ("H", "H", "electronic check instrument"),
    ("I", "I", "none"),
];

// Clauses 11, 13, 15, 16 and 18.
const TRUNCATION: Codes = &[
    ("Y", "Y", "this institution truncated the original check"),
    ("N", "N", "this institution did not truncate the original check"),
];
const CONVERSION: Codes = &[
    ("0", "0", "did not convert physical document"),
    ("1", "1", "original check converted to IRD (not valid for electronic exchange)"),
    ("2", "2", "original check converted to image"),
    ("3", "3", "IRD converted to another IRD (not valid for electronic exchange)"),
    ("4", "4", "IRD converted to image of IRD"),
    ("5", "5", "image converted to an IRD (not valid for electronic exchange)"),
    ("6", "6", "image converted to another image"),
    ("7", "7", "did not convert image"),
    ("8", "8", "undetermined"),
];
const MAGNETIC_READ: Codes = &[
    ("0", "0", "read with magnetic MICR technology, MICR characters present"),
    ("1", "1", "not read with magnetic MICR technology"),
    ("2", "2", "read with magnetic MICR technology, no magnetic characters read"),
    ("3", "3", "unknown"),
];
const ENDORSER: Codes = &[
    ("0", "0", "depositary bank (BOFD)"),
    ("1", "1", "other collecting bank"),
    ("2", "2", "other returning bank"),
    ("3", "3", "payor bank"),
];
const TIMES_RETURNED: Codes =
    &[("0", "0", "unknown"), ("1", "1", "first return"), ("2", "2", "second return"), ("3", "3", "third return")];

// Annex G.
const RETURN_REASON: Codes = &[
    ("A", "A", "not sufficient funds"),
    ("B", "B", "uncollected funds hold"),
    ("C", "C", "stop payment"),
    ("D", "D", "closed account"),
    ("E", "E", "unable to locate account"),
    ("F", "F", "frozen or blocked account"),
    ("G", "G", "stale dated"),
    ("H", "H", "post dated"),
    ("I", "I", "endorsement missing"),
    ("J", "J", "endorsement irregular"),
    ("K", "K", "signature(s) missing"),
    ("L", "L", "signature(s) irregular"),
    ("M", "M", "non-cash item (non negotiable)"),
    ("N", "N", "altered or fictitious item"),
    ("O", "O", "unable to process (e.g. mutilated item)"),
    ("P", "P", "item exceeds dollar limit"),
    ("Q", "Q", "not authorized"),
    ("R", "R", "branch or account sold"),
    ("S", "S", "refer to maker"),
    ("T", "T", "stop payment suspect"),
    ("U", "U", "unusable image"),
    ("V", "V", "image fails security check"),
    ("W", "W", "cannot determine amount"),
    ("Y", "Y", "duplicate presentment"),
    ("Z", "Z", "forgery"),
    ("2", "2", "unavailable funds"),
    ("3", "3", "ineligible"),
    ("4", "4", "not our item (wrong bank)"),
    ("5", "5", "retired ABA"),
    ("6", "6", "suspected counterfeit"),
    ("7", "7", "counterfeit"),
    ("8", "8", "warranty breach"),
    ("9", "9", "amounts differ"),
    ("01", "09", "not used"),
    ("10", "10", "double post"),
    ("11", "11", "amount not authorized"),
    ("12", "12", "payee deceased"),
    ("13", "13", "personal endorsement missing"),
    ("14", "14", "check fraud: breach of warranty"),
    ("15", "15", "non conforming image"),
    ("16", "16", "non conforming IRD"),
    ("19", "19", "do not represent: exceeds presentment limits"),
    ("20", "20", "suspected altered"),
    ("21", "21", "altered or fictitious amount"),
    ("22", "22", "altered or fictitious date"),
    ("23", "23", "altered or fictitious payee signature"),
    ("24", "24", "altered or fictitious payee name"),
    ("25", "25", "altered or fictitious maker"),
    ("26", "26", "unable to process, mutilated item: missing payee"),
    ("27", "27", "unable to process, mutilated item: missing amount"),
    ("28", "28", "unable to process, mutilated item: missing maker's signature"),
    ("31", "31", "signature irregular: not on file"),
    ("32", "32", "signature irregular: two signatures required"),
    ("33", "33", "signature irregular: unauthorized signature"),
    ("34", "34", "signature irregular: questionable"),
    ("35", "35", "unable to locate account: invalid account"),
    ("36", "36", "unable to locate account: divested account"),
    ("41", "41", "missing image (front and back)"),
    ("42", "42", "missing image front"),
    ("43", "43", "missing image back"),
    ("50", "50", "fails image quality analysis: unusable"),
    ("70", "70", "invalid data for field data type"),
    ("71", "71", "missing mandatory data"),
    ("72", "72", "not acceptable image compression type or image format type"),
    ("74", "74", "data mismatch between pair type 50 and type 52"),
    ("75", "75", "image decompression error"),
    ("76", "76", "invalid image structure"),
    ("77", "77", "sum of variable length data does not match its elements"),
    ("78", "78", "forward item in return bundle, or return item in forward bundle"),
    ("79", "79", "clipping coordinates inconsistent with image size"),
    ("80", "80", "MICR code line on check image does not match the records"),
    ("90", "9Z", "user defined: see return text overlay"),
];

// Clause 21.
const IMAGE: Codes = &[
    ("0", "0", "image view not present"),
    ("1", "1", "image view present, check or substitute check"),
    ("2", "2", "image view present, other documentation"),
    ("3", "3", "image view present, unable to determine of what"),
];
const FORMAT: Codes = &[
    ("00", "00", "TIFF 6 (Group 4, black and white)"),
    ("01", "20", "reserved (agreement is not required)"),
    ("21", "21", "JPEG (JFIF)"),
    ("22", "22", "PNG"),
    ("23", "23", "TIFF 6 (compression 7, grayscale)"),
    ("24", "24", "TIFF 6 (compression 6, grayscale)"),
    ("25", "25", "JPEG 2000"),
    ("26", "26", "IOCA FS 11"),
    ("27", "99", "reserved for future use, only under agreement"),
];
const COMPRESSION: Codes = &[
    ("00", "00", "Group 4 facsimile compression"),
    ("01", "20", "reserved (agreement is not required)"),
    ("21", "21", "JPEG Baseline, grayscale"),
    ("22", "22", "PNG"),
    ("23", "23", "ABIC"),
    ("24", "24", "JPEG 2000"),
    ("25", "25", "LZW"),
    ("26", "99", "reserved for future use, only under agreement"),
];
const VIEW_TYPE: Codes = &[
    ("0", "0", "black and white"),
    ("1", "1", "grayscale"),
    ("2", "2", "color"),
    ("3", "3", "other"),
    ("4", "4", "unknown"),
];
const SIDE: Codes = &[("0", "0", "front image view"), ("1", "1", "back image view")];
const DESCRIPTOR: Codes = &[
    ("00", "00", "full view"),
    ("01", "01", "partial view, unspecified"),
    ("02", "02", "partial view, date (issue)"),
    ("03", "03", "partial view, payee"),
    ("04", "04", "partial view, convenience amount"),
    ("05", "05", "partial view, amount in words (legal amount)"),
    ("06", "06", "partial view, signature (payor)"),
    ("07", "07", "partial view, payor name and address"),
    ("08", "08", "partial view, MICR line"),
    ("09", "09", "partial view, memo line"),
    ("10", "10", "partial view, payor bank name and address"),
    ("11", "11", "partial view, payee endorsement"),
    ("12", "12", "partial view, bank of first deposit endorsement"),
    ("13", "13", "partial view, transit endorsement"),
    ("14", "99", "reserved for X9"),
];
const SIGNATURE: Codes = &[("0", "0", "digital signature not present"), ("1", "1", "digital signature present")];
const HASH: Codes = &[
    ("0", "0", "SHA-1"),
    ("1", "1", "SHA-224"),
    ("2", "2", "SHA-256"),
    ("3", "3", "SHA-384"),
    ("4", "4", "SHA-512"),
    ("5", "9", "reserved for emerging algorithms"),
    ("10", "99", "reserved for emerging algorithms"),
];
const CRYPTOGRAPHY: Codes = &[
    ("0", "0", "Digital Signature Algorithm (DSA)"),
    ("1", "1", "RSA"),
    ("2", "2", "Elliptic Curve DSA"),
    ("3", "9", "reserved for emerging algorithms"),
    ("10", "99", "reserved for emerging algorithms"),
];
const CERTIFICATE: Codes = &[("0", "0", "digital certificate not present"), ("1", "1", "digital certificate present")];
const CERTIFICATE_FORMAT: Codes = &[
    ("00", "00", "X.509, DER encoded binary format"),
    ("01", "01", "X.509, PKCS #7 binary format"),
    ("02", "99", "reserved for future use"),
];
const CONVEYANCE: Codes = &[
    ("00", "00", "in the Image View Data Record (type 52)"),
    ("01", "01", "in a Digital Certificate Record (type 64) of this file"),
    ("02", "02", "by agreement between the exchange partners"),
    ("03", "99", "reserved for future use"),
];
const RECREATE: Codes =
    &[("0", "0", "sender can recreate the image view"), ("1", "1", "sender cannot recreate the image view")];
const TEST_OVERRIDE: Codes = &[
    ("0", "0", "no override information"),
    ("A", "A", "fails image quality, deemed usable: no alternate format"),
    ("B", "B", "fails image quality, deemed usable: alternate format in this file"),
    ("C", "C", "fails image quality, deemed usable: alternate format in this file, original document available"),
    ("D", "D", "fails image quality, deemed usable: alternate format available"),
    ("E", "E", "fails image quality, deemed usable: original document available"),
    ("F", "F", "fails image quality, deemed usable: original document and alternate format available"),
    ("G", "G", "fails image quality, deemed unusable: no alternate format"),
    ("H", "H", "fails image quality, deemed unusable: alternate format in this file"),
    ("I", "I", "fails image quality, deemed unusable: alternate format in this file, original document available"),
    ("J", "J", "fails image quality, deemed unusable: alternate format available"),
    ("K", "K", "fails image quality, deemed unusable: original document available"),
    ("L", "L", "fails image quality, deemed unusable: original document and alternate format available"),
    ("M", "M", "fails image quality, not reviewed: no alternate format"),
    ("N", "N", "fails image quality, not reviewed: alternate format in this file"),
    ("O", "O", "fails image quality, not reviewed: alternate format in this file, original document available"),
    ("P", "P", "fails image quality, not reviewed: alternate format available"),
    ("Q", "Q", "fails image quality, not reviewed: original document available"),
    ("R", "R", "fails image quality, not reviewed: original document and alternate format available"),
];

// Clauses 22 and 23.
const CLIPPING: Codes = &[
    ("0", "0", "clipping information not present"),
    ("1", "1", "clipping from the top left corner"),
    ("2", "2", "clipping from the top right corner"),
    ("3", "3", "clipping from the bottom right corner"),
    ("4", "4", "clipping from the bottom left corner"),
];
const ANCILLARY: Codes = &[
    ("00", "00", "ancillary data not present"),
    ("01", "88", "reserved for X9 use"),
    ("89", "99", "defined by the exchange partners"),
];
const GLOBAL_DEFECT: Codes = &[
    ("0", "0", "not tested for image defects"),
    ("1", "1", "tested, one or more image defects reported"),
    ("2", "2", "tested, no image defects reported"),
];
const GLOBAL_USABILITY: Codes = &[
    ("0", "0", "not tested for image usability"),
    ("1", "1", "tested, one or more usability conditions reported"),
    ("2", "2", "tested, no usability conditions reported"),
];
const BANK_TEST: Codes = &[
    ("0", "0", "no user-defined tests"),
    ("1", "1", "user-defined tests made, one or more conditions reported in the User Field"),
    ("2", "2", "user-defined tests made, none reported in the User Field"),
];
const CONDITION: Codes =
    &[("0", "0", "test not done"), ("1", "1", "condition present"), ("2", "2", "condition not present")];
const POD: Codes = &[
    ("0", "0", "unknown whether used in an image-enabled POD application"),
    ("1", "1", "not used in an image-enabled POD application"),
    ("2", "2", "used in an image-enabled POD application"),
];
const SOURCE_BAD: Codes = &[
    ("0", "0", "test not done"),
    ("1", "1", "unusable, and no better image to be had: source document bad"),
    ("2", "2", "unusable, and a better image may be had: source document good"),
];
const USABILITY: Codes =
    &[("0", "0", "test not done"), ("1", "1", "unusable and unreadable"), ("2", "2", "usable and readable")];

// Clause 26.
const CREDIT_USAGE: Codes = &[
    ("1", "1", "credit for total cash letter, before the debits"),
    ("2", "2", "credit for total cash letter, behind the debits"),
    ("3", "3", "credit for total bundle, before the debits"),
    ("4", "4", "credit for total bundle, behind the debits"),
    ("5", "5", "credit, items offsetting, debits follow"),
    ("6", "6", "credit, items offsetting, debits precede"),
    ("7", "7", "stand alone credit"),
    ("8", "8", "credit adjustment"),
    ("9", "9", "debit adjustment"),
];
const ACCOUNT_TYPE: Codes = &[
    ("1", "1", "DDA account"),
    ("2", "2", "general ledger account"),
    ("3", "3", "savings account"),
    ("4", "4", "money market account"),
    ("5", "5", "other account"),
    ("A", "J", "user defined"),
];
const SOURCE_OF_WORK: Codes = &[
    ("01", "01", "internal: ATM"),
    ("02", "02", "internal: branch"),
    ("03", "03", "internal: other"),
    ("04", "04", "external: bank to bank (correspondent)"),
    ("05", "05", "external: business to bank (customer)"),
    ("06", "06", "external: business to bank, remote capture"),
    ("07", "07", "external: processor to bank"),
    ("08", "08", "external: bank to processor"),
    ("09", "09", "lockbox"),
    ("10", "10", "international: internal"),
    ("11", "11", "international: external"),
    ("21", "50", "user defined"),
    ("51", "99", "reserved for X9"),
];

#[cfg(test)]
mod tests {
    use super::*;
    use x9180::{Form, KINDS};

    /// The codes in a list of defined values: `A-M, Z` is A, B and so on, and Z.
    fn listed(values: &str) -> Vec<String> {
        let mut codes = Vec::new();
        for part in values.split(", ") {
            let (first, last) = part.split_once('-').unwrap_or((part, part));
            match (first.parse::<u64>(), last.parse::<u64>()) {
                (Ok(one), Ok(end)) => {
                    codes.extend((one..=end).map(|code| format!("{code:0width$}", width = first.len())))
                }
                _ => {
                    let ends = [first, last].map(|letter| letter.chars().next().unwrap());
                    codes.extend((ends[0]..=ends[1]).map(String::from));
                }
            }
        }
        codes
    }

    /// Every defined value that the standard lists has words, but for lengths, counts, offsets and coordinates, which are numbers.
    #[test]
    fn every_defined_value_has_words() {
        let mut seen = 0;
        for kind in KINDS {
            for field in kind.fields.iter().filter(|field| field.number > 1) {
                let Form::Values(values) = field.form else { continue };
                let is_number = ["Length of ", "Addendum Count", "Start of ", "Clipping Coordinate"];
                if is_number.iter().any(|part| field.name.contains(part)) {
                    continue;
                }
                for code in listed(values) {
                    assert!(
                        words(field.name, &code).is_some(),
                        "{kind}: field {}, {}: {code}",
                        field.number,
                        field.name
                    );
                    seen += 1;
                }
            }
        }
        assert!(seen > 500, "{seen}");
    }

    #[test]
    fn codes_with_blanks_and_small_letters() {
        assert_eq!(words("Return Reason", "A "), Some("not sufficient funds"));
        assert_eq!(words("Return Reason", "9 "), Some("amounts differ"));
        assert_eq!(words("Return Reason", "9q"), Some("user defined: see return text overlay"));
        assert_eq!(words("Return Reason", "X "), None);
        assert_eq!(words("Resend Indicator", "n"), Some("original file"));
        assert_eq!(words("Digital Signature Hash Function Method", "10"), Some("reserved for emerging algorithms"));
    }
}
