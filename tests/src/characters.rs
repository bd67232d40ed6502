//! Clause 5 a second time: Tables 1 and 2 as the standard prints them, the lines that the program `characters` has to print by them in ASCII
//! and in EBCDIC, and the page for staff, docs/CHARACTERS.md, which is made from the lines that it does print.

use crate::ebcdic::Set;

/// A basic character type: its abbreviation, its clause, its name, and its characters as Table 1 prints them.
pub struct Basic(pub &'static str, pub &'static str, pub &'static str, pub &'static str);

/// Clauses 5.1 and 5.2 with Table 1, in the order of the clauses.
pub const TABLE_1: [Basic; 10] = [
    Basic("A", "5.1.1", "Alphabetic characters", "abcdefghijklmnopqrstuvwxyzABCDEFGHIJKLMNOPQRSTUVWXYZ "),
    Basic("B", "5.1.2", "Blank character", " "),
    Basic("N", "5.1.3", "Numeric characters", "0123456789"),
    Basic("Q", "5.1.4", "Questionable data character", "?"),
    Basic("S", "5.1.5", "Special printable characters", "!\"#$%&'()*+,-./:;<=>?@[\\]^_`{|}~"),
    Basic("Ma", "5.2.1", "MICR amount symbol", "$"),
    Basic("Mc", "5.2.2", "MICR can't read", "*"),
    Basic("Md", "5.2.3", "MICR dash symbol", "-"),
    Basic("Mo", "5.2.4", "MICR on-us symbol", "/"),
    Basic("Mr", "5.2.5", "MICR transit (routing) symbol", "#"),
];

/// A data type: its abbreviation, its clause, its name, and the basic types it is made of; none for Binary, which takes every byte.
pub struct Made(pub &'static str, pub &'static str, pub &'static str, pub &'static [&'static str]);

/// Clause 5.3 with Table 2, in the order of the clause. ANC (5.3.4) is in no carried record.
pub const TABLE_2: [Made; 13] = [
    Made("AB", "5.3.1", "All blank", &["B"]),
    Made("A", "5.3.2", "Alphabetic", &["A"]),
    Made("AN", "5.3.3", "Alphanumeric", &["A", "N"]),
    Made("ANS", "5.3.5", "Alphanumeric/special", &["A", "N", "S"]),
    Made("Binary", "5.3.6", "Binary", &[]),
    Made("N", "5.3.7", "Numeric", &["N"]),
    Made("NB", "5.3.8", "Numeric/blank fill", &["N", "B"]),
    Made("NBD", "5.3.9", "Numeric/blank fill/dash", &["N", "B", "Md"]),
    Made("NBQ", "5.3.10", "Numeric/blank fill/questionable data", &["N", "B", "Q"]),
    Made("NBMc", "5.3.11", "Numeric/blank/MICR can't read", &["N", "B", "Mc"]),
    Made("NBMcd", "5.3.12", "Numeric/blank/MICR can't read and dash", &["N", "B", "Mc", "Md"]),
    Made("NBMcdo", "5.3.13", "Numeric/blank/MICR can't read, dash, and on-us", &["N", "B", "Mc", "Md", "Mo"]),
    Made("NBMU", "5.3.14", "Numeric/blank/MICR unparsed", &["N", "B", "Ma", "Mc", "Md", "Mo", "Mr"]),
];

/// The character sets by the names that the program prints, in its order.
const SETS: [(&str, Set); 2] = [("ASCII", Set::Ascii), ("EBCDIC", Set::Ebcdic)];

fn is_basic(abbreviation: &str, character: u8) -> bool {
    let Basic(_, _, _, characters) =
        TABLE_1.iter().find(|basic| basic.0 == abbreviation).expect("a basic type of Table 1");
    characters.as_bytes().contains(&character)
}

fn is_admitted(made: &Made, character: u8) -> bool {
    made.3.is_empty() || made.3.iter().any(|basic| is_basic(basic, character))
}

/// What the program `characters` has to print, by the two tables and, in EBCDIC, code page 037.
pub fn expected_lines() -> String {
    let names: Vec<&str> = TABLE_1.iter().map(|basic| basic.0).chain(TABLE_2.iter().map(|made| made.0)).collect();
    let mut lines = format!("set byte {}\n", names.join(" "));
    for (name, set) in SETS {
        for byte in 0..=255 {
            lines.push_str(&format!("{name} {byte}"));
            let character = set.to_ascii(&[byte])[0];
            let basic = TABLE_1.iter().map(|basic| is_basic(basic.0, character));
            let made = TABLE_2.iter().map(|made| is_admitted(made, character));
            for admitted in basic.chain(made) {
                lines.push_str(if admitted { " 1" } else { " 0" });
            }
            lines.push('\n');
        }
    }
    lines
}

/// The bytes that each type admits in a set, column by column, from the program's lines.
fn columns(lines: &str, set: &str) -> Vec<Vec<u8>> {
    let count = TABLE_1.len() + TABLE_2.len();
    let mut columns = vec![Vec::new(); count];
    for line in lines.lines().skip(1) {
        let cells: Vec<&str> = line.split(' ').collect();
        assert_eq!(cells.len(), count + 2, "a set, a byte and an answer for each type: {line}");
        let byte: u8 = cells[1].parse().expect("the number of a byte");
        for (column, cell) in columns.iter_mut().zip(&cells[2..]) {
            if cells[0] == set && *cell == "1" {
                column.push(byte);
            }
        }
    }
    columns
}

/// Neighbouring bytes joined, first and last of each run.
fn runs(bytes: &[u8]) -> Vec<(u8, u8)> {
    let mut runs: Vec<(u8, u8)> = Vec::new();
    for &byte in bytes {
        match runs.last_mut() {
            Some((_, last)) if *last as u16 + 1 == byte as u16 => *last = byte,
            _ => runs.push((byte, byte)),
        }
    }
    runs
}

fn hexadecimal(bytes: &[u8]) -> String {
    let run =
        |&(low, high): &(u8, u8)| if low == high { format!("{low:02X}") } else { format!("{low:02X}-{high:02X}") };
    runs(bytes).iter().map(run).collect::<Vec<_>>().join(", ")
}

/// A character for the page. A bar would end the cell of the table, and a backquote its own quotes.
fn shown(byte: u8) -> String {
    match byte {
        b' ' => "blank".to_string(),
        b'|' => "`\\|`".to_string(),
        b'`' => "`` ` ``".to_string(),
        _ => format!("`{}`", byte as char),
    }
}

/// The characters of ASCII bytes: letters and digits as runs, the others one by one.
fn characters(bytes: &[u8]) -> String {
    if bytes.len() == 256 {
        return "every byte".to_string();
    }
    let kind = |byte: u8| (byte.is_ascii_uppercase(), byte.is_ascii_lowercase(), byte.is_ascii_digit());
    let mut words = Vec::new();
    for group in bytes.chunk_by(|&a, &b| a + 1 == b && kind(a) == kind(b) && a.is_ascii_alphanumeric()) {
        match group {
            [only] => words.push(shown(*only)),
            [low, .., high] => words.push(format!("{} to {}", shown(*low), shown(*high))),
            [] => unreachable!("a group has a byte"),
        }
    }
    words.join(" ")
}

/// docs/CHARACTERS.md, from the lines that the program `characters` printed.
pub fn page(lines: &str) -> String {
    let [ascii, ebcdic] = SETS.map(|(name, _)| columns(lines, name));
    let answers: Vec<String> = ascii
        .iter()
        .zip(&ebcdic)
        .map(|(ascii, ebcdic)| [characters(ascii), hexadecimal(ascii), hexadecimal(ebcdic)].join(" | "))
        .collect();
    let mut page = String::from(HEAD);
    for (Basic(abbreviation, clause, name, _), answers) in TABLE_1.iter().zip(&answers) {
        page.push_str(&format!("| {clause} | {name} | {abbreviation} | {answers} |\n"));
    }
    page.push_str(MIDDLE);
    for (Made(abbreviation, clause, name, made), answers) in TABLE_2.iter().zip(&answers[TABLE_1.len()..]) {
        let made = if made.is_empty() { "any bytes".to_string() } else { made.join(", ") };
        page.push_str(&format!("| {clause} | {name} | {abbreviation} | {made} | {answers} |\n"));
    }
    page.push_str(FOOT);
    page
}

const HEAD: &str = "# Characters

Which characters each type of clause 5 of ANS X9.100-180-2006 admits, in ASCII and in EBCDIC. The last three columns of both tables are the
answers of the proved code at each of the 256 bytes in each set (the characters are the same in both); the other words are those of Tables 1
and 2. The page is made by

    cargo run --release --offline --locked --manifest-path tests/Cargo.toml --bin characters_page < crates/characters/stdout > docs/CHARACTERS.md

and the gate fails where it differs from those answers, or they from Tables 1 and 2 as `tests/src/characters.rs` has them and code page 037 as
`tests/src/ebcdic.rs` has it. The code itself is to be laid beside the clause: `crates/text/src/characters.rt` for clauses 5.1 and 5.2,
`crates/text/src/data_types.rt` for clause 5.3.

In EBCDIC code page 037 decides. Table 1's own EBCDIC column prints five characters at other codes: `[` 4A, `]` 4F, `^` 5F, `` ` `` B9 and
`|` 6A, where code page 037 has BA, BB, B0, 79 and 4F (`docs/READINGS.md`, reading 35).

## Clauses 5.1 and 5.2: basic character types

| Clause | Type | Abbreviation | Characters | Hexadecimal (ASCII) | Hexadecimal (EBCDIC) |
|---|---|---|---|---|---|
";

const MIDDLE: &str = "
## Clause 5.3: field data types

| Clause | Type | Abbreviation | Made of | Characters | Hexadecimal (ASCII) | Hexadecimal (EBCDIC) |
|---|---|---|---|---|---|---|
";

const FOOT: &str = "
A byte that is in no range of a row, in the column of the file's character set, is refused in a field of that type (FIELD, at the field). In
NB, NBD and NBQ no blank may stand between two digits besides. The dash of NBD, which Table 2 prints among the special characters, is the same
character as Md. ANC (5.3.4) is in no record that is carried.
";
