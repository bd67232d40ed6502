//! Routing numbers, written from request 1 and its readings: which contents pass in which field, by their pattern alone, and contents to
//! try. Nothing here asks the judge, and the judge asks nothing here.

use crate::random::Random;
use crate::table::{Field, Kind, Table};
use std::collections::BTreeSet;

/// The size of every routing field.
pub const SIZE: usize = 9;

/// Every routing field of the table with its kind.
pub fn fields(table: &Table) -> Vec<(&Kind, &Field)> {
    let all = table.kinds.iter().flat_map(|kind| kind.fields.iter().map(move |field| (kind, field)));
    all.filter(|(_, field)| field.routing_forms().next().is_some()).collect()
}

/// The patterns of a form: `9` stands for any digit, a blank and a dash for themselves.
pub fn patterns_of(form: &str) -> Vec<Vec<u8>> {
    match form {
        "TTTTAAAAC" => vec![b"999999999".to_vec()],
        "TTTTT-FFF" => vec![b"99999-999".to_vec()],
        "TTTT-AAAA" => vec![b"9999-9999".to_vec()],
        "bTTTTAAAA" => vec![b" 99999999".to_vec()],
        "NONFIN" => runs(),
        other => panic!("no form {other}"),
    }
}

/// One to nine digits in a row, blanks before and after: 9 + 8 + ... + 1 = 45 patterns.
fn runs() -> Vec<Vec<u8>> {
    let of_length = |digits: usize| {
        let at =
            move |first: usize| [vec![b' '; first], vec![b'9'; digits], vec![b' '; SIZE - digits - first]].concat();
        (0..=SIZE - digits).map(at)
    };
    (1..=SIZE).flat_map(of_length).collect()
}

pub const FORMS: [&str; 5] = ["TTTTAAAAC", "TTTTT-FFF", "TTTT-AAAA", "bTTTTAAAA", "NONFIN"];

/// Every pattern that some field takes: 45 runs of digits, two of which are other forms too, and the two with a dash.
pub fn patterns() -> Vec<Vec<u8>> {
    let mut all: Vec<Vec<u8>> = FORMS.into_iter().flat_map(patterns_of).collect();
    all.sort();
    all.dedup();
    all
}

fn pattern(contents: &[u8]) -> Vec<u8> {
    contents.iter().map(|byte| if byte.is_ascii_digit() { b'9' } else { *byte }).collect()
}

/// What a routing field takes.
pub struct Taken {
    patterns: BTreeSet<Vec<u8>>,
    non_financial: bool,
    can_be_blank: bool,
    has_cant_read: bool,
}

impl Taken {
    pub fn by(field: &Field) -> Taken {
        Taken {
            patterns: field.routing_forms().flat_map(patterns_of).collect(),
            non_financial: field.routing_forms().any(|form| form == "NONFIN"),
            can_be_blank: !field.mandatory,
            has_cant_read: field.data_type == "NBMcd",
        }
    }

    /// Whether contents pass. Nine digits need their check digit only where the non-financial number is not listed; a `*` that the data type
    /// has leaves the type alone to judge; all blank is for conditional fields.
    pub fn passes(&self, contents: &[u8]) -> bool {
        let pattern = pattern(contents);
        match pattern.as_slice() {
            b"         " => self.can_be_blank,
            b"999999999" => self.non_financial || weighted(contents).is_multiple_of(10),
            _ if pattern.contains(&b'*') => {
                self.has_cant_read && pattern.iter().all(|character| b"9 -*".contains(character))
            }
            _ => self.patterns.contains(&pattern),
        }
    }
}

/// A pattern with digits in it, so that the weights 3, 7, 1 of the ABA rule at their places come to a multiple of ten (`right`) or to one more.
/// The rule asks nine digits; a judge that took blanks and dashes for zeros would be found out.
pub fn filled(pattern: &[u8], right: bool, random: &mut Random) -> Vec<u8> {
    let mut contents: Vec<u8> = pattern
        .iter()
        .map(|character| if *character == b'9' { random.pick(b"0123456789") } else { *character })
        .collect();
    if let Some(last) = pattern.iter().rposition(|character| *character == b'9') {
        let wanted = if right { 0 } else { 1 };
        let fits = |digit: &u8| {
            let mut tried = contents.clone();
            tried[last] = *digit;
            weighted(&tried) % 10 == wanted
        };
        // 3, 7 and 1 have no divisor in common with 10, so that one digit fits.
        contents[last] = (b'0'..=b'9').find(fits).expect("a digit");
    }
    contents
}

/// The sum of the ABA rule, in which what is no digit counts nothing.
fn weighted(contents: &[u8]) -> usize {
    let value = |byte: u8| if byte.is_ascii_digit() { usize::from(byte - b'0') } else { 0 };
    contents.iter().zip([3, 7, 1, 3, 7, 1, 3, 7, 1]).map(|(byte, weight)| value(*byte) * weight).sum()
}

/// Every string of nine characters out of these.
pub fn strings_over(characters: &[u8]) -> impl Iterator<Item = Vec<u8>> + '_ {
    let count = characters.len();
    let at = move |number: usize, place: u32| characters[number / count.pow(place) % count];
    (0..count.pow(SIZE as u32)).map(move |number| (0..SIZE as u32).map(|place| at(number, place)).collect())
}

/// What is put in the place of a character: the sorts that data types and forms tell apart.
const SORTS: &[u8] = b"05- *?Aa";

/// Contents that are one character away from a pattern's, any byte, or two, each of another sort; and those with two neighbours exchanged.
pub fn near(pattern: &[u8], random: &mut Random) -> Vec<Vec<u8>> {
    let right = random.one_in(2);
    let contents = filled(pattern, right, random);
    let with = |changes: &[(usize, u8)]| {
        let mut changed = contents.clone();
        changes.iter().for_each(|(at, byte)| changed[*at] = *byte);
        changed
    };
    let mut list = vec![contents.clone()];
    for at in 0..SIZE {
        list.extend((0..=255).map(|byte| with(&[(at, byte)])));
        for second in at + 1..SIZE {
            let pairs = SORTS.iter().flat_map(|one| SORTS.iter().map(move |other| (*one, *other)));
            list.extend(pairs.map(|(one, other)| with(&[(at, one), (second, other)])));
        }
    }
    list.extend((1..SIZE).map(|at| with(&[(at - 1, contents[at]), (at, contents[at - 1])])));
    list
}
