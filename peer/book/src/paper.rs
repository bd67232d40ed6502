//! A file that is put to the book: its bytes, the independent reading of them, and its letters' own figures.

use peer_reader::charset::Set;
use peer_reader::descent::{read, Number, Reading};

use crate::layout::{Figures, BUNDLES, CREDIT_CENTS, CREDIT_ITEMS, DEBIT_CENTS, DEBIT_ITEMS, SIX, VIEWS};

/// A file, read once: a history puts it to the book more than once.
#[derive(Clone, Debug)]
pub struct Paper {
    pub bytes: Vec<u8>,
    pub reading: Reading,
    /// Of an accepted file, one for each letter in their order.
    pub letters: Vec<Figures>,
}

impl Paper {
    pub fn new(bytes: Vec<u8>) -> Paper {
        let reading = read(&bytes);
        let letters = letters(&bytes, &reading);
        Paper { bytes, reading, letters }
    }

    pub fn accepted(&self) -> bool {
        self.reading.answer.number == Number::Accepted
    }

    /// What all the letters come to.
    pub fn sums(&self) -> [u128; SIX] {
        sums(&self.letters)
    }
}

/// What some letters come to, in whole numbers.
pub fn sums(letters: &[Figures]) -> [u128; SIX] {
    let mut sums = [0; SIX];
    for letter in letters {
        sums.iter_mut().zip(letter).for_each(|(sum, figure)| *sum += u128::from(*figure));
    }
    sums
}

/// Each letter's figures, added up from its records by the rows of the reading. A row tells the amount of an item or a 61, but not whether
/// a 61 is a debit: that stands in its third character (clause 26, field 2).
fn letters(file: &[u8], reading: &Reading) -> Vec<Figures> {
    let nine = Set::of(file).byte(b'9');
    let mut letters: Vec<Figures> = Vec::new();
    for [code, offset, _, letter, _, _, amount] in reading.rows.iter().copied() {
        if code == 10 {
            letters.push([0; SIX]);
        }
        if letter == 0 {
            continue; // 01 and 99
        }
        let own = &mut letters[letter as usize - 1];
        let debit = match code {
            25 | 31 => true,
            61 => file[offset as usize + 4 + 2] == nine,
            _ => {
                own[BUNDLES] += u64::from(code == 20);
                own[VIEWS] += u64::from(code == 50);
                continue;
            }
        };
        let (items, cents) = if debit { (DEBIT_ITEMS, DEBIT_CENTS) } else { (CREDIT_ITEMS, CREDIT_CENTS) };
        own[items] += 1;
        own[cents] += amount;
    }
    letters
}
