//! The slow reader's own sources (request 12; `crates/slow_text` to `crates/slow_reader`), compiled as plain Rust, with a note at the start of each function of its cycle: which function stands at which offset, and
//! with which figures. `build.rs` translates them by dropping contracts; it is the same text, but not the proved object, which is in the library.
//!
//! No part of the independent side: it serves to show that what `icl follow` prints is what the slow reader does.

use std::cell::RefCell;

// As the sources write it.
#[allow(clippy::all, unused_imports, dead_code)]
mod sources {
    include!(concat!(env!("OUT_DIR"), "/sources.rs"));
}

// `build.rs` uses all of it.
#[cfg(test)]
#[allow(dead_code)]
#[path = "../translate.rs"]
mod translate;

pub use sources::measure::Sums;
pub use sources::standing::Standing;

use sources::passes::{Answer, Fault, Refusal};

/// A function of the cycle that was entered, or the one for what nothing calls for.
#[derive(Clone, Copy, Debug, PartialEq, Eq)]
pub struct Noted {
    /// Its name in the sources.
    pub function: &'static str,
    /// Where it stands: the offset of a record's length field, or of the end.
    pub offset: usize,
    /// The figures of the records before that offset.
    pub standing: Standing,
}

impl Noted {
    /// The figures in one list, in the order that `SoFar::numbers` of `rust/x9180` has them.
    pub fn numbers(&self) -> [u64; 26] {
        let s = &self.standing;
        let of = |sums: &Sums| [sums.debits.0, sums.debit.0, sums.credits.0, sums.credit.0, sums.views.0];
        // Where no item is open the addenda that the last one stated are kept, and say nothing.
        let stated = if s.holder == 0 { 0 } else { s.stated };
        let mut numbers = [0; 26];
        numbers[..5].copy_from_slice(&[s.records.0, s.letters, s.opened, s.items.0, s.ordinal]);
        numbers[5..20].copy_from_slice([of(&s.whole), of(&s.letter), of(&s.bundle)].as_flattened());
        numbers[20..].copy_from_slice(&[s.micr.0, stated, s.addenda, s.bofd, s.endorser, s.shown]);
        numbers
    }
}

thread_local! {
    static NOTES: RefCell<Vec<Noted>> = const { RefCell::new(Vec::new()) };
}

/// The line that stands at the start of each function of the cycle.
fn note(function: &'static str, standing: Standing, offset: usize) {
    NOTES.with(|notes| notes.borrow_mut().push(Noted { function, offset, standing }));
}

/// Reads a file slowly into a table: the twelve numbers of the answer, as `include/x9180.h` has them, and every function that was entered, in order.
pub fn read_slowly(file: &[u8], table: &mut [u64]) -> ([u64; 12], Vec<Noted>) {
    NOTES.with(|notes| notes.borrow_mut().clear());
    let answer = listed(sources::slow_reader::read_slowly(file, table), file.len());
    (answer, NOTES.with(|notes| std::mem::take(&mut *notes.borrow_mut())))
}

/// Of an accepted file the record and the offset tell how many records and bytes were read.
fn listed(answer: Answer, read: usize) -> [u64; 12] {
    match answer {
        Ok(totals) => {
            let Sums { views, debit, credits, credit, .. } = totals.sums;
            let items = totals.items;
            let numbers =
                [totals.records.0, totals.letters, totals.bundles, items.0, views.0, debit.0, credits.0, credit.0];
            let mut listed = [0; 12];
            (listed[1], listed[3]) = (totals.records.0, read as u64);
            listed[4..].copy_from_slice(&numbers);
            listed
        }
        Err(Refusal { fault, place, offset }) => {
            let (number, field) = numbered(fault);
            [number, place, field as u64, offset as u64, 0, 0, 0, 0, 0, 0, 0, 0]
        }
    }
}

/// The number of a fault by documents 01 and 02, and its field.
fn numbered(fault: Fault) -> (u64, usize) {
    match fault {
        Fault::Size => (1, 0),
        Fault::Room => (2, 0),
        Fault::Cut => (3, 0),
        Fault::Length => (4, 0),
        Fault::UnknownType => (5, 0),
        Fault::Place => (6, 0),
        Fault::Field(field) => (7, field),
        Fault::Link(field) => (8, field),
        Fault::Total(field) => (9, field),
        Fault::Open => (10, 0),
        Fault::After => (11, 0),
        other => unreachable!("{other:?} is no answer of a reader"),
    }
}

#[cfg(test)]
mod tests {
    use super::*;

    fn sample(name: &str) -> Vec<u8> {
        std::fs::read(format!("{}/../samples/{name}", env!("CARGO_MANIFEST_DIR"))).unwrap()
    }

    #[test]
    fn a_sound_file() {
        let mut table = [7; 13 * 7];
        let (answer, notes) = read_slowly(&sample("sound-2-checks.x9"), &mut table);
        assert_eq!(answer, [0, 12, 0, 1075, 12, 1, 1, 2, 0, 350, 0, 0]);
        assert_eq!(table[..4], [1, 0, 80, 0]);
        assert_eq!(table[12 * 7..], [7; 7]);
        // A function for each record, and the last one at the end of the bytes.
        assert_eq!(notes.len(), 13);
        assert!(notes.windows(2).all(|pair| pair[0].offset < pair[1].offset));
        assert!((0..).zip(&notes).all(|(before, note)| note.standing.records.0 == before));
    }

    #[test]
    fn refused_files() {
        let (answer, notes) = read_slowly(&sample("damaged-07-micr-total.x9"), &mut []);
        assert_eq!(answer[..4], [9, 10, 4, 818]);
        assert_eq!((notes.len(), notes[9].offset, notes[9].standing.micr.0), (10, 818, 100));
        for length in [0, 65_537] {
            assert_eq!(read_slowly(&vec![0; length], &mut []), ([1, 0, 0, 0, 0, 0, 0, 0, 0, 0, 0, 0], Vec::new()));
        }
        assert_eq!(read_slowly(&sample("sound-2-checks.x9"), &mut [7; 83]).0[..4], [2, 12, 0, 0]);
    }
}
