//! One torn file put to both sides.

use std::collections::BTreeMap;

use peer_reader::charset::Set;
use peer_reader::random::Random;

use peer_salvage::asked::lents;
use peer_salvage::points::Tally;
use peer_salvage::promises;
use peer_salvage::put::{outcome_by, put, Lent, Side};
use peer_salvage::salvage::{outcome, outcome_of, Answer, Outcome, LIST_ROW};
use peer_salvage::survey::survey;

use proved::amid::{amid, within};
use proved::{abi, Difference};

/// The proved library. What stands around the file is one of these bytes.
pub struct Library(pub u8);

impl Side for Library {
    fn salvage(&self, file: &[u8], out: &mut [u8], list: &mut [u64]) -> Result<(u64, Answer), Difference> {
        if file.len() > LARGE {
            return abi::salvage(file, out, list);
        }
        abi::salvage(within(&amid(file, self.0)), out, list)
    }
}

/// Larger files are not copied to stand amid others, and nothing is promised of them here.
const LARGE: usize = 1_000_000;

/// Counts of what was put to both sides.
#[derive(Clone, Default)]
pub struct Counts {
    pub files: u64,
    /// Beginnings of small files, by sweeps.
    pub beginnings: u64,
    pub calls: u64,
    pub bytes: u64,
    pub written: u64,
    pub walked: u64,
    pub kept: u64,
    pub made_new: u64,
    pub dropped: BTreeMap<u64, u64>,
    pub refusals: BTreeMap<u64, u64>,
    /// Outcomes of which the promises were asserted.
    pub promised: u64,
}

impl Counts {
    pub fn add(&mut self, other: &Counts) {
        self.files += other.files;
        self.beginnings += other.beginnings;
        self.calls += other.calls;
        self.bytes += other.bytes;
        self.written += other.written;
        self.walked += other.walked;
        self.kept += other.kept;
        self.made_new += other.made_new;
        self.promised += other.promised;
        for (mine, others) in [(&mut self.dropped, &other.dropped), (&mut self.refusals, &other.refusals)] {
            others.iter().for_each(|(number, count)| *mine.entry(*number).or_insert(0) += count);
        }
    }

    fn note(&mut self, found: &Outcome) {
        if !found.is_written() {
            *self.refusals.entry(found.answer[0]).or_insert(0) += 1;
            return;
        }
        self.written += 1;
        self.walked += found.list.len() as u64;
        for [_, _, status, number] in &found.list {
            match status {
                0 => self.kept += 1,
                1 => self.made_new += 1,
                _ => *self.dropped.entry(*number).or_insert(0) += 1,
            }
        }
    }

    pub fn in_words(&self) -> String {
        let by_number = |counts: &BTreeMap<u64, u64>| {
            counts.iter().map(|(number, count)| format!("{number}: {count}")).collect::<Vec<_>>().join(", ")
        };
        format!(
            "{} files and {} beginnings ({} written), {} calls, {} bytes\nrecords walked {} of those written, kept {}, made new {}, dropped by number {}\nrefusals by number {}; promises asserted of {} outcomes",
            self.files,
            self.beginnings,
            self.written,
            self.calls,
            self.bytes,
            self.walked,
            self.kept,
            self.made_new,
            by_number(&self.dropped),
            by_number(&self.refusals),
            self.promised
        )
    }
}

/// Compares both sides on one file with every buffer and list that is asked for, and asserts the promises of the proved library's outcome.
pub fn check_file(file: &[u8], random: &mut Random, tally: &mut Tally, counts: &mut Counts) -> Result<(), Difference> {
    let in_limit = !file.is_empty() && file.len() as u64 <= peer_reader::descent::LARGEST;
    let surveyed = in_limit.then(|| survey(file));
    let found = surveyed.as_ref().map_or_else(|| outcome(file), |survey| outcome_of(file, survey));
    tally.note(file, surveyed.as_ref(), &found);
    counts.files += 1;
    counts.bytes += file.len() as u64;
    counts.note(&found);
    let lent = if file.len() > LARGE { few(&found) } else { lents(file, &found, random) };
    for (sort, lent) in lent {
        tally.note_lent(Set::of(file), &found, sort, lent);
        put(&any_library(random), file, &found, lent, random)?;
        counts.calls += 1;
    }
    if file.len() <= LARGE && random.percent(25) {
        keeps_its_promises(file, &any_library(random))?;
        counts.promised += 1;
    }
    Ok(())
}

fn any_library(random: &mut Random) -> Library {
    Library(random.pick(b" 09\xF0\xF9\x40\x00"))
}

/// What is lent for a large file: exactly enough.
fn few(found: &Outcome) -> Vec<(&'static str, Lent)> {
    vec![("exact", (found.file.len(), found.list.len() * LIST_ROW))]
}

/// The promises of reading 67, of the proved library alone; and it reads what it wrote with the answer it gave.
fn keeps_its_promises(file: &[u8], library: &Library) -> Result<(), Difference> {
    let theirs = outcome_by(library, file)?;
    promises::keep(file, &theirs, |file| outcome_by(library, file))?;
    if !theirs.is_written() {
        return Ok(());
    }
    let mut table = vec![0; theirs.answer[1] as usize * 7];
    let (number, read) = abi::read(&theirs.file, &mut table)?;
    match number == 0 && read == theirs.answer {
        true => Ok(()),
        false => Err(format!("written with {:?}\n  proved reads it with {read:?}", theirs.answer)),
    }
}

/// Compares both sides on every beginning of a small file.
pub fn check_beginnings(file: &[u8], random: &mut Random, counts: &mut Counts) -> Result<(), Difference> {
    for end in 0..=file.len() {
        let begun = &file[..end];
        let found = outcome(begun);
        let lent = (found.file.len(), found.list.len() * LIST_ROW);
        put(&any_library(random), begun, &found, lent, random).map_err(|words| format!("cut at {end}: {words}"))?;
        counts.beginnings += 1;
        counts.calls += 1;
        counts.note(&found);
    }
    Ok(())
}

/// The difference on a file, for the shrinking.
pub fn file_differs(file: &[u8]) -> Option<Difference> {
    check_file(file, &mut Random::new(1), &mut Tally::default(), &mut Counts::default()).err()
}

/// The difference on some beginning of a file.
pub fn beginning_differs(file: &[u8]) -> Option<Difference> {
    check_beginnings(file, &mut Random::new(1), &mut Counts::default()).err()
}
