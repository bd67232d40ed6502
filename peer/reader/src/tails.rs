//! Request 7: a fault is the file's own. From a file whose answer is known others are made that begin like it, and of each it is claimed what
//! its answer is to be, whatever table is lent (reading 40). `compare` holds both sides to the claims, `cover` the independent
//! reader alone.

use crate::charset::Set;
use crate::descent::{split_record, Answer, Number, Reading, LARGEST, LISTED};
use crate::ebcdic::in_set;
use crate::layout::{carried_in, name_of};
use crate::random::Random;
use crate::stream;

/// What a file gets in place of the bytes that do not decide its answer, or behind all of its bytes.
#[derive(Clone, Copy, Debug, PartialEq, Eq, PartialOrd, Ord)]
pub enum Tail {
    /// It ends with the last byte that decides.
    Nothing,
    /// As many other bytes.
    Changed,
    /// One byte more.
    OneByte,
    /// Some chance bytes more.
    ChanceBytes,
    /// The whole file once more.
    Itself,
    /// Another file's, of the same set and of the other.
    Another,
    AnotherInOtherSet,
    /// Zeros, until it has as many bytes as a file may have.
    ToTheLimit,
}

use Tail::{Another, AnotherInOtherSet, ChanceBytes, Changed, Itself, Nothing, OneByte, ToTheLimit};

/// Whatever can be put behind a file.
const BEHIND: [Tail; 6] = [OneByte, ChanceBytes, Itself, Another, AnotherInOtherSet, ToTheLimit];

/// The answers that the bytes up to the end of the named record decide (request 7).
const OWN: [Number; 6] = [Number::Type, Number::Place, Number::Length, Number::Field, Number::Link, Number::Total];

/// One thing that a run is to show of tails. A point is met by both sides, with several tables.
#[derive(Clone, Copy, Debug, PartialEq, Eq, PartialOrd, Ord)]
pub enum TailPoint {
    /// A file with this answer has it still, with this tail in place of its own or behind it.
    Stays(Number, Tail),
    /// The same where the answer is LENGTH for a length below 2: the record ends where that length says.
    BelowTwoStays(Tail),
    /// A file with this answer that lacks the last byte which decides: CUT at that record, and accepted where it was AFTER.
    LacksOneByte(Number),
    /// A file with the first answer, cut off before that is decided: CUT or OPEN, where the bytes end.
    Torn(Number, Number),
    /// An accepted file with this behind it: AFTER where it ended.
    Follows(Tail),
    /// An accepted file with other tables: ROOM with too few rows, and nothing else.
    OtherTables,
    /// A file with CUT or OPEN and this behind it: nothing at an earlier record.
    NotEarlier(Number, Tail),
    /// A file with this answer, lengthened past the limit: SIZE.
    PastTheLimit(Number),
}

impl TailPoint {
    pub fn group(&self) -> &'static str {
        match self {
            TailPoint::Stays(..) | TailPoint::BelowTwoStays(_) => "tails: answers that stay",
            TailPoint::LacksOneByte(_) => "tails: answers that a byte less changes",
            TailPoint::Torn(..) => "tails: beginnings that are CUT or OPEN",
            TailPoint::Follows(_) => "tails: accepted files lengthened",
            TailPoint::OtherTables => "tails: accepted files with other tables",
            TailPoint::NotEarlier(..) => "tails: CUT and OPEN lengthened",
            TailPoint::PastTheLimit(_) => "tails: files lengthened past the limit",
        }
    }
}

/// Everything that a run of 100,000 files is to show.
pub fn demanded() -> Vec<TailPoint> {
    let mut points = vec![TailPoint::OtherTables];
    let with_after = || OWN.into_iter().chain([Number::After]);
    let whole = [Number::Accepted, Number::Cut, Number::Open];
    for number in with_after() {
        points.push(TailPoint::LacksOneByte(number));
        points.extend([Nothing, Changed].into_iter().chain(BEHIND).map(|tail| TailPoint::Stays(number, tail)));
    }
    // A length below 2 is rare, and zeros up to the limit are put behind some files only.
    let of_below_two = [Nothing, Changed, OneByte, ChanceBytes, Itself, Another, AnotherInOtherSet];
    points.extend(of_below_two.map(TailPoint::BelowTwoStays));
    points.extend(BEHIND.map(TailPoint::Follows));
    for number in [Number::Cut, Number::Open] {
        points.extend(BEHIND.map(|tail| TailPoint::NotEarlier(number, tail)));
        points.extend(with_after().chain(whole).map(|of_file| TailPoint::Torn(of_file, number)));
    }
    points.extend(with_after().chain(whole).map(TailPoint::PastTheLimit));
    points
}

/// What is claimed of an answer.
#[derive(Clone, Copy, Debug, PartialEq, Eq)]
pub enum Claim {
    /// This one, whatever table is lent.
    Exactly(Answer),
    /// Accepted with so many records and bytes; ROOM where fewer rows are lent.
    Sound { records: u64, size: u64 },
    /// Nothing at an earlier record. ROOM tells no offset, but all records.
    NotBefore { record: u64, offset: u64 },
}

impl Claim {
    /// Whether an answer, in the order of the C call, is as claimed where so many rows are lent.
    pub fn holds(&self, answer: &[u64; LISTED], rows: usize) -> bool {
        match *self {
            Claim::Exactly(claimed) => *answer == claimed.listed(),
            Claim::Sound { records, .. } if (rows as u64) < records => {
                *answer == Answer::refused(Number::Room, records, 0, 0).listed()
            }
            Claim::Sound { records, size } => answer[..5] == [Number::Accepted as u64, records, 0, size, records],
            Claim::NotBefore { record, offset } => {
                let is_room = answer[0] == Number::Room as u64;
                answer[0] != Number::Size as u64 && answer[1] >= record && (is_room || answer[3] >= offset)
            }
        }
    }
}

/// A file made from another, and what is claimed of it.
pub struct Trial {
    pub point: TailPoint,
    pub bytes: Vec<u8>,
    /// The tables to lend, in numbers.
    pub tables: Vec<usize>,
    pub claim: Claim,
}

impl Trial {
    /// Whether the answer of one side, with a table of so many numbers, is as claimed; otherwise the difference in words.
    pub fn holds_for(&self, side: &str, answer: &[u64; LISTED], length: usize) -> Result<(), String> {
        if self.claim.holds(answer, length / 7) {
            return Ok(());
        }
        let (point, claim) = (self.point, self.claim);
        Err(format!("{point:?}, table of {length} numbers\n  {side} answer {answer:?}\n  claimed {claim:?}"))
    }
}

/// One in so many files with an answer is tried with other tails: rare answers more often, and in all about one file in forty, so that a run
/// takes about as long as before request 7.
fn share(reading: &Reading) -> usize {
    match reading.answer.number {
        _ if reading.why == "below two" => 4,
        Number::Type | Number::Length | Number::Cut | Number::Open | Number::After => 16,
        _ => 64,
    }
}

/// Larger files are left out, since each is copied some ten times.
const MOST: usize = 65_536;

/// The draws for the tails of a file of this run, if it is one of those that are tried.
pub fn chosen(seed: u64, index: u64, file: &[u8], reading: &Reading) -> Option<Random> {
    let mut random = Random::for_file(seed ^ 0x7A11_7A11_7A11_7A11, index);
    (random.below(share(reading)) == 0 && file.len() <= MOST).then_some(random)
}

/// The trials of one file. An empty file decides nothing.
pub fn trials(file: &[u8], reading: &Reading, random: &mut Random) -> Vec<Trial> {
    let set = Set::by_library(file);
    let source = Source { file, set, reading, another: another(random, likely_last(set, file, reading)) };
    let number = reading.answer.number;
    let mut trials = match number {
        Number::Accepted => source.accepted(random),
        Number::Cut | Number::Open => source.unfinished(random),
        Number::After => source.lengthened_too_far(random),
        _ if OWN.contains(&number) => source.own_fault(random),
        _ => return Vec::new(),
    };
    trials.extend(source.torn(random));
    trials
}

/// Another file in ASCII, and where to cut it for a tail.
struct Other {
    ascii: Vec<u8>,
    cut: usize,
}

/// A file to make others from.
struct Source<'a> {
    file: &'a [u8],
    set: Set,
    reading: &'a Reading,
    another: Other,
}

impl Source<'_> {
    fn number(&self) -> Number {
        self.reading.answer.number
    }

    /// Where the bytes end that decide the answer: with the named record, and with the first byte that is too many.
    fn decided(&self) -> usize {
        let offset = self.reading.answer.offset as usize;
        match self.number() {
            Number::After => offset + 1,
            _ => offset + 4 + split_record(&self.file[offset..]).expect("a record that was read").len(),
        }
    }

    fn trial(&self, random: &mut Random, point: TailPoint, bytes: Vec<u8>, claim: Claim) -> Trial {
        let records = self.reading.answer.record as usize;
        let tables = vec![0, random.below(60), (records + random.below(4)) * 7 + random.below(7)];
        Trial { point, bytes, tables, claim }
    }

    /// TYPE, PLACE, LENGTH, FIELD, LINK and TOTAL: the same whatever stands behind the named record, and CUT without its last byte.
    fn own_fault(&self, random: &mut Random) -> Vec<Trial> {
        let Answer { record, offset, .. } = self.reading.answer;
        let mut trials = self.stays(random);
        let lacking = self.file[..self.decided() - 1].to_vec();
        let cut = Claim::Exactly(Answer::refused(Number::Cut, record, 0, offset));
        trials.push(self.trial(random, TailPoint::LacksOneByte(self.number()), lacking, cut));
        trials
    }

    /// AFTER: the same whatever stands behind the 99, as long as something does, and accepted without.
    fn lengthened_too_far(&self, random: &mut Random) -> Vec<Trial> {
        let Answer { record, offset, .. } = self.reading.answer;
        let mut trials = self.stays(random);
        let whole = self.file[..offset as usize].to_vec();
        let sound = Claim::Sound { records: record - 1, size: offset };
        trials.push(self.trial(random, TailPoint::LacksOneByte(Number::After), whole, sound));
        trials
    }

    /// The answer stays with any tail.
    fn stays(&self, random: &mut Random) -> Vec<Trial> {
        let point = |tail| match self.reading.why {
            "below two" => TailPoint::BelowTwoStays(tail),
            _ => TailPoint::Stays(self.number(), tail),
        };
        let claim = Claim::Exactly(self.reading.answer);
        let (decides, own) = self.file.split_at(self.decided());
        let mut trials = Vec::new();
        if !own.is_empty() {
            trials.push(self.trial(random, point(Nothing), decides.to_vec(), claim));
            let changed = [decides, &changed(random, own)].concat();
            trials.push(self.trial(random, point(Changed), changed, claim));
        }
        for tail in [OneByte, ChanceBytes, Itself] {
            let bytes = self.with_behind(random, tail);
            trials.push(self.trial(random, point(tail), bytes, claim));
        }
        for tail in [Another, AnotherInOtherSet] {
            let bytes = [decides, &self.of_another(tail)].concat();
            trials.push(self.trial(random, point(tail), bytes, claim));
        }
        trials.push(self.limit(random, point(ToTheLimit), claim));
        trials
    }

    /// No accepted file is the beginning of another one, and its rows alone decide between ACCEPTED and ROOM.
    fn accepted(&self, random: &mut Random) -> Vec<Trial> {
        let Answer { record, offset, .. } = self.reading.answer;
        let after = Claim::Exactly(Answer::refused(Number::After, record + 1, 0, offset));
        let mut trials = self.behind(random, TailPoint::Follows, after);
        let sound = Claim::Sound { records: record, size: offset };
        let same = self.trial(random, TailPoint::OtherTables, self.file.to_vec(), sound);
        let enough = record as usize * 7;
        let short = random.below(enough);
        trials.push(Trial { tables: vec![0, short, enough - 7, enough - 1, enough, enough + 7], ..same });
        trials
    }

    /// CUT and OPEN: the records before stand, whatever comes.
    fn unfinished(&self, random: &mut Random) -> Vec<Trial> {
        let Answer { number, record, offset, .. } = self.reading.answer;
        self.behind(random, |tail| TailPoint::NotEarlier(number, tail), Claim::NotBefore { record, offset })
    }

    /// Each tail behind the whole file.
    fn behind(&self, random: &mut Random, point: impl Fn(Tail) -> TailPoint, claim: Claim) -> Vec<Trial> {
        let mut trials = Vec::new();
        for tail in [OneByte, ChanceBytes, Itself, Another, AnotherInOtherSet] {
            let bytes = self.with_behind(random, tail);
            trials.push(self.trial(random, point(tail), bytes, claim));
        }
        trials.push(self.limit(random, point(ToTheLimit), claim));
        trials
    }

    fn with_behind(&self, random: &mut Random, tail: Tail) -> Vec<u8> {
        let more = match tail {
            OneByte => {
                let likely = [0, b' ', b'\n', 0x40, 0xF0, random.byte()];
                vec![random.pick(&likely)]
            }
            ChanceBytes => (0..random.between(1, 200)).map(|_| random.byte()).collect(),
            Itself => self.file.to_vec(),
            _ => self.of_another(tail),
        };
        [self.file, &more].concat()
    }

    /// Another file's tail; behind an accepted file the whole of it.
    fn of_another(&self, tail: Tail) -> Vec<u8> {
        let set = if tail == AnotherInOtherSet { self.set.other() } else { self.set };
        let from = if self.number() == Number::Accepted { 0 } else { self.another.cut };
        in_set(set, self.another.ascii.clone())[from..].to_vec()
    }

    /// With zeros behind it, as many as a file may have, or one more: one or the other by chance.
    fn limit(&self, random: &mut Random, point: TailPoint, claim: Claim) -> Trial {
        let most = LARGEST as usize;
        let (size, point, claim) = match random.percent(50) {
            true => (most, point, claim),
            false => {
                let size = Claim::Exactly(Answer::refused(Number::Size, 0, 0, 0));
                (most + 1, TailPoint::PastTheLimit(self.number()), size)
            }
        };
        // Zeroed memory is not touched until it is read, and no reading goes past the first fault.
        let mut bytes = vec![0; size];
        bytes[..self.file.len()].copy_from_slice(self.file);
        self.trial(random, point, bytes, claim)
    }

    /// Two beginnings that do not decide the answer yet: one at a chance byte, one with a whole record at its end where there is such a one.
    fn torn(&self, random: &mut Random) -> Vec<Trial> {
        let Answer { number, offset, .. } = self.reading.answer;
        let undecided = match number {
            Number::Accepted | Number::Cut | Number::Open => self.file.len(),
            Number::After => offset as usize,
            _ => self.decided(),
        };
        let ends: Vec<usize> = ends(self.file).into_iter().filter(|end| *end < undecided).collect();
        let at_end = (!ends.is_empty()).then(|| random.pick(&ends));
        let mut trials = Vec::new();
        for keep in [random.below(undecided)].into_iter().chain(at_end) {
            let answer = torn_answer(self.file, keep);
            let (point, claim) = (TailPoint::Torn(number, answer.number), Claim::Exactly(answer));
            trials.push(self.trial(random, point, self.file[..keep].to_vec(), claim));
        }
        trials
    }
}

/// Where each record ends that the lengths frame.
fn ends(file: &[u8]) -> Vec<usize> {
    let mut ends = Vec::new();
    let mut at = 0;
    while let Some(body) = split_record(&file[at..]) {
        at += 4 + body.len();
        ends.push(at);
    }
    ends
}

/// The answer to the first bytes of a file that has no fault in them: OPEN behind a whole record, otherwise CUT; SIZE for none.
fn torn_answer(file: &[u8], keep: usize) -> Answer {
    let whole = ends(&file[..keep]);
    let (record, offset) = (whole.len() as u64 + 1, whole.last().copied().unwrap_or(0));
    match keep {
        0 => Answer::refused(Number::Size, 0, 0, 0),
        _ if keep == offset => Answer::refused(Number::Open, record, 0, offset as u64),
        _ => Answer::refused(Number::Cut, record, 0, offset as u64),
    }
}

/// The type that a tail should go on from: that of the record at fault, otherwise of the last sound one.
fn likely_last(set: Set, file: &[u8], reading: &Reading) -> u8 {
    let named = file.get(reading.answer.offset as usize..).and_then(split_record);
    let code = named.and_then(|body| body.get(..2)).and_then(|name| carried_in(set, name));
    code.unwrap_or(reading.last)
}

/// Another file, cut behind a record of this type where it has one, otherwise behind a chance one or before all. Its tail is not empty.
fn another(random: &mut Random, last: u8) -> Other {
    let mut ascii = Vec::new();
    // Damage can take every record away.
    while ascii.is_empty() {
        let shape = random.pick(&["sound", "credit", "total", "link", "place", "several"]);
        let turn = random.below(1_000);
        ascii = stream::shaped(random, shape, turn).bytes;
    }
    let places: Vec<usize> = [0].into_iter().chain(ends(&ascii)).filter(|end| *end < ascii.len()).collect();
    let is_alike = |record: &&[usize]| ascii[record[0] + 4..].starts_with(&name_of(last));
    let fitting: Vec<usize> = places.windows(2).filter(is_alike).map(|record| record[1]).collect();
    let cut = random.pick(if fitting.is_empty() { &places } else { &fitting });
    Other { ascii, cut }
}

/// As many bytes, not all of them the same.
fn changed(random: &mut Random, own: &[u8]) -> Vec<u8> {
    let mut bytes = own.to_vec();
    let place = random.below(bytes.len());
    match random.below(3) {
        0 => bytes[place] ^= 1 << random.below(8),
        1 => bytes[place..].iter_mut().for_each(|byte| *byte = !*byte),
        _ => bytes.iter_mut().for_each(|byte| *byte ^= 1 + (random.byte() & 0x7F)),
    }
    bytes
}

#[cfg(test)]
mod tests {
    use super::*;
    use crate::descent::read;
    use crate::ebcdic;
    use std::collections::BTreeSet;

    /// The trials of the first files of each set, with the set of the file that each was made from.
    fn all_trials(files: u64) -> impl Iterator<Item = (Set, Trial)> {
        let made = |index| [stream::file(7, index).bytes, ebcdic::file(7, index).bytes];
        let of_file = |file: Vec<u8>| {
            let mut random = Random::new(file.len() as u64);
            let trials = trials(&file, &read(&file), &mut random);
            trials.into_iter().map(move |trial| (Set::of(&file), trial))
        };
        (0..files).flat_map(made).filter(|file| file.len() <= MOST).flat_map(of_file)
    }

    /// A reader that is lent so many rows.
    type Reader = fn(&[u8], usize) -> Answer;

    fn keeps_its_claim(trial: &Trial, reader: Reader) -> bool {
        let keeps = |length: &usize| trial.claim.holds(&reader(&trial.bytes, length / 7).listed(), length / 7);
        trial.tables.iter().all(keeps)
    }

    fn independent(file: &[u8], rows: usize) -> Answer {
        read(file).with_rows(rows)
    }

    #[test]
    fn claims_hold_and_every_point_is_met_in_each_set() {
        assert_eq!(demanded().len(), 119);
        let mut met = BTreeSet::new();
        for (set, trial) in all_trials(800) {
            assert!(keeps_its_claim(&trial, independent), "{:?} {:?}", trial.point, trial.claim);
            met.insert((set, trial.point));
        }
        for set in [Set::Ascii, Set::Ebcdic] {
            let missing: Vec<TailPoint> =
                demanded().into_iter().filter(|point| !met.contains(&(set, *point))).collect();
            assert!(missing.is_empty(), "{set:?} {missing:?}");
        }
    }

    /// Looks whether the lengths frame all of the file before anything else.
    fn frames_first(file: &[u8], rows: usize) -> Answer {
        let ends = ends(file);
        let end = ends.last().copied().unwrap_or(0);
        match end == file.len() {
            true => independent(file, rows),
            false => Answer::refused(Number::Cut, ends.len() as u64 + 1, 0, end as u64),
        }
    }

    /// Counts the records for its table before anything else.
    fn counts_first(file: &[u8], rows: usize) -> Answer {
        match ends(file).len() {
            needed if needed > rows => Answer::refused(Number::Room, needed as u64, 0, 0),
            _ => independent(file, rows),
        }
    }

    /// Does not look behind the first 99.
    fn stops_at_99(file: &[u8], rows: usize) -> Answer {
        let starts = [0].into_iter().chain(ends(file));
        let of_99 = starts.zip(ends(file)).find(|(start, _)| file[start + 4..].starts_with(b"99"));
        independent(&file[..of_99.map_or(file.len(), |(_, end)| end)], rows)
    }

    /// Looks for a fault from the end: the last record of a type that is not carried is refused first.
    fn types_first(file: &[u8], rows: usize) -> Answer {
        let starts = [0].into_iter().chain(ends(file));
        let is_strange = |start: &usize| {
            file.get(start + 4..start + 6).is_some_and(|name| carried_in(Set::of(file), name).is_none())
        };
        match starts.enumerate().filter(|(_, start)| is_strange(start)).last() {
            Some((record, start)) => Answer::refused(Number::Type, record as u64 + 1, 0, start as u64),
            None => independent(file, rows),
        }
    }

    #[test]
    fn readers_whose_answer_hangs_on_the_rest_break_a_claim() {
        let readers: [Reader; 4] = [frames_first, counts_first, stops_at_99, types_first];
        let trials: Vec<Trial> =
            all_trials(60).map(|(_, trial)| trial).filter(|trial| trial.bytes.len() < 1 << 20).collect();
        for (place, reader) in readers.into_iter().enumerate() {
            assert!(trials.iter().any(|trial| !keeps_its_claim(trial, reader)), "reader {place}");
        }
    }

    #[test]
    fn claims_that_do_not_hold() {
        let refused = |number, record, offset| Answer::refused(number, record, 0, offset).listed();
        let not_before = Claim::NotBefore { record: 3, offset: 168 };
        assert!(not_before.holds(&refused(Number::Cut, 3, 168), 0));
        assert!(not_before.holds(&refused(Number::Room, 4, 0), 0));
        assert!(!not_before.holds(&refused(Number::Type, 2, 84), 0));
        assert!(!not_before.holds(&refused(Number::Type, 3, 84), 0));
        assert!(!not_before.holds(&refused(Number::Size, 0, 0), 0));
        let sound = Claim::Sound { records: 4, size: 341 };
        let mut accepted = refused(Number::Accepted, 4, 341);
        accepted[4] = 4;
        assert!(sound.holds(&accepted, 4) && !sound.holds(&accepted, 3));
        assert!(sound.holds(&refused(Number::Room, 4, 0), 3) && !sound.holds(&refused(Number::Room, 4, 0), 4));
        let exactly = Claim::Exactly(Answer::refused(Number::After, 5, 0, 341));
        assert!(exactly.holds(&refused(Number::After, 5, 341), 0));
        assert!(!exactly.holds(&refused(Number::After, 5, 342), 0) && !exactly.holds(&accepted, 9));
    }
}
