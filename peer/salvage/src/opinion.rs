//! A second opinion, made another way. It looks at the ASCII copy of the file and at it alone; of each record it asks, looking back, whether it
//! lies in a stretch, a run, under a header; whether a run is sound it asks the reader, of a little file made for the purpose; and the new
//! file is put together from the kept bodies, its controls stated by the bookkeeping beside the reader, and read.

use std::collections::BTreeMap;

use peer_reader::books::{stated, Way};
use peer_reader::charset::Set;
use peer_reader::copy::copy;
use peer_reader::descent::{read_in, split_record, Number, LARGEST};
use peer_reader::layout::layout;
use peer_reader::plain;

use crate::salvage::{refused, Outcome, LIST_ROW, NOTHING};

/// Files of more records than this are left to the first opinion: looking back takes time.
pub const MOST_RECORDS: usize = 3_000;

/// What a salvage of the file is to come to.
pub fn opinion(file: &[u8]) -> Outcome {
    if file.is_empty() || file.len() as u64 > LARGEST {
        return Outcome::refused(refused(Number::Size as u64, 0, 0, 0));
    }
    let copied = copy(file);
    let paper = Paper::new(&copied);
    if !paper.begins() {
        return Outcome::refused(refused(NOTHING, 0, 0, 0));
    }
    paper.outcome()
}

/// Where a run begins and ends, and whether it is a bundle.
type Stretch = (usize, usize, bool);

/// The records walked of an ASCII copy.
struct Paper<'a> {
    offsets: Vec<usize>,
    bodies: Vec<&'a [u8]>,
    /// The first fault of each run under a header that is sound alone, by its first record.
    faults: BTreeMap<usize, Option<Number>>,
}

impl<'a> Paper<'a> {
    fn new(copied: &'a [u8]) -> Paper<'a> {
        let mut paper = Paper { offsets: Vec::new(), bodies: Vec::new(), faults: BTreeMap::new() };
        let mut at = 0;
        while let Some(body) = split_record(&copied[at..]).filter(|body| body.len() >= 2) {
            paper.offsets.push(at);
            paper.bodies.push(body);
            at += 4 + body.len();
            if body.starts_with(b"99") {
                break;
            }
        }
        let runs: Vec<(usize, Stretch)> = (0..paper.bodies.len())
            .filter_map(|at| Some((paper.header_of(at)?, paper.run_of(at)?)))
            .filter(|(header, (first, ..))| paper.alone(*header, b"10") && !paper.faults.contains_key(first))
            .collect();
        for (header, run) in runs {
            if !paper.faults.contains_key(&run.0) {
                paper.faults.insert(run.0, paper.fault(header, run));
            }
        }
        paper
    }

    fn name(&self, at: usize) -> &'a [u8] {
        self.bodies.get(at).map_or(b"", |body| &body[..2])
    }

    /// Whether a record is one of these, names one behind the other.
    fn is_one(&self, at: usize, names: &[u8]) -> bool {
        names.chunks(2).any(|name| name == self.name(at))
    }

    /// The 10 that a record is under: the nearest 10, 90 or 99 before it is that 10, and it is none of these itself.
    fn header_of(&self, at: usize) -> Option<usize> {
        let nearest = (0..at).rev().find(|before| self.is_one(*before, b"109099"))?;
        (self.is_one(nearest, b"10") && !self.is_one(at, b"109099")).then_some(nearest)
    }

    /// The 20 of the stretch that a record lies in: itself, or the nearest 20 or 70 before it under the same header.
    fn stretch_of(&self, at: usize) -> Option<usize> {
        let header = self.header_of(at)?;
        if self.is_one(at, b"20") {
            return Some(at);
        }
        let nearest = (header + 1..at).rev().find(|before| self.is_one(*before, b"2070"))?;
        self.is_one(nearest, b"20").then_some(nearest)
    }

    /// The run that a record lies in.
    fn run_of(&self, at: usize) -> Option<Stretch> {
        if let Some(begin) = self.stretch_of(at) {
            let behind = begin + 1..self.bodies.len();
            let end = behind.into_iter().find(|behind| self.is_one(*behind, b"2070109099"))?;
            return self.is_one(end, b"70").then_some((begin, end + 1, true));
        }
        let header = self.header_of(at)?;
        let first = (header + 1..=at).rev().find(|before| !self.is_one(*before, b"505254"))?;
        let direct = self.is_one(first, b"61") && self.stretch_of(first).is_none();
        let end = (first + 1..self.bodies.len()).find(|behind| !self.is_one(*behind, b"505254"));
        direct.then_some((first, end.unwrap_or(self.bodies.len()), false))
    }

    /// Whether a record is of this type and the reader has nothing against it where it may stand.
    fn alone(&self, at: usize, name: &[u8]) -> bool {
        let first = plain::file_header();
        let records: &[&[u8]] = if name == b"01" { &[self.bodies[at]] } else { &[&first, self.bodies[at]] };
        self.name(at) == name && first_fault(records).is_none()
    }

    fn begins(&self) -> bool {
        !self.bodies.is_empty() && self.alone(0, b"01")
    }

    /// The first fault of a run behind a sound 01 and its 10; PLACE for a 61 that ends behind a 50. A run is sound exactly when the reader
    /// accepts a file of a 01, the 10, the run and controls.
    fn fault(&self, header: usize, (first, end, bundle): Stretch) -> Option<Number> {
        let one = plain::file_header();
        let mut records: Vec<&[u8]> = vec![&one, self.bodies[header]];
        records.extend(&self.bodies[first..end]);
        let behind_a_50 = !bundle && self.is_one(end - 1, b"50");
        let fault = first_fault(&records).or(behind_a_50.then_some(Number::Place));
        assert_eq!(fault.is_none(), self.makes_a_file(header, (first, end, bundle)), "two ways to ask the reader");
        fault
    }

    /// Whether a whole file of one cash letter with this run is accepted; a 61 is given a bundle besides where Annex B asks for one.
    fn makes_a_file(&self, header: usize, (first, end, bundle): Stretch) -> bool {
        let mut records = vec![plain::file_header(), self.bodies[header].to_vec()];
        records.extend(self.bodies[first..end].iter().map(|body| body.to_vec()));
        match self.content(header) {
            b'E' if !bundle => records.extend(bundle_without_view()),
            b'I' | b'F' if !bundle => records.extend(bundle_with_view()),
            _ => {}
        }
        if !records.iter().all(|body| can_be_counted(body)) {
            return false;
        }
        for name in [b"90", b"99"] {
            let Ok(control) = control(&records, name, [None, None]) else { return false };
            records.push(control);
        }
        read_in(Set::Ascii, &plain::file(&records)).answer.number == Number::Accepted
    }

    fn content(&self, header: usize) -> u8 {
        self.bodies[header][42].to_ascii_uppercase()
    }

    /// Reading 67: a 10 is kept exactly when it is sound alone and its field 8 is N or a sound run of a 20 is under it.
    fn is_kept(&self, header: usize) -> bool {
        let sound_bundle = |(first, fault): (&usize, &Option<Number>)| {
            fault.is_none() && self.is_one(*first, b"20") && self.header_of(*first) == Some(header)
        };
        self.alone(header, b"10") && (self.content(header) == b'N' || self.faults.iter().any(sound_bundle))
    }

    /// Status and number of a record.
    fn status(&self, at: usize) -> [u64; 2] {
        let kept_header =
            (0..at).rev().find(|before| self.is_one(*before, b"1090")).filter(|before| self.is_kept_10(*before));
        let fault = self.run_of(at).and_then(|(first, ..)| self.faults.get(&first));
        match (self.name(at), fault) {
            _ if at == 0 => [0, 0],
            (b"99", _) => [1, 0],
            (b"90", _) if kept_header.is_some() => [1, 0],
            (b"10", _) if self.is_kept(at) => [0, 0],
            (_, Some(Some(number))) => [2, *number as u64],
            (_, Some(None)) if self.header_of(at).is_some_and(|header| self.is_kept(header)) => [0, 0],
            _ => [2, Number::Place as u64],
        }
    }

    fn is_kept_10(&self, at: usize) -> bool {
        self.is_one(at, b"10") && self.is_kept(at)
    }

    fn outcome(&self) -> Outcome {
        let count = self.bodies.len();
        let letters: Vec<usize> = (0..count).filter(|at| self.is_kept_10(*at)).collect();
        if letters.is_empty() {
            return Outcome::refused(refused(NOTHING, 0, 0, 0));
        }
        let status: Vec<[u64; 2]> = (0..count).map(|at| self.status(at)).collect();
        let mut records = vec![self.bodies[0].to_vec()];
        for header in letters {
            records.push(self.bodies[header].to_vec());
            let end = (header + 1..count).find(|at| self.is_one(*at, b"109099")).unwrap_or(count);
            let kept = (header + 1..end).filter(|at| status[*at][0] == 0);
            records.extend(kept.map(|at| self.bodies[at].to_vec()));
            let old = self.bodies.get(end).filter(|body| body.starts_with(b"90"));
            let free = [old.and_then(|old| text_field(old, 39..55)), old.and_then(|old| date_field(old, 55..63))];
            match control(&records, b"90", free) {
                Ok(made) => records.push(made),
                Err(field) => return too_long(&records, field),
            }
        }
        let old = self.bodies.last().filter(|body| body.starts_with(b"99"));
        let free = [old.and_then(|old| text_field(old, 40..54)), old.and_then(|old| number_field(old, 54..64))];
        match control(&records, b"99", free) {
            Ok(made) => records.push(made),
            Err(field) => return too_long(&records, field),
        }
        let rows = (0..count).map(|at| self.row(at, status[at])).collect();
        self.written(&records, rows)
    }

    fn row(&self, at: usize, [status, number]: [u64; 2]) -> [u64; LIST_ROW] {
        let kind = std::str::from_utf8(self.name(at)).ok().and_then(|name| name.parse().ok());
        let kind = kind.filter(|_| self.name(at).iter().all(u8::is_ascii_digit));
        [self.offsets[at] as u64, kind.unwrap_or(0), status, number]
    }

    /// The file as the reader reads it.
    fn written(&self, records: &[Vec<u8>], list: Vec<[u64; LIST_ROW]>) -> Outcome {
        let file = plain::file(records);
        if file.len() as u64 > LARGEST {
            return Outcome::refused(refused(Number::Size as u64, 0, 0, 0));
        }
        let answer = read_in(Set::Ascii, &file).answer.listed();
        Outcome { answer, file, list }
    }
}

/// The reader's first fault in these records, if it is not that the file ends behind them.
fn first_fault(records: &[&[u8]]) -> Option<Number> {
    let records: Vec<Vec<u8>> = records.iter().map(|body| body.to_vec()).collect();
    let number = read_in(Set::Ascii, &plain::file(&records)).answer.number;
    (number != Number::Open).then_some(number)
}

/// Whether the bookkeeping can take a record: a type of two digits, and of an item or 61 an amount of digits. What it cannot take is no sound
/// record.
fn can_be_counted(body: &[u8]) -> bool {
    let digits = |place: std::ops::Range<usize>| body[place].iter().all(u8::is_ascii_digit);
    digits(0..2)
        && match &body[..2] {
            b"25" | b"31" => body.len() >= 75 && digits(47..57),
            b"61" => body.len() >= 62 && digits(48..62),
            _ => true,
        }
}

fn bundle_without_view() -> Vec<Vec<u8>> {
    vec![plain::bundle_header(), plain::check(0, ' ', 0), plain::bundle_control(1, 0, plain::NOT_STATED, 0)]
}

fn bundle_with_view() -> Vec<Vec<u8>> {
    let view = [plain::view_detail('0'), plain::view_data(b"")];
    let [detail, data] = view;
    let control = plain::bundle_control(1, 0, plain::NOT_STATED, 1);
    vec![plain::bundle_header(), plain::check(0, ' ', 0), detail, data, control]
}

/// The control that stands behind these records, with its free fields or blanks; the lowest field whose sum is too long otherwise.
fn control(records: &[Vec<u8>], name: &[u8; 2], free: [Option<&[u8]>; 2]) -> Result<Vec<u8>, u8> {
    let mut bodies: Vec<&[u8]> = records.iter().map(Vec::as_slice).collect();
    bodies.push(name);
    let layout = layout(if name == b"90" { 90 } else { 99 });
    let mut made = name.to_vec();
    for field in &layout.fields[1..] {
        let size = field.size();
        match stated(&bodies, bodies.len() - 1, field.number, Way::Right) {
            Some(sum) if sum >= 10u128.pow(size as u32) => return Err(field.number),
            Some(sum) => made.extend(format!("{sum:0size$}").bytes()),
            None => made.extend(free[usize::from(field.number) - 6].unwrap_or(&vec![b' '; size])),
        }
    }
    Ok(made)
}

/// TOTAL at the control that would stand behind these records.
fn too_long(records: &[Vec<u8>], field: u8) -> Outcome {
    let offset = plain::file(records).len() as u64;
    Outcome::refused(refused(Number::Total as u64, records.len() as u64 + 1, u64::from(field), offset))
}

/// A field of any characters.
fn text_field(body: &[u8], place: std::ops::Range<usize>) -> Option<&[u8]> {
    body.get(place).filter(|bytes| bytes.iter().all(|byte| (0x20..0x7F).contains(byte)))
}

/// A date by its three ranges, or blanks.
fn date_field(body: &[u8], place: std::ops::Range<usize>) -> Option<&[u8]> {
    let date = |bytes: &[u8]| {
        let number =
            |from: usize, to: usize| std::str::from_utf8(&bytes[from..to]).map_or(0, |text| text.parse().unwrap_or(0));
        let (year, month, day): (u32, u32, u32) = (number(0, 4), number(4, 6), number(6, 8));
        bytes.iter().all(u8::is_ascii_digit) && year >= 1993 && (1..=12).contains(&month) && (1..=31).contains(&day)
    };
    body.get(place).filter(|bytes| *bytes == b"        " || date(bytes))
}

/// Digits with blanks on either side.
fn number_field(body: &[u8], place: std::ops::Range<usize>) -> Option<&[u8]> {
    body.get(place).filter(|bytes| {
        bytes.trim_ascii().iter().all(u8::is_ascii_digit) && !bytes.iter().any(|byte| b"\t\n\x0C\r".contains(byte))
    })
}
