//! What the walk has found, judged: which cash letters and runs are sound, what is kept, made new or dropped, and with which number
//! (readings 62 to 64).

use peer_reader::charset::Set;
use peer_reader::descent::Number;

use crate::runs::{letters, Letter, Run, Sort};
use crate::sound::{content_of, fault_alone, first_fault};
use crate::walk::{walk, End, Walked};

/// A file walked and judged.
#[derive(Clone, Debug)]
pub struct Survey<'a> {
    pub set: Set,
    pub walked: Vec<Walked<'a>>,
    pub end: End,
    /// Whether the first record walked is a 01 that is sound alone.
    pub begins: bool,
    pub letters: Vec<Judged>,
}

/// A cash letter judged.
#[derive(Clone, Debug)]
pub struct Judged {
    pub letter: Letter,
    /// Whether its 10 is sound alone.
    pub sound: bool,
    /// 10.8 as a capital where the header is sound.
    pub content: Option<u8>,
    pub runs: Vec<JudgedRun>,
}

#[derive(Clone, Copy, Debug)]
pub struct JudgedRun {
    pub run: Run,
    /// Its first fault under a sound header, and the type of the record it is at.
    pub fault: Option<(Number, Option<u8>)>,
}

impl Judged {
    /// Kept is a header that is sound alone, unless Annex B finds it without its bundle (reading 63).
    pub fn is_kept(&self) -> bool {
        self.sound && (self.content == Some(b'N') || self.sound_runs().any(|run| run.sort == Sort::Bundle))
    }

    /// Those of its runs that are sound, under a sound header.
    pub fn sound_runs(&self) -> impl Iterator<Item = Run> + '_ {
        self.runs.iter().filter(|run| self.sound && run.fault.is_none()).map(|judged| judged.run)
    }
}

/// What becomes of a record.
#[derive(Clone, Copy, Debug, PartialEq, Eq, PartialOrd, Ord)]
pub enum Mark {
    Kept,
    New,
    Dropped(Number),
}

impl Mark {
    /// Status and number of the list (reading 66).
    pub fn listed(self) -> [u64; 2] {
        match self {
            Mark::Kept => [0, 0],
            Mark::New => [1, 0],
            Mark::Dropped(number) => [2, number as u64],
        }
    }
}

/// Walks a file and judges what is found.
pub fn survey(file: &[u8]) -> Survey<'_> {
    let set = Set::of(file);
    let (walked, end) = walk(file);
    let begins = walked.first().is_some_and(|record| record.is(1) && fault_alone(set, 1, record.body).is_none());
    let letters = letters(&walked).into_iter().map(|letter| judged(set, &walked, letter)).collect();
    Survey { set, walked, end, begins, letters }
}

fn judged(set: Set, walked: &[Walked], letter: Letter) -> Judged {
    let header = walked[letter.header].body;
    let sound = fault_alone(set, 10, header).is_none();
    let judge = |run: &Run| {
        let fault = sound.then(|| first_fault(set, header, run.sort, &walked[run.first..run.end])).flatten();
        JudgedRun { run: *run, fault }
    };
    let runs = letter.runs.iter().map(judge).collect();
    let content = sound.then(|| content_of(set, header));
    Judged { letter, sound, content, runs }
}

impl Survey<'_> {
    /// NOTHING otherwise (reading 60).
    pub fn leaves_something(&self) -> bool {
        self.begins && self.kept_letters().next().is_some()
    }

    pub fn kept_letters(&self) -> impl Iterator<Item = &Judged> {
        self.letters.iter().filter(|letter| letter.is_kept())
    }

    /// The 99 walked, which is then the last record.
    pub fn control(&self) -> Option<&[u8]> {
        self.walked.last().filter(|record| record.is(99)).map(|record| record.body)
    }

    /// What becomes of each record walked, where something is left.
    pub fn marks(&self) -> Vec<Mark> {
        let mut marks = vec![Mark::Dropped(Number::Place); self.walked.len()];
        marks[0] = Mark::Kept;
        if self.control().is_some() {
            marks[self.walked.len() - 1] = Mark::New;
        }
        for judged in &self.letters {
            self.mark_letter(judged, &mut marks);
        }
        marks
    }

    fn mark_letter(&self, judged: &Judged, marks: &mut [Mark]) {
        let kept = judged.is_kept();
        if kept {
            marks[judged.letter.header] = Mark::Kept;
            if let Some(at) = judged.letter.control(&self.walked) {
                marks[at] = Mark::New;
            }
        }
        for JudgedRun { run, fault } in &judged.runs {
            let mark = match fault {
                Some((number, _)) => Mark::Dropped(*number),
                None if kept => Mark::Kept,
                None => Mark::Dropped(Number::Place),
            };
            marks[run.first..run.end].fill(mark);
        }
    }
}
