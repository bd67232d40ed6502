//! Wrong salvages: each takes one thing another way, and files of the stream tell it from the right one. That shows what a comparison with the
//! stream is worth.

use peer_reader::books::{count, Way};
use peer_reader::charset::Set;
use peer_reader::copy::copy;
use peer_reader::descent::{split_record, Number};
use peer_reader::layout::layout;
use peer_reader::random::Random;
use peer_reader::{copy, plain};
use peer_salvage::asked::lents;
use peer_salvage::generate;
use peer_salvage::put::{put, Independent, Side};
use peer_salvage::runs::{Run, Sort};
use peer_salvage::salvage::{list, outcome, outcome_of, refused, Answer, Outcome, FREE, LIST_ROW, NOTHING};
use peer_salvage::sound::{fault_alone, first_fault};
use peer_salvage::survey::{survey, Judged, JudgedRun, Survey};
use peer_salvage::walk::Walked;

/// What a wrong salvage takes another way.
#[derive(Clone, Copy, Debug, PartialEq, Eq)]
enum Slip {
    /// None: the frame itself is right.
    NoSlip,
    // The seven that the issue names.
    RunUnderAnotherHeader,
    BundleWithoutIts70Kept,
    CreditOfATornBundleKept,
    LetterWithoutBundleKept,
    OldSumKept,
    OldSumOf99Kept,
    ListOnNothing,
    DroppedWithoutFault,
    // What is walked.
    WalkPastThe99,
    TailWalked,
    FirstRecordNotJudged,
    // What is sound.
    HeaderNotJudged,
    ViewMissingNotSeen,
    BehindA50Kept,
    BehindA50IsLink,
    TotalsNotJudged,
    StretchToTheNext70,
    CreditWithoutItsViews,
    CreditWithLawfulViewsAlone,
    CreditBehindStraysDropped,
    CreditUnderNoHeaderKept,
    AllBehindAFaultDropped,
    // What is kept.
    SmallLettersAreN,
    SmallNNeedsABundle,
    EmptyNDropped,
    LetterOfEWithoutBundleKept,
    CreditsKeepALetter,
    OnlySound90sKept,
    // With which number.
    PlaceForAll,
    FaultOfTheHeader,
    FaultUnderAnUnsoundHeader,
    PlaceUnderAnnexB,
    AnnexBIsLink,
    FaultAtItsRecordAlone,
    FaultOfTheLastRun,
    TornIsOpen,
    StrangersAreType,
    TypeIsPlace,
    // What is listed.
    NewIsKept,
    The99IsKept,
    SecondControlIsNew,
    ControlOfADroppedLetterIsNew,
    MissingControlsListed,
    TypeOfTheBytes,
    NoTypeIs255,
    NotCarriedIs0,
    OffsetOfTheBody,
    OffsetInTheNewFile,
    DroppedNotListed,
    // What is written.
    NotTranslated,
    MicrTotalStated,
    MicrTotalLeftOut,
    FreeFieldsBlank,
    FreeFieldsOfSoundControlsAlone,
    FreeFieldsNotJudged,
    FreeFieldsTogether,
    FreeFieldsOf99Blank,
    // What is answered, and lent.
    NothingIsSize,
    TotalIsNothing,
    RowsBeforeBytes,
    RowsNotNeeded,
    PartOfARowCounts,
    RoomTellsTheBytesLacking,
    RoomTellsTheNumbers,
    BufferTouchedBeforeRows,
    ListTouchedBeforeRoom,
    BufferClearedBehind,
    ListClearedBehind,
}

use Slip::*;

const SLIPS: [Slip; 68] = [
    RunUnderAnotherHeader,
    BundleWithoutIts70Kept,
    CreditOfATornBundleKept,
    LetterWithoutBundleKept,
    OldSumKept,
    OldSumOf99Kept,
    ListOnNothing,
    DroppedWithoutFault,
    WalkPastThe99,
    TailWalked,
    FirstRecordNotJudged,
    HeaderNotJudged,
    ViewMissingNotSeen,
    BehindA50Kept,
    BehindA50IsLink,
    TotalsNotJudged,
    StretchToTheNext70,
    CreditWithoutItsViews,
    CreditWithLawfulViewsAlone,
    CreditBehindStraysDropped,
    CreditUnderNoHeaderKept,
    AllBehindAFaultDropped,
    SmallLettersAreN,
    SmallNNeedsABundle,
    EmptyNDropped,
    LetterOfEWithoutBundleKept,
    CreditsKeepALetter,
    OnlySound90sKept,
    PlaceForAll,
    FaultOfTheHeader,
    FaultUnderAnUnsoundHeader,
    PlaceUnderAnnexB,
    AnnexBIsLink,
    FaultAtItsRecordAlone,
    FaultOfTheLastRun,
    TornIsOpen,
    StrangersAreType,
    TypeIsPlace,
    NewIsKept,
    The99IsKept,
    SecondControlIsNew,
    ControlOfADroppedLetterIsNew,
    MissingControlsListed,
    TypeOfTheBytes,
    NoTypeIs255,
    NotCarriedIs0,
    OffsetOfTheBody,
    OffsetInTheNewFile,
    DroppedNotListed,
    NotTranslated,
    MicrTotalStated,
    MicrTotalLeftOut,
    FreeFieldsBlank,
    FreeFieldsOfSoundControlsAlone,
    FreeFieldsNotJudged,
    FreeFieldsTogether,
    FreeFieldsOf99Blank,
    NothingIsSize,
    TotalIsNothing,
    RowsBeforeBytes,
    RowsNotNeeded,
    PartOfARowCounts,
    RoomTellsTheBytesLacking,
    RoomTellsTheNumbers,
    BufferTouchedBeforeRows,
    ListTouchedBeforeRoom,
    BufferClearedBehind,
    ListClearedBehind,
];

impl Side for Slip {
    fn salvage(&self, file: &[u8], out: &mut [u8], list: &mut [u64]) -> Result<(u64, Answer), String> {
        let found = self.outcome(file);
        let answer = self.fill(file, &found, out, list);
        Ok((answer[0], answer))
    }
}

impl Slip {
    fn outcome(self, file: &[u8]) -> Outcome {
        if file.is_empty() {
            return outcome(file);
        }
        match self {
            BundleWithoutIts70Kept => return with_70s(file),
            WalkPastThe99 => return past_the_99(file),
            _ => {}
        }
        let mut survey = survey(file);
        self.misjudge(&mut survey);
        let mut found = outcome_of(file, &survey);
        match found.is_written() {
            true => {
                self.mislist(file, &survey, &mut found.list);
                self.miswrite(file, &survey, &mut found);
            }
            false => self.misanswer(&survey, &mut found),
        }
        found
    }

    /// Another judgement of letters and runs.
    fn misjudge(self, survey: &mut Survey) {
        let walked = survey.walked.clone();
        match self {
            FirstRecordNotJudged => {
                survey.begins = walked.first().is_some_and(|record| record.is(1) && record.body.len() == 80);
            }
            RunUnderAnotherHeader => under_another(survey),
            CreditUnderNoHeaderKept => under_no_header(survey),
            _ => {}
        }
        for judged in &mut survey.letters {
            let header = walked[judged.letter.header].body;
            let under = Under { set: survey.set, walked: &walked, header };
            self.miskeep(&under, judged);
            self.misrun(&under, judged);
            self.misfault(&under, judged);
            judged.letter.runs = judged.runs.iter().map(|run| run.run).collect();
        }
    }

    /// Another judgement of a letter's header.
    fn miskeep(self, under: &Under, judged: &mut Judged) {
        let letter = under.header.get(42).map_or(b' ', |byte| under.set.character(*byte));
        let bundles = judged.sound_runs().filter(|run| run.sort == Sort::Bundle).count();
        let something = judged.sound_runs().next().is_some();
        match self {
            HeaderNotJudged if !judged.sound && under.header.len() == 80 => {
                (judged.sound, judged.content) = (true, Some(letter.to_ascii_uppercase()));
                judged.runs.iter_mut().for_each(|run| run.fault = under.fault(run.run));
            }
            LetterWithoutBundleKept if matches!(judged.content, Some(b'I' | b'F')) => judged.content = Some(b'N'),
            LetterOfEWithoutBundleKept if judged.content == Some(b'E') => judged.content = Some(b'N'),
            SmallLettersAreN if letter.is_ascii_lowercase() && judged.sound => judged.content = Some(b'N'),
            SmallNNeedsABundle if letter == b'n' && judged.sound => judged.content = Some(b'E'),
            EmptyNDropped if judged.content == Some(b'N') && !something => judged.sound = false,
            CreditsKeepALetter if judged.sound && bundles == 0 && something => judged.content = Some(b'N'),
            OnlySound90sKept => {
                let control = judged.letter.control(under.walked).map(|at| under.walked[at].body);
                judged.sound &= control.is_none_or(|body| fault_alone(under.set, 90, body).is_none());
            }
            _ => {}
        }
    }

    /// Other runs under a header.
    fn misrun(self, under: &Under, judged: &mut Judged) {
        let (walked, letter) = (under.walked, judged.letter.clone());
        let mut credits: Vec<usize> = (0..judged.runs.len()).collect();
        credits.retain(|at| judged.runs[*at].run.sort == Sort::Credit);
        match self {
            CreditOfATornBundleKept => {
                for (first, end) in letter.torn {
                    for at in (first..end).filter(|at| walked[*at].is(61)) {
                        let stop = (at + 1..end).find(|at| !walked[*at].is_any(&[50, 52, 54])).unwrap_or(end);
                        under.add(judged, Run { sort: Sort::Credit, first: at, end: stop });
                    }
                }
            }
            StretchToTheNext70 => {
                for (first, end) in letter.torn {
                    let stop = (end..letter.end).find(|at| walked[*at].is(70));
                    if let Some(stop) = stop.filter(|_| walked[end].is(20)) {
                        judged.runs.retain(|run| run.run.end <= first || run.run.first > stop);
                        under.add(judged, Run { sort: Sort::Bundle, first, end: stop + 1 });
                    }
                }
            }
            CreditWithoutItsViews => credits.into_iter().for_each(|at| under.shorten(judged, at, 1)),
            CreditWithLawfulViewsAlone => {
                for at in credits {
                    let run = judged.runs[at].run;
                    under.shorten(judged, at, lawful(&walked[run.first..run.end]));
                }
            }
            BehindA50Kept => {
                credits.retain(|at| judged.runs[*at].fault == Some((Number::Place, None)));
                for at in credits {
                    let run = judged.runs[at].run;
                    under.shorten(judged, at, run.end - run.first - 1);
                }
            }
            CreditBehindStraysDropped => judged.runs.retain(|run| {
                let before = run.run.first - 1;
                let in_run = letter.runs.iter().any(|run| (run.first..run.end).contains(&before));
                let in_torn = letter.torn.iter().any(|(first, end)| (*first..*end).contains(&before));
                run.run.sort == Sort::Bundle || before == letter.header || in_run || in_torn
            }),
            AllBehindAFaultDropped => {
                if let Some(first) = judged.runs.iter().position(|run| run.fault.is_some()) {
                    judged.runs.truncate(first + 1);
                }
            }
            _ => {}
        }
    }

    /// Other faults of a letter's runs.
    fn misfault(self, under: &Under, judged: &mut Judged) {
        let last = judged.runs.iter().rev().find_map(|run| run.fault);
        for run in &mut judged.runs {
            run.fault = match (self, run.fault) {
                (FaultOfTheLastRun, Some(_)) => last,
                (BehindA50IsLink, Some((Number::Place, None))) => Some((Number::Link, None)),
                (TypeIsPlace, Some((Number::Type, kind))) => Some((Number::Place, kind)),
                (TotalsNotJudged, Some((Number::Total, _))) => None,
                (ViewMissingNotSeen, Some((Number::Link, Some(70)))) => {
                    // As if the letter were one of E, where there is no view.
                    let mut header = under.header.to_vec();
                    header[42] = under.set.byte(b'E');
                    Under { header: &header, ..*under }.fault(run.run)
                }
                (_, fault) => fault,
            };
        }
    }

    /// Another list of what is written.
    fn mislist(self, file: &[u8], survey: &Survey, rows: &mut Vec<[u64; LIST_ROW]>) {
        let (set, walked) = (survey.set, &survey.walked);
        let every = |rows: &mut Vec<[u64; LIST_ROW]>, change: &dyn Fn(usize, &mut [u64; LIST_ROW])| {
            rows.iter_mut().enumerate().for_each(|(at, row)| change(at, row));
        };
        let in_letters = |rows: &mut Vec<[u64; LIST_ROW]>, change: &dyn Fn(&Judged, &mut [[u64; LIST_ROW]])| {
            survey.letters.iter().for_each(|judged| change(judged, rows));
        };
        match self {
            DroppedWithoutFault => every(rows, &|_, row| row[3] = 0),
            PlaceForAll => every(rows, &|_, row| row[3] = row[3].min(6)),
            FaultOfTheHeader => in_letters(rows, &|judged, rows| {
                let at = judged.letter.header;
                if let Some(number) = fault_alone(set, 10, walked[at].body) {
                    rows[at][3] = number as u64;
                }
            }),
            FaultUnderAnUnsoundHeader => in_letters(rows, &|judged, rows| {
                let header = walked[judged.letter.header].body;
                for run in judged.runs.iter().filter(|_| !judged.sound && header.len() == 80) {
                    if let Some((number, _)) =
                        first_fault(set, header, run.run.sort, &walked[run.run.first..run.run.end])
                    {
                        rows[run.run.first..run.run.end].iter_mut().for_each(|row| row[3] = number as u64);
                    }
                }
            }),
            PlaceUnderAnnexB => in_letters(rows, &|judged, rows| {
                if judged.sound && !judged.is_kept() {
                    rows[judged.letter.header..judged.letter.end].iter_mut().for_each(|row| row[3] = 6);
                }
            }),
            AnnexBIsLink => in_letters(rows, &|judged, rows| {
                if judged.sound && !judged.is_kept() {
                    rows[judged.letter.header][3] = 8;
                }
            }),
            FaultAtItsRecordAlone => in_letters(rows, &|judged, rows| {
                for run in judged.runs.iter().filter(|run| run.fault.is_some()) {
                    rows[run.run.first..run.run.end - 1].iter_mut().for_each(|row| row[3] = 6);
                }
            }),
            TornIsOpen => in_letters(rows, &|judged, rows| {
                for (first, end) in &judged.letter.torn {
                    rows[*first..*end].iter_mut().for_each(|row| row[3] = 10);
                }
            }),
            StrangersAreType => every(rows, &|at, row| {
                let carried = walked[at].kind.is_some_and(|kind| peer_reader::layout::CARRIED.contains(&kind));
                if !carried && row[3] == 6 {
                    row[3] = 5;
                }
            }),
            NewIsKept => every(rows, &|_, row| row[2] = if row[2] == 1 { 0 } else { row[2] }),
            The99IsKept => every(rows, &|_, row| row[2] = if row[1] == 99 { 0 } else { row[2] }),
            SecondControlIsNew => every(rows, &|at, row| {
                if row[1] == 90 && at > 0 && walked[at - 1].is(90) {
                    (row[2], row[3]) = (1, 0);
                }
            }),
            ControlOfADroppedLetterIsNew => every(rows, &|_, row| {
                if row[1] == 90 {
                    (row[2], row[3]) = (1, 0);
                }
            }),
            MissingControlsListed => {
                if survey.control().is_none() {
                    rows.push([file.len() as u64, 99, 1, 0]);
                }
            }
            TypeOfTheBytes => every(rows, &|at, row| {
                let body = walked[at].body;
                if !body[..2].iter().all(u8::is_ascii_digit) {
                    row[1] = 0;
                }
            }),
            NoTypeIs255 => every(rows, &|at, row| {
                if walked[at].kind.is_none() {
                    row[1] = 255;
                }
            }),
            NotCarriedIs0 => every(rows, &|_, row| {
                if !peer_reader::layout::CARRIED.iter().any(|code| u64::from(*code) == row[1]) {
                    row[1] = 0;
                }
            }),
            OffsetOfTheBody => every(rows, &|_, row| row[0] += 4),
            OffsetInTheNewFile => {
                let mut at = 0;
                for (row, record) in rows.iter_mut().zip(walked) {
                    row[0] = at;
                    at += if row[2] == 2 { 0 } else { 4 + record.body.len() as u64 };
                }
            }
            DroppedNotListed => rows.retain(|row| row[2] != 2),
            _ => {}
        }
    }

    /// Other bytes.
    fn miswrite(self, file: &[u8], survey: &Survey, found: &mut Outcome) {
        let copied = copy(file);
        let of_copy = |at: usize| {
            let record = &survey.walked[at];
            &copied[record.offset + 4..record.offset + 4 + record.body.len()]
        };
        let mut old: Vec<Option<&[u8]>> =
            survey.kept_letters().map(|judged| judged.letter.control(&survey.walked).map(of_copy)).collect();
        old.push(survey.control().map(|_| of_copy(survey.walked.len() - 1)));
        let places: Vec<usize> =
            bodies(&found.file).into_iter().filter(|at| matches!(&found.file[*at..*at + 2], b"90" | b"99")).collect();
        for (at, old) in places.iter().zip(&old) {
            let code = if &found.file[*at..*at + 2] == b"90" { 90 } else { 99 };
            let body = &mut found.file[*at..*at + layout(code).fixed];
            let sound = old.is_some_and(|old| fault_alone(Set::Ascii, code, old).is_none());
            match (self, *old) {
                (OldSumKept, Some(old)) if sound && code == 90 => {
                    let [six, seven] = FREE.map(|number| layout(code).field(number).of(body).to_vec());
                    body.copy_from_slice(old);
                    put_field(body, code, 6, &six);
                    put_field(body, code, 7, &seven);
                }
                (OldSumOf99Kept, Some(old)) if sound && code == 99 => {
                    put_field(body, code, 5, layout(99).field(5).of(old))
                }
                (FreeFieldsBlank, _) => FREE.into_iter().for_each(|number| blank(body, code, number)),
                (FreeFieldsOf99Blank, _) if code == 99 => FREE.into_iter().for_each(|number| blank(body, code, number)),
                (FreeFieldsOfSoundControlsAlone, _) if !sound => {
                    FREE.into_iter().for_each(|number| blank(body, code, number))
                }
                (FreeFieldsNotJudged, Some(old)) => {
                    for number in FREE {
                        let field = layout(code).field(number);
                        if let Some(bytes) = old.get(field.first - 1..field.last) {
                            put_field(body, code, number, bytes);
                        }
                    }
                }
                (FreeFieldsTogether, _) => {
                    let blanks =
                        FREE.map(|number| layout(code).field(number).of(body).iter().all(|byte| *byte == b' '));
                    if blanks[1] {
                        blank(body, code, 6);
                    }
                }
                _ => {}
            }
        }
        match self {
            NotTranslated if survey.set == Set::Ebcdic => found.file = copy::to_ebcdic(&found.file),
            MicrTotalStated | MicrTotalLeftOut => {
                let mut controls = bodies(&found.file);
                controls.retain(|at| found.file[*at..].starts_with(b"70"));
                for at in controls {
                    let body = &mut found.file[at..at + 80];
                    let is_blank = layout(70).field(4).of(body).iter().all(|byte| *byte == b' ');
                    match self {
                        MicrTotalStated if is_blank => put_field(body, 70, 4, b"000000000000"),
                        MicrTotalLeftOut => blank(body, 70, 4),
                        _ => {}
                    }
                }
            }
            _ => {}
        }
    }

    /// Another refusal.
    fn misanswer(self, survey: &Survey, found: &mut Outcome) {
        match (self, found.answer[0]) {
            (NothingIsSize, NOTHING) => found.answer = refused(1, 0, 0, 0),
            (TotalIsNothing, 9) => found.answer = refused(NOTHING, 0, 0, 0),
            (ListOnNothing, NOTHING) if !survey.walked.is_empty() => found.list = list(survey),
            _ => {}
        }
    }

    /// What is lent, filled another way.
    fn fill(self, file: &[u8], found: &Outcome, out: &mut [u8], list: &mut [u64]) -> Answer {
        let answer = found.with_room(out.len(), list.len());
        let (bytes, rows) = (found.file.len(), found.list.len());
        let short_rows = found.is_written() && list.len() / LIST_ROW < rows;
        match self {
            ListOnNothing if answer[0] == NOTHING => {
                list.chunks_exact_mut(LIST_ROW).zip(&found.list).for_each(|(place, row)| place.copy_from_slice(row));
            }
            RowsBeforeBytes if short_rows => return refused(2, rows as u64, 0, 0),
            RowsNotNeeded if short_rows && out.len() >= bytes => {
                out[..bytes].copy_from_slice(&found.file);
                list.chunks_exact_mut(LIST_ROW).zip(&found.list).for_each(|(place, row)| place.copy_from_slice(row));
                return found.answer;
            }
            PartOfARowCounts if short_rows && list.len().div_ceil(LIST_ROW) >= rows && out.len() >= bytes => {
                let flat: Vec<u64> = found.list.iter().flatten().copied().collect();
                list.copy_from_slice(&flat[..list.len()]);
                out[..bytes].copy_from_slice(&found.file);
                return found.answer;
            }
            RoomTellsTheBytesLacking if answer[0] == 2 && out.len() < bytes => {
                return refused(2, (bytes - out.len()) as u64, 0, 0)
            }
            RoomTellsTheNumbers if answer[0] == 2 && out.len() >= bytes => {
                return refused(2, (rows * LIST_ROW) as u64, 0, 0)
            }
            BufferTouchedBeforeRows if answer[0] == 2 && out.len() >= bytes => {
                out[..bytes].copy_from_slice(&found.file)
            }
            ListTouchedBeforeRoom if answer[0] == 2 && !short_rows => {
                list.chunks_exact_mut(LIST_ROW).zip(&found.list).for_each(|(place, row)| place.copy_from_slice(row));
            }
            BufferClearedBehind if answer[0] == 0 => out[bytes..].fill(0),
            ListClearedBehind if answer[0] == 0 => list[rows * LIST_ROW..].fill(0),
            TailWalked if answer[0] == 0 => {
                let walked = found.list.last().map_or(0, |row| row[0] as usize);
                let end = walked + 4 + split_record(&file[walked..]).map_or(0, <[u8]>::len);
                if end < file.len() && list.len() >= (rows + 1) * LIST_ROW {
                    list[rows * LIST_ROW..(rows + 1) * LIST_ROW].copy_from_slice(&[end as u64, 0, 2, 6]);
                }
            }
            _ => {}
        }
        found.fill(out, list)
    }
}

/// A header, and the records walked.
#[derive(Clone, Copy)]
struct Under<'a> {
    set: Set,
    walked: &'a [Walked<'a>],
    header: &'a [u8],
}

impl Under<'_> {
    fn fault(&self, run: Run) -> Option<(Number, Option<u8>)> {
        first_fault(self.set, self.header, run.sort, &self.walked[run.first..run.end])
    }

    /// A run that a wrong salvage has besides.
    fn add(&self, judged: &mut Judged, run: Run) {
        let fault = judged.sound.then(|| self.fault(run)).flatten();
        judged.runs.push(JudgedRun { run, fault });
        judged.runs.sort_by_key(|run| run.run.first);
    }

    /// A run of its first records alone.
    fn shorten(&self, judged: &mut Judged, at: usize, keep: usize) {
        let mut run = judged.runs[at].run;
        run.end = run.first + keep;
        judged.runs[at] = JudgedRun { run, fault: judged.sound.then(|| self.fault(run)).flatten() };
    }
}

/// How many records of a 61's run are in the order of whole views.
fn lawful(records: &[Walked]) -> usize {
    let mut at = 1;
    while records.get(at).is_some_and(|record| record.is(50)) && records.get(at + 1).is_some_and(|record| record.is(52))
    {
        at += 2;
        at += usize::from(records.get(at).is_some_and(|record| record.is(54)));
    }
    at
}

/// Runs that are no good under their own header go to the sound one before it, if they are good there.
fn under_another(survey: &mut Survey) {
    let (set, walked) = (survey.set, survey.walked.clone());
    for at in 1..survey.letters.len() {
        let (before, rest) = survey.letters.split_at_mut(at);
        let (before, own) = (&mut before[at - 1], &mut rest[0]);
        if !before.sound {
            continue;
        }
        let header = walked[before.letter.header].body;
        let good =
            |run: &JudgedRun| first_fault(set, header, run.run.sort, &walked[run.run.first..run.run.end]).is_none();
        let (moved, stay): (Vec<JudgedRun>, Vec<JudgedRun>) =
            own.runs.iter().partition(|run| (!own.sound || run.fault.is_some()) && good(run));
        own.runs = stay;
        before.runs.extend(moved.into_iter().map(|run| JudgedRun { fault: None, ..run }));
    }
}

/// 61s behind a 90 go to the letter before it.
fn under_no_header(survey: &mut Survey) {
    let (set, walked) = (survey.set, survey.walked.clone());
    for judged in survey.letters.iter_mut().filter(|judged| judged.sound) {
        let Some(control) = judged.letter.control(&walked) else { continue };
        let header = walked[judged.letter.header].body;
        let next = (control + 1..walked.len()).find(|at| walked[*at].is_any(&[10, 90, 99])).unwrap_or(walked.len());
        for at in (control + 1..next).filter(|at| walked[*at].is(61)) {
            let run = Run { sort: Sort::Credit, first: at, end: at + 1 };
            if first_fault(set, header, run.sort, &walked[at..at + 1]).is_none() {
                judged.runs.push(JudgedRun { run, fault: None });
            }
        }
    }
}

/// Torn bundles get a 70 that states what they hold, and are salvaged so; it is not listed.
fn with_70s(file: &[u8]) -> Outcome {
    let copied = copy(file);
    let surveyed = survey(&copied);
    if surveyed.set == Set::Ebcdic {
        return outcome(file);
    }
    let torn: Vec<usize> =
        surveyed.letters.iter().flat_map(|judged| judged.letter.torn.iter().map(|(_, end)| *end)).collect();
    let mut made = Vec::new();
    let mut inserted = Vec::new();
    for at in 0..=surveyed.walked.len() {
        if torn.contains(&at) {
            let begin = (0..at).rev().find(|at| surveyed.walked[*at].is(20)).expect("a 20");
            let records: Vec<&[u8]> = surveyed.walked[begin..at].iter().map(|record| record.body).collect();
            if let Some(control) = control_of(&records) {
                inserted.push(made.len());
                made.push(control);
            }
        }
        if let Some(record) = surveyed.walked.get(at) {
            made.push(record.body.to_vec());
        }
    }
    let mut found = outcome(&plain::file(&made));
    if found.is_written() {
        let rows = found.list.iter().enumerate().filter(|(at, _)| !inserted.contains(at)).map(|(_, row)| *row);
        let offsets = surveyed.walked.iter().map(|record| record.offset as u64);
        found.list = rows.zip(offsets).map(|(row, offset)| [offset, row[1], row[2], row[3]]).collect();
    }
    found
}

/// The 70 of these records, if they can be counted.
fn control_of(records: &[&[u8]]) -> Option<Vec<u8>> {
    let countable = |body: &&[u8]| {
        body[..2].iter().all(u8::is_ascii_digit) && body.len() >= 80 && body[47..62].iter().all(u8::is_ascii_digit)
    };
    if !records.iter().all(|body| !matches!(&body[..2], b"25" | b"31" | b"61") || countable(body)) {
        return None;
    }
    let digits = |body: &&[u8]| body[..2].iter().all(u8::is_ascii_digit);
    let sum = records.iter().all(digits).then(|| count(records.iter().copied(), Way::Right))?;
    let side = |items: u128, cents: u128| ((items % 10_000) as u64, (cents % 1_000_000_000_000) as u64);
    let (debits, credits) = (side(sum.debit_items, sum.debit_cents), side(sum.credit_items, sum.credit_cents));
    Some(plain::bundle_sums(debits, plain::NOT_STATED, sum.views as u64 % 100_000, credits))
}

/// The 99s are taken for strays, but for the last record.
fn past_the_99(file: &[u8]) -> Outcome {
    let mut made = file.to_vec();
    let places: Vec<usize> = bodies(file);
    for at in places.iter().rev().skip(1) {
        if made.get(*at..*at + 2) == Some(b"99") {
            made[*at] = b'8';
        }
    }
    outcome(&made)
}

/// Where the bodies of a file begin.
fn bodies(file: &[u8]) -> Vec<usize> {
    let mut found = Vec::new();
    let mut at = 0;
    while let Some(body) = split_record(&file[at..]) {
        if body.len() >= 2 {
            found.push(at + 4);
        }
        at += 4 + body.len();
    }
    found
}

fn put_field(body: &mut [u8], code: u8, number: u8, bytes: &[u8]) {
    let field = layout(code).field(number);
    body[field.first - 1..field.last].copy_from_slice(bytes);
}

fn blank(body: &mut [u8], code: u8, number: u8) {
    let field = layout(code).field(number);
    body[field.first - 1..field.last].fill(b' ');
}

/// The first file of a seed on which a side differs.
fn first_difference(side: &dyn Side, seed: u64, files: u64) -> Option<(u64, String)> {
    (0..files).find_map(|index| {
        let made = generate::file(seed, index);
        let right = outcome(&made.bytes);
        let random = &mut Random::for_file(!seed, index);
        let lents = lents(&made.bytes, &right, random);
        let differs = lents.into_iter().find_map(|(_, lent)| put(side, &made.bytes, &right, lent, random).err());
        differs.map(|difference| (index, difference))
    })
}

/// Each slip shows within so many files of a seed.
const ENOUGH: u64 = 1_000;

#[test]
fn each_wrong_salvage_shows() {
    let mut latest = (0, None);
    for slip in SLIPS {
        let found = first_difference(&slip, 5, ENOUGH);
        let (index, _) = found.unwrap_or_else(|| panic!("{slip:?} does not show within {ENOUGH} files"));
        if index >= latest.0 {
            latest = (index, Some(slip));
        }
    }
    println!("the last to show is {:?}, at file {}", latest.1, latest.0);
}

#[test]
fn the_frame_without_a_slip_never_shows() {
    assert_eq!(first_difference(&NoSlip, 5, ENOUGH / 2), None);
    assert_eq!(first_difference(&Independent, 6, ENOUGH / 2), None);
}
