//! What a salvage kept, made new and dropped, for people: by cash letter and bundle, with their sums, why each part was dropped, and what is missing against the
//! torn file's own controls.

use std::io::{Result, Write};

use x9180::{CharacterSet, Content, Letter, Listed, Part, Reading, Salvage, Sort, Status};

use crate::salvage_sums::{Control, Sums};
use crate::screen::{coloured, Colour};
use crate::words::{amount_wide, counted, grouped, set_told, sums};

pub fn write(file: &[u8], salvage: &Salvage, reading: &Reading, out: &mut dyn Write) -> Result<()> {
    let mut told = Told { file, salvage, out, missing: Missing::default() };
    told.heads(reading)?;
    let parts = salvage.parts();
    // What is under a header stands behind it, and so does its control.
    let mut kept = reading.letters();
    for group in parts.chunk_by(|_, next| next.letter != 0 && next.sort != Sort::Header) {
        let is_letter = group.first().is_some_and(|part| part.sort == Sort::Header);
        match is_letter {
            true => told.letter(group, &mut kept)?,
            false => group.iter().try_for_each(|part| told.outside(part, reading))?,
        }
    }
    told.end(&parts)
}

/// What the controls of cash letters state beyond what was kept of them, where they were walked.
#[derive(Default)]
struct Missing {
    controls: u64,
    debit: u128,
    credit: u128,
}

impl Missing {
    fn add(&mut self, control: &Control, kept: &Sums) {
        let [debit, credit] = control.cents();
        self.controls += 1;
        self.debit += debit.saturating_sub(kept.debits.cents);
        self.credit += credit.saturating_sub(kept.credits.cents);
    }
}

struct Told<'f> {
    file: &'f [u8],
    salvage: &'f Salvage,
    out: &'f mut dyn Write,
    missing: Missing,
}

impl Told<'_> {
    fn heads(&mut self, reading: &Reading) -> Result<()> {
        let totals = reading.totals();
        let (letters, bundles) = (counted(totals.letters, "cash letter"), counted(totals.bundles, "bundle"));
        writeln!(self.out, "new file: {letters}, {bundles}, {}", sums(&totals))?;
        let list = self.salvage.list();
        let count = |status: Status| grouped(list.iter().filter(|listed| listed.status() == status).count() as u64);
        let walked = counted(list.len() as u64, "record");
        let (kept, new, dropped) = (count(Status::Kept), count(Status::MadeNew), count(Status::Dropped));
        writeln!(self.out, "torn file: {walked} walked: {kept} kept, {new} made new, {dropped} dropped")?;
        let set = set_told(CharacterSet::of(self.file));
        let below = set.into_iter().chain(self.end_of_walk());
        below.into_iter().try_for_each(|line| writeln!(self.out, "    {line}"))
    }

    /// Why the walk went no further, where there is anything to say.
    fn end_of_walk(&self) -> Option<String> {
        let (list, last) = (self.salvage.list(), self.salvage.list().last()?);
        let end = last.offset + 4 + last.body(self.file)?.len() as u64;
        let left = self.file.get(usize::try_from(end).ok()?..)?;
        let (next, after) = (list.len() + 1, left.len().saturating_sub(4) as u64);
        let length = left.first_chunk().map(|length| u32::from_be_bytes(*length));
        Some(match (last.record_type, length) {
            (99, _) if left.is_empty() => return None,
            (99, _) => {
                let more = counted(left.len() as u64, "byte");
                format!("behind the file control, at offset {end}, {more} more, not looked at")
            }
            (_, None) if left.is_empty() => format!("the bytes end behind record {}, at offset {end}", list.len()),
            (_, None) => format!(
                "record {next} is cut off at offset {end}: {} of its length",
                counted(left.len() as u64, "byte")
            ),
            (_, Some(length)) if length < 2 => {
                format!("at record {next}, offset {end}, the walk ended: its length says {length}; bytes behind it: {after}")
            }
            (_, Some(length)) => {
                format!(
                    "record {next} is cut off, at offset {end}: its length says {length} bytes; bytes left: {after}"
                )
            }
        })
    }

    /// A cash letter: its header, what is under it, and its control.
    fn letter<'r>(&mut self, group: &[Part], kept: &mut impl Iterator<Item = Letter<'r>>) -> Result<()> {
        let Some(header) = group.first() else { return Ok(()) };
        let kept = if self.status(header) == Status::Kept { kept.next() } else { None };
        let name = format!("cash letter {}", header.letter);
        match &kept {
            Some(letter) => {
                let totals = letter.totals();
                let name = format!("{name}{}", in_new_file(header.letter, letter.ordinal()));
                let bundles = counted(totals.bundles, "bundle");
                writeln!(self.out, "  {name}: {}, {bundles}, {}", kept_told(), sums(&totals))?;
            }
            None => {
                writeln!(self.out, "  {name}, record {}: {}", header.rows.start + 1, dropped_told())?;
                self.why(header, 4)?;
            }
        }
        let mut contents = kept.into_iter().flat_map(|letter| letter.contents());
        for part in group.iter().skip(1).filter(|part| part.sort != Sort::Control) {
            let content = if self.status(part) == Status::Kept { contents.next() } else { None };
            self.under_header(part, content)?;
        }
        let sums = kept.map_or_else(Sums::default, |letter| Sums::of_totals(&letter.totals()));
        self.control(group.iter().find(|part| part.sort == Sort::Control), &sums)
    }

    /// A bundle, a credit or strays of a cash letter, with its like in the new file where it was kept.
    fn under_header(&mut self, part: &Part, content: Option<Content<'_>>) -> Result<()> {
        let noun = match part.sort {
            Sort::Bundle | Sort::OpenBundle => "bundle",
            Sort::Credit => "credit record",
            _ => return self.stray(part, 4),
        };
        let (name, records) = (format!("{noun} {}", part.ordinal), records(part));
        match content {
            Some(content) => {
                let (now, totals) = match content {
                    Content::Bundle(bundle) => (bundle.ordinal(), Sums::of_totals(&bundle.totals())),
                    Content::Credit(credit) => (credit.ordinal(), Sums::of_records(self.file, self.rows(part))),
                };
                let now = in_new_file(part.ordinal, now);
                writeln!(self.out, "    {name}{now}, {records}: {}, {}", kept_told(), totals.told())
            }
            None => {
                let sums = Sums::of_records(self.file, self.rows(part));
                writeln!(self.out, "    {name}, {records}: {}, {}", dropped_told(), sums.told())?;
                self.why(part, 6)
            }
        }
    }

    /// The control of a cash letter beside what was kept of it.
    fn control(&mut self, part: Option<&Part>, kept: &Sums) -> Result<()> {
        let control = part.and_then(|part| Some((part, self.rows(part).first()?)));
        let Some((part, listed)) = control.map(|(part, listed)| (part, *listed)) else {
            return writeln!(self.out, "    no control was walked: what the cash letter should come to is not known");
        };
        let told = if self.status(part) == Status::MadeNew { "made new".to_string() } else { dropped_told() };
        writeln!(self.out, "    control, record {}: {told}", part.rows.start + 1)?;
        self.beside(&Control::of_letter(self.file, &listed), kept, 6)
    }

    /// What a control of a cash letter states, and what is missing.
    fn beside(&mut self, control: &Control, kept: &Sums, indent: usize) -> Result<()> {
        self.missing.add(control, kept);
        control.beside(kept).into_iter().try_for_each(|line| writeln!(self.out, "{:indent$}{line}", ""))
    }

    /// What is under no header.
    fn outside(&mut self, part: &Part, reading: &Reading) -> Result<()> {
        match part.sort {
            Sort::Stray => self.stray(part, 2),
            Sort::FileControl => {
                writeln!(self.out, "  file control, record {}: made new", part.rows.start + 1)?;
                let control = self.rows(part).first().map(|listed| Control::of_file(self.file, listed));
                let lines =
                    control.map_or_else(Vec::new, |control| control.beside(&Sums::of_totals(&reading.totals())));
                lines.into_iter().try_for_each(|line| writeln!(self.out, "    {line}"))
            }
            _ => Ok(()),
        }
    }

    /// Records that belong to nothing; a control among them tells what a cash letter held whose header is lost.
    fn stray(&mut self, part: &Part, indent: usize) -> Result<()> {
        let sums = Sums::of_records(self.file, self.rows(part));
        writeln!(self.out, "{:indent$}astray, {}: {}, {}", "", records(part), dropped_told(), sums.told())?;
        self.why(part, indent + 2)?;
        let controls: Vec<(usize, Listed)> = (part.rows.start + 1..)
            .zip(self.rows(part).iter().copied())
            .filter(|(_, listed)| listed.record_type == 90)
            .collect();
        for (record, listed) in controls {
            writeln!(self.out, "{:indent$}  record {record} is the control of a cash letter without its header", "")?;
            self.beside(&Control::of_letter(self.file, &listed), &Sums::default(), indent + 4)?;
        }
        Ok(())
    }

    /// Without a file control the controls of the cash letters are all that is known.
    fn end(&mut self, parts: &[Part]) -> Result<()> {
        if parts.iter().any(|part| part.sort == Sort::FileControl) {
            return Ok(());
        }
        writeln!(self.out, "  no file control was walked: what the whole file should come to is not known")?;
        let Missing { controls, debit, credit } = &self.missing;
        let (debit, credit) = (amount_wide(*debit), amount_wide(*credit));
        match controls {
            0 => writeln!(self.out, "    nor was the control of any cash letter"),
            1 => writeln!(
                self.out,
                "    by the 1 cash letter control walked: debits of {debit} and credits of {credit} missing"
            ),
            more => {
                let controls = counted(*more, "cash letter control");
                writeln!(self.out, "    by the {controls} walked: debits of {debit} and credits of {credit} missing")
            }
        }
    }

    fn why(&mut self, part: &Part, indent: usize) -> Result<()> {
        let words = self.salvage.why(self.file, part).map_or_else(String::new, |why| format!("{why:#}"));
        words.lines().try_for_each(|line| writeln!(self.out, "{:indent$}{line}", ""))
    }

    fn rows(&self, part: &Part) -> &[Listed] {
        self.salvage.list().get(part.rows.clone()).unwrap_or_default()
    }

    fn status(&self, part: &Part) -> Status {
        self.rows(part).first().map_or(Status::Dropped, |listed| listed.status())
    }
}

/// `record 7`, `records 3 to 17`
fn records(part: &Part) -> String {
    match part.rows.len() {
        1 => format!("record {}", part.rows.end),
        _ => format!("records {} to {}", part.rows.start + 1, part.rows.end),
    }
}

/// Told where its ordinal has changed.
fn in_new_file(before: u64, now: u64) -> String {
    match before == now {
        true => String::new(),
        false => format!(" ({now} in the new file)"),
    }
}

fn kept_told() -> String {
    coloured("kept", Colour::Green)
}

fn dropped_told() -> String {
    coloured("dropped", Colour::Red)
}
