//! `icl write`: a file made out of the text and the files that `icl draft` writes.

use std::fs::File;
use std::io::Read;
use std::path::{Component, Path, PathBuf};

use x9180::{DataType, Draft, Field, Kind, Misfit, Number, Record, Refusal, LIMIT};

use crate::args::Args;
use crate::json::{place, quoted, Fault};
use crate::output::{self, trouble};
use crate::screen::{with_clock, Progress};
use crate::sheet::{self, Entry, Given, Member, Records};
use crate::stop::{Stop, DONE, REFUSED};
use crate::words::{self, counted};

pub fn run(args: Args) -> Result<u8, Stop> {
    let [folder] = args.exactly(["DIR"])?;
    let out = args.option("-o").ok_or_else(|| Stop::Usage("-o FILE is missing".to_string()))?;
    let letter = Letter::read(Path::new(folder))?;
    let drawn_up = letter.drawn_up()?;
    let written = with_clock(&format!("writing {}", words::name(out)), || drawn_up.draft.write());
    let bytes = written.map_err(|refusal| letter.refused(&drawn_up, &refusal))?;
    let what = format!("{} ({})", counted(drawn_up.draft.records(), "record"), counted(bytes.len() as u64, "byte"));
    output::put(out, &bytes, args.has("--force"), &what)?;
    Ok(DONE)
}

/// The text of a draft, and the folder that it lies in.
struct Letter {
    folder: PathBuf,
    text: Vec<u8>,
}

/// The draft that a text gives, and where in the text each of its records begins.
struct DrawnUp {
    draft: Draft<'static>,
    starts: Vec<usize>,
}

impl Letter {
    fn read(folder: &Path) -> Result<Letter, Stop> {
        let path = folder.join(sheet::NAME);
        let text = std::fs::read(&path).map_err(|error| trouble(&path, &error))?;
        Ok(Letter { folder: folder.into(), text })
    }

    fn drawn_up(&self) -> Result<DrawnUp, Stop> {
        let wrong = |fault: Fault| Stop::trouble(format!("{}: {}", self.place(fault.at), fault.words));
        let mut records = Records::of(&self.text).map_err(wrong)?;
        let mut drawn_up = DrawnUp { draft: Draft::new(), starts: Vec::new() };
        let (mut in_files, mut progress) = (0, Progress::new());
        while let Some(entry) = records.next().map_err(wrong)? {
            in_files += self.add(&mut drawn_up.draft, &entry).map_err(wrong)?;
            // The library would say so in the end; until then they would all have to be kept.
            if in_files > LIMIT {
                return Err(self.too_large(in_files));
            }
            drawn_up.starts.push(entry.at);
            progress.show(|| format!("reading {}: {} %", self.name(), entry.at * 100 / self.text.len()));
        }
        Ok(drawn_up)
    }

    /// Adds a record of the text to a draft, and tells how many bytes came from files.
    fn add(&self, draft: &mut Draft<'static>, entry: &Entry) -> Result<usize, Fault> {
        let kind = kind_of(entry)?;
        let mut members = Vec::new();
        for member in &entry.members {
            let named = named(kind, member)?;
            members.push((member, named, self.loaded(kind, named, member)?));
        }
        let mut record = Record::new(kind.number).map_err(|misfit| Fault::new(entry.at, misfit.to_string()))?;
        for (member, named, bytes) in &members {
            give(&mut record, member, *named, bytes)?;
        }
        draft.push(&record);
        Ok(members.iter().map(|(_, _, bytes)| bytes.len()).sum())
    }

    /// The bytes of the file that a Binary field is given; none for any other.
    fn loaded(&self, kind: &Kind, named: Named, member: &Member) -> Result<Vec<u8>, Fault> {
        let (field, name) = match (named, &member.value) {
            (Named::Field(field), Given::File(name)) if field.data_type == DataType::Binary => (field, name),
            _ => return Ok(Vec::new()),
        };
        let fault = |words: &str| {
            Fault::new(member.at, format!("{}: {}: {words}", quoted(&member.name), words::name(name.as_ref())))
        };
        if !is_beside(name) {
            return Err(fault("a file in the same folder is asked, by its name alone"));
        }
        let most = kind.most(field.number);
        let mut bytes = Vec::new();
        File::open(self.folder.join(name))
            .and_then(|file| file.take(most as u64 + 1).read_to_end(&mut bytes))
            .map_err(|error| fault(&words::plain(&error)))?;
        match bytes.len() > most {
            true => Err(fault(&format!("it has more than {most} bytes, and the field holds no more"))),
            false => Ok(bytes),
        }
    }

    /// The text as it is named in a message.
    fn name(&self) -> String {
        words::name(self.folder.join(sheet::NAME).as_os_str())
    }

    fn place(&self, at: usize) -> String {
        let (line, column) = place(&self.text, at);
        format!("{}: line {line}, column {column}", self.name())
    }

    /// The library's refusal, with its place in the text.
    fn refused(&self, drawn_up: &DrawnUp, refusal: &Refusal) -> Stop {
        let place = self.at_fault(drawn_up, refusal).map_or_else(|| self.name(), |at| self.place(at));
        Stop::Message(REFUSED, format!("{place}: {}: {refusal}", refusal.line()))
    }

    /// Where the field at fault stands, or its record where the field is not given; behind the last record, the end of the list. Of the whole file no
    /// place is told.
    fn at_fault(&self, drawn_up: &DrawnUp, refusal: &Refusal) -> Option<usize> {
        if matches!(refusal.number(), Number::SIZE | Number::ROOM) {
            return None;
        }
        let index = usize::try_from(refusal.record().checked_sub(1)?).ok()?;
        let Some(start) = drawn_up.starts.get(index) else {
            return self.text.iter().rposition(|byte| *byte == b']');
        };
        let field = refusal.named_field().map(|field| field.name);
        let members = sheet::record_at(&self.text, *start).map_or_else(|_| Vec::new(), |entry| entry.members);
        let member = members.iter().find(|member| Some(member.name.as_str()) == field);
        Some(member.map_or(*start, |member| member.at))
    }

    fn too_large(&self, in_files: usize) -> Stop {
        let (size, name) = (Number::SIZE, self.name());
        let line = format!("refused {} record 0 field 0 offset 0: {}: {}", size.0, size.name(), size.meaning());
        Stop::Message(REFUSED, format!("{name}: {line}; the files beside it have {in_files} bytes so far"))
    }
}

/// What the name of a member stands for.
#[derive(Clone, Copy)]
enum Named {
    /// The type, or the name of its kind.
    Kind,
    BlankMicrTotal,
    Field(&'static Field),
}

/// The kind that a record's type tells, and the name of its kind where that is given too.
fn kind_of(entry: &Entry) -> Result<&'static Kind, Fault> {
    let member = |name: &str| entry.members.iter().find(|member| member.name == name);
    let given = member(sheet::TYPE).ok_or_else(|| Fault::new(entry.at, "the \"type\" of the record is missing"))?;
    let number = match &given.value {
        Given::Text(text) if text.len() == 2 && text.bytes().all(|byte| byte.is_ascii_digit()) => text.parse().ok(),
        _ => None,
    };
    let carried = number.and_then(Kind::of).filter(|kind| kind.is_carried());
    let asked = "the \"type\" is to be the two digits of a type of record that is carried, in quotes";
    let kind = carried.ok_or_else(|| Fault::new(given.at, asked))?;
    match member(sheet::RECORD) {
        Some(Member { value: Given::Text(name), .. }) if name == kind.name => Ok(kind),
        Some(member) => {
            let asked = format!("the \"record\" of type {:02} is to be {}", kind.number, quoted(kind.name));
            Err(Fault::new(member.at, asked))
        }
        None => Ok(kind),
    }
}

fn named(kind: &'static Kind, member: &Member) -> Result<Named, Fault> {
    let fault = |words: &str| Err(Fault::new(member.at, format!("{} {words}", quoted(&member.name))));
    match (member.name.as_str(), kind.fields.iter().find(|field| field.name == member.name)) {
        (sheet::TYPE | sheet::RECORD, _) => Ok(Named::Kind),
        (sheet::BLANK_MICR_TOTAL, _) => Ok(Named::BlankMicrTotal),
        (_, None) => fault(&format!("is no field of the {kind}")),
        (_, Some(field)) if kind.works_out(field.number) => fault("is worked out, and is not to be given"),
        (_, Some(field)) if sheet::is_reserved(field) => fault("is always blank, and is not to be given"),
        (_, Some(field)) => Ok(Named::Field(field)),
    }
}

/// Gives a record what a member says, with the bytes of the file where it names one.
fn give<'p>(record: &mut Record<'p>, member: &Member, named: Named, bytes: &'p [u8]) -> Result<(), Fault> {
    let is_binary = matches!(named, Named::Field(field) if field.data_type == DataType::Binary);
    let given = match (named, &member.value) {
        (Named::Kind, _) => Ok(()),
        (Named::BlankMicrTotal, Given::Flag(blank)) => record.ask_blank_micr_total(*blank),
        (Named::Field(field), Given::Text(text)) if !is_binary => record.set(field.number, text),
        (Named::Field(field), Given::File(_)) if is_binary => record.lend(field.number, bytes),
        _ => return Err(wrong_sort(member, named, is_binary)),
    };
    given.map_err(|misfit| unfit(member, &misfit))
}

fn wrong_sort(member: &Member, named: Named, is_binary: bool) -> Fault {
    let asked = match (named, is_binary) {
        (Named::BlankMicrTotal, _) => "true or false",
        (_, true) => "{\"file\": NAME}",
        (_, false) => "a text in quotes",
    };
    Fault::new(member.at, format!("{} is to be {asked}", quoted(&member.name)))
}

fn unfit(member: &Member, misfit: &Misfit) -> Fault {
    let given = misfit.given().map_or_else(String::new, |given| format!("given {given}; "));
    Fault::new(member.at, format!("{}: {given}asked: {}", quoted(&member.name), misfit.asked()))
}

/// Whether a name is that of a file in the same folder. A draft may come from elsewhere: it is not to reach for other files of the machine.
fn is_beside(name: &str) -> bool {
    let mut components = Path::new(name).components();
    let first = components.next();
    matches!(first, Some(Component::Normal(part)) if part == name) && components.next().is_none()
}
