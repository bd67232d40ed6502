//! `icl draft`: the values of an accepted file as a text to be read and changed, with its pictures as files beside it.

use std::path::{Path, PathBuf};

use x9180::{DataType, Draft, Reading};

use crate::args::Args;
use crate::input;
use crate::names::{self, NamedView};
use crate::output::{self, trouble};
use crate::screen::{print, Progress};
use crate::sheet;
use crate::stop::{Stop, DONE};
use crate::store::Staging;
use crate::words::{self, counted};

pub fn run(args: Args) -> Result<u8, Stop> {
    let [file] = args.exactly(["FILE"])?;
    let folder = args.option("-o").ok_or_else(|| Stop::Usage("-o DIR is missing".to_string()))?;
    let (folder, force) = (Path::new(folder), args.has("--force"));
    if folder.is_file() {
        let shown = words::name(folder.as_os_str());
        return Err(Stop::trouble(format!("{shown}: it is a file, and -o takes the name of a folder")));
    }
    let (bytes, reading) = input::accepted(file)?;
    let draft = Draft::of(&bytes).map_err(|refusal| input::refused(file, &bytes, &refusal))?;
    let parts = Parts::of(&reading, &draft, &bytes);
    output::all_free(folder, parts.names(), force)?;
    let mut staging = Staging::within(folder, force).map_err(|error| trouble(folder, &error))?;
    write(&staging, folder, &draft, &parts)?;
    for name in parts.names() {
        staging.place(&name).map_err(|error| trouble(&folder.join(&name), &error))?;
    }
    staging.keep();
    let (records, files) = (counted(draft.records(), "record"), counted(parts.files.len() as u64, "file"));
    let letter = folder.join(sheet::NAME);
    print(&format!("{records} written to {}, and {files} beside it\n", words::name(letter.as_os_str())))?;
    Ok(DONE)
}

fn write(staging: &Staging, folder: &Path, draft: &Draft<'_>, parts: &Parts<'_>) -> Result<(), Stop> {
    let mut progress = Progress::new();
    for (done, (name, bytes)) in parts.files.iter().enumerate() {
        staging.write(name, bytes).map_err(|error| trouble(&folder.join(name), &error))?;
        progress.show(|| format!("writing files: {done} of {}", parts.files.len()));
    }
    let name = Path::new(sheet::NAME);
    let text = staging.fill(name, |out| sheet::write(out, draft, |record, field| parts.name(record, field.number)));
    text.map_err(|error| trouble(&folder.join(name), &error))
}

/// The Binary fields of a draft, which become files.
struct Parts<'d> {
    reading: &'d Reading,
    views: Vec<NamedView>,
    files: Vec<(PathBuf, &'d [u8])>,
}

impl<'d> Parts<'d> {
    fn of(reading: &'d Reading, draft: &'d Draft<'_>, bytes: &[u8]) -> Parts<'d> {
        let mut parts = Parts { reading, views: names::of_views(reading, bytes), files: Vec::new() };
        for record in draft.of_type(52) {
            let fields = draft.kind(record).into_iter().flat_map(|kind| kind.parts());
            for field in fields.filter(|field| field.data_type == DataType::Binary) {
                let bytes = draft.bytes(record, field.number).filter(|bytes| !bytes.is_empty());
                let name = parts.name(record, field.number).into();
                parts.files.extend(bytes.map(|bytes| (name, bytes)));
            }
        }
        parts
    }

    /// The name of the file for a field of an Image View Data Record. A draft's records are the reading's, one by one.
    fn name(&self, record: u64, field: u64) -> String {
        let index = usize::try_from(record).ok().and_then(|record| record.checked_sub(1));
        let offset = index.and_then(|index| self.reading.rows().get(index)).map(|row| row.offset);
        let place = offset.and_then(|offset| self.views.binary_search_by_key(&offset, |view| view.offset).ok());
        let view = place.and_then(|place| self.views.get(place));
        view.map_or_else(|| format!("record-{record}_field-{field}"), |view| view.of_field(field))
    }

    /// All that is written into the folder, the text last.
    fn names(&self) -> impl Iterator<Item = PathBuf> + '_ {
        self.files.iter().map(|(name, _)| name.clone()).chain([PathBuf::from(sheet::NAME)])
    }
}
