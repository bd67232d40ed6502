//! `icl tree`: what an accepted file holds, laid out for a person.

use std::ffi::OsStr;
use std::io::{Result, Write};

use x9180::{Bundle, Content, Item, Letter, Reading, Row, View};

use crate::args::Args;
use crate::each::{self, Around, Done};
use crate::facts::{kind_told, side};
use crate::fields;
use crate::files::Files;
use crate::forms::Form;
use crate::input;
use crate::stop::Stop;
use crate::tree_rows::{self, Depth};
use crate::walked;
use crate::words::{self, amount, counted, set_told, sums};

pub fn run(args: Args) -> std::result::Result<u8, Stop> {
    let depth = Depth::of(args.option("--depth"))?;
    if args.has("--walk") {
        return match args.option("--depth") {
            Some(_) => Err(Stop::Usage("--walk and --depth exclude each other".to_string())),
            None => walked::tree(&args),
        };
    }
    let (files, form) = (Files::of(args.several()?), args.form()?);
    let around = Around { form, columns: tree_rows::COLUMNS, apart: true };
    let list = |file: &OsStr, out: &mut dyn Write| {
        let (bytes, reading) = input::accepted(file)?;
        if files.several && form == Form::Text {
            writeln!(out, "{}:", words::name(file)).map_err(Stop::output)?;
        }
        let written = match form {
            Form::Text => Tree { file: &bytes, depth, out }.whole(&reading),
            _ => tree_rows::write(file, &bytes, &reading, depth, form, out),
        };
        written.map_err(Stop::output)?;
        Ok(Done::well(()))
    };
    each::file(&files, &around, list, |()| {})
}

struct Tree<'f> {
    file: &'f [u8],
    depth: Depth,
    out: &'f mut dyn Write,
}

impl Tree<'_> {
    fn whole(&mut self, reading: &Reading) -> Result<()> {
        let totals = reading.totals();
        let (records, letters) = (counted(totals.records, "record"), counted(totals.letters, "cash letter"));
        let bundles = counted(totals.bundles, "bundle");
        writeln!(self.out, "file: {records}, {letters}, {bundles}, {}", sums(&totals))?;
        if let Some(line) = set_told(reading.character_set()) {
            writeln!(self.out, "    {line}")?;
        }
        self.fields(4, reading.header().into_iter().chain(reading.control()))?;
        reading.letters().try_for_each(|letter| self.letter(&letter))
    }

    fn letter(&mut self, letter: &Letter<'_>) -> Result<()> {
        let totals = letter.totals();
        let bundles = counted(totals.bundles, "bundle");
        writeln!(self.out, "  cash letter {}: {bundles}, {}", letter.ordinal(), sums(&totals))?;
        self.fields(6, ends(letter.rows()))?;
        if self.depth < Depth::Bundle {
            return Ok(());
        }
        letter.contents().try_for_each(|content| match content {
            Content::Bundle(bundle) => self.bundle(&bundle),
            Content::Credit(credit) => self.item(4, "credit record", &credit),
        })
    }

    fn bundle(&mut self, bundle: &Bundle<'_>) -> Result<()> {
        writeln!(self.out, "    bundle {}: {}", bundle.ordinal(), sums(&bundle.totals()))?;
        self.fields(8, ends(bundle.rows()))?;
        bundle.items().try_for_each(|item| self.item(6, "item", &item))
    }

    fn item(&mut self, indent: usize, name: &str, item: &Item<'_>) -> Result<()> {
        if self.depth < Depth::Item {
            return Ok(());
        }
        let (ordinal, what, amount) = (item.ordinal(), kind_told(item), amount(item.amount()));
        writeln!(self.out, "{:indent$}{name} {ordinal}: {what} of {amount}", "")?;
        self.fields(indent + 4, item.rows().first())?;
        if self.depth < Depth::All {
            return Ok(());
        }
        for (ordinal, addendum) in (1..).zip(item.addenda()) {
            let kind = addendum.kind().map_or_else(String::new, |kind| kind.to_string());
            writeln!(self.out, "{:indent$}  addendum {ordinal}: {kind}", "")?;
            self.fields(indent + 6, Some(addendum))?;
        }
        item.views().try_for_each(|view| self.view(indent + 2, &view))
    }

    fn view(&mut self, indent: usize, view: &View<'_>) -> Result<()> {
        let side = side(view, self.file).unwrap_or("side not told");
        let picture = x9180::picture(self.file, view.offset()).map_or(0, <[u8]>::len);
        let (ordinal, offset, picture) = (view.ordinal(), view.offset(), counted(picture as u64, "byte"));
        writeln!(self.out, "{:indent$}view {ordinal}: {side}, picture of {picture}, at offset {offset}", "")?;
        self.fields(indent + 4, view.detail())
    }

    fn fields<'r>(&mut self, indent: usize, rows: impl IntoIterator<Item = &'r Row>) -> Result<()> {
        fields::write(self.file, indent, rows, self.out)
    }
}

/// A level's header and its control.
fn ends(rows: &[Row]) -> impl Iterator<Item = &Row> {
    rows.first().into_iter().chain(rows.last())
}
