//! `icl find`: the items of a file that have a number, an amount or an account.

use std::ffi::OsStr;
use std::io::Write;

use x9180::{Bundle, Content, Item, Letter, Reading, Totals};

use crate::args::Args;
use crate::each::{self, Around, Done};
use crate::facts::{self, field_numbers, kind_told};
use crate::files::Files;
use crate::find_query::{Matched, Query};
use crate::forms::{Cell, Form, Rows};
use crate::input;
use crate::names::{Digits, NamedView};
use crate::places;
use crate::screen::print;
use crate::stop::Stop;
use crate::taking::Destination;
use crate::words::{self, amount, counted, sums};

const COLUMNS: &[&str] = &[
    "file",
    "letter",
    "bundle",
    "item",
    "credit_record",
    "record",
    "offset",
    "kind",
    "debit",
    "amount",
    "sequence",
    "routing",
    "account",
    "matched",
    "pictures",
    "bundle_items",
    "bundle_views",
    "bundle_debit_items",
    "bundle_debit",
    "bundle_credit_items",
    "bundle_credit",
    "letter_bundles",
    "letter_items",
    "letter_views",
    "letter_debit_items",
    "letter_debit",
    "letter_credit_items",
    "letter_credit",
];

pub fn run(args: Args) -> Result<u8, Stop> {
    let (files, form, query) = (Files::of(args.several()?), args.form()?, Query::of(&args)?);
    let destination = match args.option("--pictures") {
        Some(folder) => Some(Destination::new(folder, &files, args.has("--force"))?),
        None if args.has("--force") => return Err(Stop::Usage("--force goes with --pictures DIR".to_string())),
        None => None,
    };
    let (mut items, mut of_files) = (0, 0);
    let around = Around { form, columns: COLUMNS, apart: false };
    let find = |file: &OsStr, out: &mut dyn Write| {
        let (bytes, reading) = input::accepted(file)?;
        let finding = Finding { file, bytes: &bytes, reading: &reading, query: &query };
        let found = finding.items();
        finding.write(&found, form, out).map_err(Stop::output)?;
        let mut done = Done::well(found.len() as u64);
        match destination.as_ref().map_or(Ok(None), |destination| finding.take(&found, destination)) {
            Ok(Some(said)) if form == Form::Text => writeln!(out, "{said}").map_err(Stop::output)?,
            // The items were found all the same.
            Err(Stop::Message(status, message)) => (done.status, done.complaints) = (status, vec![message]),
            Err(other) => return Err(other),
            Ok(_) => {}
        }
        Ok(done)
    };
    let status = each::file(&files, &around, find, |found| {
        items += found;
        of_files += u64::from(found > 0);
    })?;
    if form == Form::Text {
        print(&told(items, of_files, &files, &query))?;
    }
    Ok(status)
}

/// How many were found, and of what: so that a number misread is seen.
fn told(items: u64, of_files: u64, files: &Files, query: &Query) -> String {
    let within = match files.several {
        true => format!(" in {of_files} of {}", counted(files.each.len() as u64, "file")),
        false => String::new(),
    };
    format!("{} found{within}: {}\n", counted(items, "item"), query.words())
}

/// An item that matches, with what it lies in.
struct Found<'r> {
    letter: Letter<'r>,
    letter_sums: Totals,
    bundle: Option<(Bundle<'r>, Totals)>,
    item: Item<'r>,
    matched: Matched<'r>,
}

struct Finding<'f> {
    file: &'f OsStr,
    bytes: &'f [u8],
    reading: &'f Reading,
    query: &'f Query,
}

impl<'f> Finding<'f> {
    fn items(&self) -> Vec<Found<'f>> {
        let mut found = Vec::new();
        for letter in self.reading.letters() {
            let before = found.len();
            for content in letter.contents() {
                match content {
                    Content::Bundle(bundle) => self.in_bundle(letter, bundle, &mut found),
                    Content::Credit(credit) => self.look_at(letter, None, credit, &mut found),
                }
            }
            // Added up once for all that were found in it.
            if found.len() > before {
                let totals = letter.totals();
                found.iter_mut().skip(before).for_each(|found| found.letter_sums = totals);
            }
        }
        found
    }

    fn in_bundle(&self, letter: Letter<'f>, bundle: Bundle<'f>, found: &mut Vec<Found<'f>>) {
        let before = found.len();
        bundle.items().for_each(|item| self.look_at(letter, Some((bundle, Totals::default())), item, found));
        if found.len() > before {
            let totals = bundle.totals();
            found.iter_mut().skip(before).for_each(|found| found.bundle = Some((bundle, totals)));
        }
    }

    fn look_at(
        &self,
        letter: Letter<'f>,
        bundle: Option<(Bundle<'f>, Totals)>,
        item: Item<'f>,
        found: &mut Vec<Found<'f>>,
    ) {
        if let Some(matched) = self.query.matches(&item, self.bytes) {
            found.push(Found { letter, letter_sums: Totals::default(), bundle, item, matched });
        }
    }

    fn write(&self, found: &[Found<'_>], form: Form, out: &mut dyn Write) -> std::io::Result<()> {
        if form == Form::Text {
            return found.iter().try_for_each(|found| self.told(found, out));
        }
        let mut rows = Rows::new(form, COLUMNS, out);
        found.iter().try_for_each(|found| rows.put(&self.cells(found)))
    }

    fn told(&self, found: &Found<'_>, out: &mut dyn Write) -> std::io::Result<()> {
        let (item, letter) = (&found.item, found.letter.ordinal());
        let (what, amount, record) = (kind_told(item), amount(item.amount()), self.record(item));
        let place = match &found.bundle {
            Some((bundle, _)) => format!("bundle {}, item {}", bundle.ordinal(), item.ordinal()),
            None => format!("credit record {}", item.ordinal()),
        };
        let file = words::name(self.file);
        writeln!(out, "{file}: cash letter {letter}, {place}: {what} of {amount}, record {record}")?;
        let fields = field_numbers(item.kind());
        let own = item.rows().first().and_then(|row| row.kind()).into_iter().flat_map(|kind| kind.fields);
        let own = own.filter(|field| [fields.sequence, fields.routing, fields.account].contains(&field.number));
        let own = own.map(|field| format!("{} \"{}\"", field.name, facts::text(item, self.bytes, field.number)));
        writeln!(out, "    {}", own.collect::<Vec<_>>().join(", "))?;
        writeln!(out, "    matched: {}", self.matched(&found.matched))?;
        let offsets: Vec<String> = item.views().map(|view| view.offset().to_string()).collect();
        match offsets.is_empty() {
            true => writeln!(out, "    no pictures")?,
            false => writeln!(out, "    pictures at offset {}", offsets.join(", "))?,
        }
        if let Some((bundle, totals)) = &found.bundle {
            writeln!(out, "    bundle {}: {}", bundle.ordinal(), sums(totals))?;
        }
        let totals = &found.letter_sums;
        writeln!(out, "    cash letter {letter}: {}, {}", counted(totals.bundles, "bundle"), sums(totals))
    }

    /// The fields that matched, as they stand in the file.
    fn matched(&self, matched: &Matched<'_>) -> String {
        let field = |(row, number): &(&x9180::Row, u64)| {
            let kind = row.kind()?;
            let (name, text) = (kind.field(*number)?.name, row.text(self.bytes, *number)?);
            Some(format!("{name} \"{text}\" of the {kind} at offset {}", row.offset))
        };
        matched.iter().filter_map(field).collect::<Vec<_>>().join("; ")
    }

    fn cells(&self, found: &Found<'_>) -> Vec<Cell> {
        let (item, fields) = (&found.item, field_numbers(found.item.kind()));
        let bundle = found.bundle.as_ref().map_or(0, |(bundle, _)| bundle.ordinal());
        let (in_bundle, credit) = if bundle > 0 { (item.ordinal(), 0) } else { (0, item.ordinal()) };
        let mut cells = vec![Cell::text(self.file.to_string_lossy())];
        let offset = item.rows().first().map_or(0, |row| row.offset);
        let numbers = [found.letter.ordinal(), bundle, in_bundle, credit, self.record(item), offset];
        cells.extend(numbers.map(Cell::number));
        cells.extend([Cell::text(kind_told(item)), Cell::Flag(item.is_debit()), Cell::number(item.amount())]);
        let texts = [fields.sequence, fields.routing, fields.account];
        cells.extend(texts.map(|field| Cell::text(facts::text(item, self.bytes, field))));
        cells.push(Cell::text(self.matched(&found.matched)));
        cells.push(Cell::Numbers(item.views().map(|view| view.offset()).collect()));
        match &found.bundle {
            Some((_, totals)) => cells.extend(of_totals(totals)),
            None => cells.extend((0..6).map(|_| Cell::Blank)),
        }
        cells.push(Cell::number(found.letter_sums.bundles));
        cells.extend(of_totals(&found.letter_sums));
        cells
    }

    fn record(&self, item: &Item<'_>) -> u64 {
        let offset = item.rows().first().map_or(0, |row| row.offset);
        self.reading.rows().partition_point(|row| row.offset < offset) as u64 + 1
    }

    /// Takes out their pictures, where there are any.
    fn take(&self, found: &[Found<'_>], destination: &Destination) -> Result<Option<String>, Stop> {
        let digits = Digits::of(self.reading);
        let mut views = Vec::new();
        for found in found {
            let bundle = found.bundle.as_ref().map(|(bundle, _)| bundle.ordinal());
            let placed = places::of_item(found.letter.ordinal(), bundle, &found.item);
            views.extend(placed.map(|placed| NamedView::of(&placed, &digits, self.bytes)));
        }
        match views.is_empty() {
            true => Ok(None),
            false => destination.take(self.file, self.bytes, &views).map(Some),
        }
    }
}

fn of_totals(totals: &Totals) -> [Cell; 6] {
    let Totals { items, views, debit, credit_items, credit, .. } = *totals;
    [items, views, totals.debit_items(), debit, credit_items, credit].map(Cell::number)
}
