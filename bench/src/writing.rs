//! The writer: the proved one beside the independent one and a plain copy of the same bytes. Each file is the text of its own draft.

use std::hint::black_box;
use std::ops::Range;

use crate::contenders::{
    allocations, copying, independent_draft, independent_writing, proved, proved_draft, proved_writing, Answer,
};
use crate::inputs::{file, Batch, Shape, AGAIN, COPIES, MIB, SIZES};
use crate::reading::{run as read, Reader};
use crate::timing::{ratio, rounds, tell_growth, tell_times};

/// Writes a text and its draft into a buffer.
pub type Writer = fn(&[u8], &[u64], &mut [u8]) -> Answer;

/// The numbers of a row of a draft, and of a table.
const ROW: usize = 10;
const TABLE_ROW: usize = 7;

/// The files of a batch with their drafts, which lie one after the other too.
pub struct Sheets<'a> {
    batch: &'a Batch,
    numbers: Vec<u64>,
    places: Vec<Range<usize>>,
}

impl Sheets<'_> {
    /// By the proved library, once the independent draft is found to be the same.
    pub fn of(batch: &Batch) -> Sheets<'_> {
        let mut sheets = Sheets { batch, numbers: Vec::new(), places: Vec::new() };
        for file in batch.files() {
            let needed = proved_draft(file, &mut [])[1] as usize;
            let mut draft = vec![0; needed * ROW];
            assert_eq!(proved_draft(file, &mut draft)[0], 0, "the proved library refuses");
            let mut other = vec![1; needed * ROW];
            independent_draft(file, &mut other);
            assert!(draft == other, "the drafts differ");
            sheets.places.push(sheets.numbers.len()..sheets.numbers.len() + draft.len());
            sheets.numbers.extend(draft);
        }
        sheets
    }

    fn records(&self) -> u64 {
        (self.numbers.len() / ROW) as u64
    }

    /// Each file into its own place of the buffer.
    pub fn run(&self, writer: Writer, out: &mut [u8]) {
        for (place, draft) in self.batch.places.iter().zip(&self.places) {
            let text = black_box(&self.batch.bytes[place.clone()]);
            black_box(writer(text, &self.numbers[draft.clone()], &mut out[place.clone()]));
        }
    }

    /// Both writers make these files of the batch, with the answers of a reading.
    fn agreed(&self, written: &Batch, out: &mut [u8]) {
        let mut table = vec![0; self.records() as usize * TABLE_ROW];
        for (place, draft) in self.batch.places.iter().zip(&self.places) {
            let text = &self.batch.bytes[place.clone()];
            let expected = proved(text, &mut table);
            for writer in [proved_writing, independent_writing] {
                let answer = writer(text, &self.numbers[draft.clone()], &mut out[place.clone()]);
                assert_eq!(answer, expected, "the answers differ");
                assert!(out[place.clone()] == written.bytes[place.clone()], "other bytes are written");
                out[place.clone()].fill(0);
            }
        }
    }
}

/// All tables of the writer.
pub fn tables(seed: u64, inputs: &[(&str, &Batch)]) {
    let longest = inputs.iter().map(|(_, batch)| batch.bytes.len()).max().unwrap_or(0).max(SIZES[4] * MIB);
    // Lent, and touched throughout before anything is timed.
    let mut out = vec![1; longest];
    println!("| written | independent / proved | proved / plain copy | proved, reading / writing |");
    println!("|---|---|---|---|");
    for (name, batch) in inputs {
        println!("| {name} | {} |", ratios(name, &Sheets::of(batch), batch, &mut out));
    }
    println!();
    println!(
        "| written from EBCDIC | independent / proved | proved / plain copy | proved, reading / writing | proved, ASCII / EBCDIC |"
    );
    println!("|---|---|---|---|---|");
    for (name, batch) in inputs {
        let version = batch.in_ebcdic();
        let (ascii, ebcdic) = (Sheets::of(batch), Sheets::of(&version));
        let ratios = ratios(name, &ebcdic, batch, &mut out);
        let times = rounds(6.0, 2, |index| [&ascii, &ebcdic][index].run(proved_writing, &mut out));
        println!("| {name} | {ratios} | {} |", ratio(&times[0], &times[1]));
    }
    println!();
    println!("| draft of | independent / proved | proved, reading / draft |");
    println!("|---|---|---|");
    inputs.iter().for_each(|(name, batch)| drafts(name, batch));
    println!();
    println!("| proved writing | 1 MiB | 4 MiB | 16 MiB | 64 MiB | 256 MiB |");
    println!("|---|---|---|---|---|---|");
    growth(
        "a MiB with pictures",
        seed,
        Shape::Pictures,
        |sheets| sheets.batch.bytes.len() as f64 / MIB as f64,
        &mut out,
    );
    growth("a record without pictures", seed, Shape::NoPictures, |sheets| sheets.records() as f64, &mut out);
    println!();
}

/// Every input once, by the proved library.
pub fn once(sheets: &[Sheets], out: &mut [u8]) {
    sheets.iter().for_each(|sheets| sheets.run(proved_writing, out));
}

/// Every contender in turn on one input, and the proved reading of it.
fn ratios(name: &str, sheets: &Sheets, written: &Batch, out: &mut [u8]) -> String {
    sheets.agreed(written, out);
    let (batch, records) = (sheets.batch, sheets.records());
    let writers: [(&str, Writer); 3] =
        [("proved", proved_writing), ("independent", independent_writing), ("copy", copying)];
    eprintln!("{name}, written: {} files, {} bytes, {records} records", batch.places.len(), batch.bytes.len());
    for (who, writer) in &writers[..2] {
        let (calls, bytes) = allocations(|| sheets.run(*writer, out));
        eprintln!("  {who}: {calls} allocations of {bytes} bytes in all");
        assert!(*who != "proved" || calls == 0, "the proved call allocates");
    }
    let mut table = vec![1; records as usize * TABLE_ROW];
    let times = rounds(8.0, writers.len() + 1, |index| match writers.get(index) {
        Some((_, writer)) => sheets.run(*writer, out),
        None => read(proved, batch, &mut table),
    });
    let names = writers.iter().map(|(who, _)| *who).chain(["proved, reading"]);
    names.zip(&times).for_each(|(who, times)| tell_times(who, times, batch.bytes.len(), records));
    let [proved, independent, copy, reading] = [0, 1, 2, 3].map(|index| &times[index]);
    format!("{} | {} | {}", ratio(independent, proved), ratio(proved, copy), ratio(reading, proved))
}

/// The draft of each file of a batch.
fn drafts(name: &str, batch: &Batch) {
    let records = Sheets::of(batch).records();
    let mut numbers = vec![1; records as usize * ROW];
    let readers: [(&str, Reader); 3] =
        [("proved", proved_draft), ("independent", independent_draft), ("proved, reading", proved)];
    eprintln!("{name}, drafts:");
    let (calls, _) = allocations(|| read(proved_draft, batch, &mut numbers));
    assert_eq!(calls, 0, "the proved call allocates");
    let times = rounds(6.0, readers.len(), |index| read(readers[index].1, batch, &mut numbers));
    readers.iter().zip(&times).for_each(|((who, _), times)| tell_times(who, times, batch.bytes.len(), records));
    println!("| {name} | {} | {} |", ratio(&times[1], &times[0]), ratio(&times[2], &times[0]));
}

/// The time for one of something at each size beside that at the first, in turn over the sizes. A turn writes one file again and again, or its
/// copies one after the other.
fn growth(name: &str, seed: u64, shape: Shape, count: impl Fn(&Sheets) -> f64, out: &mut [u8]) {
    let files = SIZES.map(|size| Batch::one(file(seed, shape, size * MIB)));
    let copies: Vec<Batch> = files.iter().zip(COPIES).map(|(one, count)| one.repeated(count)).collect();
    let [files, copies] = [&files[..], &copies].map(|batches| batches.iter().map(Sheets::of).collect::<Vec<_>>());
    let in_a_row = copies.iter().chain(&files[4..]).zip([1; 5]);
    let turns: Vec<(&Sheets, usize)> = files.iter().zip(AGAIN).chain(in_a_row).collect();
    let mut write = |(sheets, times): (&Sheets, usize)| (0..times).for_each(|_| sheets.run(proved_writing, out));
    let mut times = rounds(0.0, turns.len(), |index| write(turns[index]));
    for ((sheets, again), times) in turns.iter().zip(&mut times) {
        let all = count(sheets) * *again as f64;
        times.iter_mut().for_each(|time| *time /= all);
    }
    tell_growth(name, "one", &times);
}
