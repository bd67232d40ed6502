//! Compares the proved library's day book with the independent one over many generated histories of calls.
//! Use: compare_book [--histories N] [--calls C] [--tidy-rows R] [--seed S] [--save DIR] [--threads T]
//! With --calls each history is of so many random calls on an empty book, and every answer is compared with the plain list's too; with --tidy-rows a book of
//! so many rows, every second of them a gap, is tidied up and the seconds are told, and nothing else is done.

mod abi;
mod long;
mod tidied;

use std::path::PathBuf;
use std::process::ExitCode;
use std::sync::atomic::{AtomicBool, Ordering};
use std::sync::Mutex;
use std::time::{Instant, SystemTime, UNIX_EPOCH};

use peer_book::apart::put_second;
use peer_book::call::{Call, History, Side};
use peer_book::generate::{self, USUAL_RUN, WHOLE_RUN};
use peer_book::points::Tally;
use peer_book::put::{put, Broken};
use peer_reader::random::Random;

use abi::Library;
use long::Beside;

/// A shorter run names at most so many points that it did not cover.
const SHORT_LIST: usize = 20;

struct Options {
    histories: u64,
    /// The calls of each history, where it is to be a long one.
    calls: Option<usize>,
    /// The rows of a book that is tidied up, and no histories.
    tidy_rows: Option<usize>,
    seed: u64,
    save: PathBuf,
    threads: u64,
}

/// What the threads share.
struct Shared {
    stop: AtomicBool,
    found: Mutex<Vec<String>>,
}

impl Shared {
    /// One more difference. After ten the run stops.
    fn note(&self, name: String) {
        if let Ok(mut found) = self.found.lock() {
            found.push(name);
            self.stop.fetch_or(found.len() >= 10, Ordering::Relaxed);
        }
    }
}

#[derive(Default)]
struct Counts {
    histories: u64,
    pairs: u64,
    calls: u64,
    entered: u64,
    letters: u64,
    withdrawn: u64,
    bytes: u64,
}

impl Counts {
    fn add(&mut self, other: &Counts) {
        self.histories += other.histories;
        self.pairs += other.pairs;
        self.calls += other.calls;
        self.entered += other.entered;
        self.letters += other.letters;
        self.withdrawn += other.withdrawn;
        self.bytes += other.bytes;
    }
}

fn main() -> ExitCode {
    let options = match options() {
        Ok(options) => options,
        Err(message) => {
            eprintln!("compare_book: {message}");
            eprintln!(
                "use: compare_book [--histories N] [--calls C] [--tidy-rows R] [--seed S] [--save DIR] [--threads T]"
            );
            return ExitCode::from(2);
        }
    };
    if let Some(rows) = options.tidy_rows {
        return tidied::run(rows);
    }
    println!("seed {} histories {} threads {}", options.seed, options.histories, options.threads);
    let begun = Instant::now();
    let shared = Shared { stop: AtomicBool::new(false), found: Mutex::new(Vec::new()) };
    let (tally, counts) = run(&options, &shared);
    conclude(&options, &shared, &tally, &counts, begun)
}

fn options() -> Result<Options, String> {
    let clock = SystemTime::now().duration_since(UNIX_EPOCH).map(|time| time.as_nanos() as u64).unwrap_or(1);
    let threads = std::thread::available_parallelism().map(|count| count.get() as u64).unwrap_or(2);
    let (histories, seed, save) = (USUAL_RUN, clock % 1_000_000_000, PathBuf::from("differences"));
    let mut options = Options { histories, calls: None, tidy_rows: None, seed, save, threads };
    let mut words = std::env::args().skip(1);
    while let Some(word) = words.next() {
        let next = words.next().ok_or_else(|| format!("{word} wants a value"))?;
        let number = || next.parse::<u64>().map_err(|_| format!("{next} is no number"));
        match word.as_str() {
            "--histories" => options.histories = number()?,
            "--calls" => options.calls = Some(number()? as usize),
            "--tidy-rows" => options.tidy_rows = Some(number()? as usize),
            "--seed" => options.seed = number()?,
            "--threads" => options.threads = number()?.max(1),
            "--save" => options.save = PathBuf::from(next),
            _ => return Err(format!("{word} is not known")),
        }
    }
    Ok(options)
}

/// Shares the histories among the threads by index, so that the thread count changes nothing.
fn run(options: &Options, shared: &Shared) -> (Tally, Counts) {
    let mut tally = Tally::default();
    let mut counts = Counts::default();
    std::thread::scope(|scope| {
        let workers: Vec<_> =
            (0..options.threads).map(|first| scope.spawn(move || work(options, shared, first))).collect();
        for worker in workers {
            let (part, counted) = worker.join().expect("a worker ends well");
            tally.add(&part);
            counts.add(&counted);
        }
    });
    (tally, counts)
}

fn work(options: &Options, shared: &Shared, first: u64) -> (Tally, Counts) {
    let mut tally = Tally::default();
    let mut counts = Counts::default();
    for index in (first..options.histories).step_by(options.threads as usize) {
        if shared.stop.load(Ordering::Relaxed) {
            break;
        }
        let history = match options.calls {
            Some(calls) => generate::long(options.seed, index, calls),
            None => generate::history(options.seed, index),
        };
        counts.histories += 1;
        let random = &mut Random::for_file(!options.seed, index);
        let mut beside = options.calls.map(|_| Beside::new(&history));
        let compared = put(&Library, &history, random, |seen| {
            match &mut beside {
                Some(beside) => beside.look_at(seen),
                None => tally.note(seen),
            }
            counts.calls += 1;
            if let Call::Enter { paper, .. } = seen.call() {
                counts.bytes += history.papers[*paper].bytes.len() as u64;
                counts.entered += u64::from(seen.outcome.returned == 0);
                counts.letters += seen.outcome.answer[5];
            }
            let withdraws = matches!(seen.call(), Call::Withdraw { .. });
            counts.withdrawn += u64::from(withdraws && seen.outcome.returned == 0);
        });
        let outcomes = match compared {
            Ok(outcomes) => outcomes,
            Err(broken) => {
                report(options, shared, &history, index, &broken);
                continue;
            }
        };
        if let Some(beside) = beside {
            if let Some(difference) = beside.difference() {
                report_list(options, shared, index, &difference);
            }
            continue;
        }
        tally.note_history(&history, &outcomes);
        let Some(pair) = generate::pair(options.seed, index) else { continue };
        counts.pairs += 1;
        match put_second(&Library, &pair, random) {
            Ok(second) => tally.note_pair(&pair, [&outcomes, &second]),
            Err(difference) => report_pair(options, shared, index, &difference),
        }
    }
    (tally, counts)
}

/// The one call on which the sides differ, as a history of its own.
fn alone(history: &History, broken: &Broken) -> History {
    let (book, taken) = (broken.book.clone(), broken.taken.clone());
    History { book, taken, calls: vec![history.calls[broken.at]], ..history.clone() }
}

/// How the two sides differ on the only call of a history, if they do.
fn differs(history: &History) -> Option<String> {
    put(&Library as &dyn Side, history, &mut Random::new(1), |_| {}).err().map(|broken| broken.difference)
}

/// A smaller table and list on which the call still differs: their ends cut off, numbers made 0.
fn shrink(single: &History) -> History {
    let mut small = single.clone();
    shrink_one(&mut small, |history| &mut history.book);
    shrink_one(&mut small, |history| &mut history.taken);
    small
}

fn shrink_one(small: &mut History, of: impl Fn(&mut History) -> &mut Vec<u64>) {
    while let Some(last) = of(small).pop() {
        if differs(small).is_none() {
            of(small).push(last);
            break;
        }
    }
    for place in 0..of(small).len() {
        let number = std::mem::replace(&mut of(small)[place], 0);
        if differs(small).is_none() {
            of(small)[place] = number;
        }
    }
}

/// Prints and saves a difference: the call, its table and list as numbers a line each, and its file.
fn report(options: &Options, shared: &Shared, history: &History, index: u64, broken: &Broken) {
    let call = &history.calls[broken.at];
    let single = alone(history, broken);
    println!(
        "DIFFERENCE in history {index} ({}), call {} of {}: {call:?} on a table of {} numbers: {}",
        history.shape,
        broken.at + 1,
        history.calls.len(),
        broken.book.len(),
        broken.difference
    );
    let name = format!("seed{}-history{index}", options.seed);
    let small = if differs(&single).is_some() { shrink(&single) } else { single.clone() };
    println!("  shrunk to {} numbers: {}", small.book.len(), differs(&small).unwrap_or_default());
    match save(options, &name, &single, &small, call) {
        Ok(()) => println!("  saved as {name}"),
        Err(error) => println!("  not saved: {error}"),
    }
    shared.note(name);
}

/// Prints where the plain list answers otherwise than both sides, or has other entries.
fn report_list(options: &Options, shared: &Shared, index: u64, difference: &str) {
    println!("DIFFERENCE from the plain list in history {index}: {difference}");
    shared.note(format!("seed{}-list{index}", options.seed));
}

/// Prints a difference in a pair of histories, which seed and index give again.
fn report_pair(options: &Options, shared: &Shared, index: u64, difference: &str) {
    println!("DIFFERENCE in pair {index}: {difference}");
    shared.note(format!("seed{}-pair{index}", options.seed));
}

fn save(options: &Options, name: &str, single: &History, small: &History, call: &Call) -> std::io::Result<()> {
    let lines = |book: &[u64]| book.iter().map(|number| format!("{number}\n")).collect::<String>();
    let path = |ending: &str| options.save.join(format!("{name}{ending}"));
    std::fs::create_dir_all(&options.save)?;
    std::fs::write(path(".book"), lines(&single.book))?;
    std::fs::write(path(".taken"), lines(&single.taken))?;
    std::fs::write(path(".small.book"), lines(&small.book))?;
    std::fs::write(path(".small.taken"), lines(&small.taken))?;
    std::fs::write(path(".call"), format!("{call:?}\n"))?;
    match call {
        Call::Enter { paper, .. } => std::fs::write(path(".x9"), &single.papers[*paper].bytes),
        _ => Ok(()),
    }
}

fn conclude(options: &Options, shared: &Shared, tally: &Tally, counts: &Counts, begun: Instant) -> ExitCode {
    let differences = shared.found.lock().map(|found| found.len()).unwrap_or(1);
    println!(
        "{} histories, {} pairs of them, {} calls, {} files entered with {} letters, {} withdrawn, {} bytes, {:.1} seconds",
        counts.histories,
        counts.pairs,
        counts.calls,
        counts.entered,
        counts.letters,
        counts.withdrawn,
        counts.bytes,
        begun.elapsed().as_secs_f64()
    );
    // Long histories agree with the plain list; points are those of the others.
    let missing = if options.calls.is_some() { Vec::new() } else { tally.missing() };
    let demanded = options.histories >= WHOLE_RUN && options.calls.is_none();
    if options.calls.is_none() {
        println!("coverage, by the independent book:\n{}", tally.report().trim_end());
    }
    for point in missing.iter().take(if demanded { missing.len() } else { SHORT_LIST }) {
        println!("not covered: {point:?}");
    }
    let remark = if demanded { "" } else { " (not demanded)" };
    println!("differences {differences}, points not covered {}{remark}", missing.len());
    if differences > 0 || (demanded && !missing.is_empty()) {
        println!("FAILED with seed {}", options.seed);
        return ExitCode::from(1);
    }
    println!(
        "{}",
        if options.calls.is_some() { "both sides agree with the plain list" } else { "the two sides agree" }
    );
    ExitCode::SUCCESS
}
