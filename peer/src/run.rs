//! What the comparing programs have in common: their arguments, the sharing of the work among threads, the differences found, and the end of a
//! run.

use std::path::PathBuf;
use std::process::ExitCode;
use std::sync::atomic::{AtomicU64, Ordering};
use std::sync::Mutex;
use std::time::{Duration, Instant, SystemTime, UNIX_EPOCH};

use crate::Difference;

/// After so many differences a run stops.
const ENOUGH: usize = 10;

/// How far a run has come is told after every so many.
const STAGE: u64 = 20_000;

/// A run that is no whole one names at most so many points that it did not cover.
const SHORT_LIST: usize = 20;

/// A program that puts generated things to both sides.
pub struct Program {
    pub name: &'static str,
    /// What it generates; the option that says how many is called so too.
    pub things: &'static str,
    /// So many unless told otherwise. Coverage is demanded of runs at least this long.
    pub whole_run: u64,
    /// The flags that it knows besides.
    pub flags: &'static [&'static str],
    /// The independent side, by which the coverage goes.
    pub side: &'static str,
}

/// What a program was told.
#[derive(Debug, PartialEq, Eq)]
pub struct Options {
    /// How many things are generated.
    pub count: u64,
    pub seed: u64,
    /// The folder for what the sides differ on.
    pub save: PathBuf,
    pub threads: u64,
    /// The flags that were given, in their order.
    pub flags: Vec<String>,
}

/// What a run has come to, differences aside.
pub struct Outcome {
    /// What was put to both sides, in words.
    pub counts: String,
    /// The coverage in words.
    pub coverage: String,
    /// A line for each point that is not covered.
    pub missing: Vec<String>,
}

impl Program {
    /// Reads the arguments, has the sides compared, and tells how it ended.
    pub fn run(&self, compare: impl FnOnce(&Options, &Found) -> Outcome) -> ExitCode {
        let options = match self.options(std::env::args().skip(1)) {
            Ok(options) => options,
            Err(message) => {
                eprintln!("{}: {message}", self.name);
                eprintln!("use: {}", self.usage());
                return ExitCode::from(2);
            }
        };
        println!("seed {} {} {} threads {}", options.seed, self.things, options.count, options.threads);
        let begun = Instant::now();
        let found = Found::default();
        let outcome = compare(&options, &found);
        self.conclude(&options, found.count(), &outcome, begun.elapsed())
    }

    fn usage(&self) -> String {
        let flags = match self.flags {
            [] => String::new(),
            flags => format!(" [{}]", flags.join(" | ")),
        };
        format!("{} [--{} N] [--seed S] [--save DIR] [--threads T]{flags}", self.name, self.things)
    }

    fn options(&self, mut words: impl Iterator<Item = String>) -> Result<Options, String> {
        let clock = SystemTime::now().duration_since(UNIX_EPOCH).map(|time| time.as_nanos() as u64).unwrap_or(1);
        let threads = std::thread::available_parallelism().map(|count| count.get() as u64).unwrap_or(2);
        let mut options = Options {
            count: self.whole_run,
            seed: clock % 1_000_000_000,
            save: PathBuf::from("differences"),
            threads,
            flags: Vec::new(),
        };
        while let Some(word) = words.next() {
            if self.flags.contains(&word.as_str()) {
                options.flags.push(word);
                continue;
            }
            let next = words.next().ok_or_else(|| format!("{word} wants a value"))?;
            let number = || next.parse::<u64>().map_err(|_| format!("{next} is no number"));
            match word.strip_prefix("--") {
                Some(name) if name == self.things => options.count = number()?,
                Some("seed") => options.seed = number()?,
                Some("threads") => options.threads = number()?.max(1),
                Some("save") => options.save = PathBuf::from(next),
                _ => return Err(format!("{word} is not known")),
            }
        }
        Ok(options)
    }

    /// Whether a run is so long that every point is to be covered.
    pub fn is_whole(&self, options: &Options) -> bool {
        options.count >= self.whole_run
    }

    fn conclude(&self, options: &Options, differences: usize, outcome: &Outcome, took: Duration) -> ExitCode {
        println!("{}, {:.1} seconds", outcome.counts, took.as_secs_f64());
        println!("coverage, by the independent {}:\n{}", self.side, outcome.coverage.trim_end());
        let missing = &outcome.missing;
        let (named, remark) = match self.is_whole(options) {
            true => (missing.len(), ""),
            false => (SHORT_LIST, " (not demanded)"),
        };
        missing.iter().take(named).for_each(|point| println!("{point}"));
        println!("differences {differences}, points not covered {}{remark}", missing.len());
        if !self.passes(options, differences, missing.len()) {
            println!("FAILED with seed {}", options.seed);
            return ExitCode::from(1);
        }
        println!("the two sides agree");
        ExitCode::SUCCESS
    }

    fn passes(&self, options: &Options, differences: usize, missing: usize) -> bool {
        differences == 0 && (missing == 0 || !self.is_whole(options))
    }
}

/// Has every thread do its share, and takes what they give, in their order. A share is that of every index from `first` on in steps of the
/// number of threads: which thread has an index changes nothing.
pub fn on_threads<Part: Send>(threads: u64, work: impl Fn(u64) -> Part + Sync, take: impl FnMut(Part)) {
    let work = &work;
    std::thread::scope(|scope| {
        let workers: Vec<_> = (0..threads).map(|first| scope.spawn(move || work(first))).collect();
        workers.into_iter().map(|worker| worker.join().expect("a worker ends well")).for_each(take);
    });
}

/// What the threads share: how many things are done, and the names of those on which the sides differ.
#[derive(Default)]
pub struct Found {
    done: AtomicU64,
    names: Mutex<Vec<String>>,
}

/// Bytes on which the sides differ.
pub struct Case<'a> {
    pub name: String,
    /// What they were made as.
    pub shape: &'a str,
    pub bytes: &'a [u8],
    /// Of the files that they are saved in.
    pub extension: &'a str,
}

impl Found {
    /// How many differences; where a thread has broken off while it noted one, enough.
    pub fn count(&self) -> usize {
        self.names.lock().map_or(ENOUGH, |names| names.len())
    }

    /// Whether a run is to stop.
    pub fn enough(&self) -> bool {
        self.count() >= ENOUGH
    }

    /// One more thing is done.
    pub fn one_more(&self, things: &str) {
        let done = self.done.fetch_add(1, Ordering::Relaxed) + 1;
        if done.is_multiple_of(STAGE) {
            println!("{done} {things}");
        }
    }

    /// Prints a difference, and saves the bytes as they were and shrunk.
    pub fn report(&self, options: &Options, case: &Case, difference: &str, smaller: &(Vec<u8>, Difference)) {
        let Case { name, shape, bytes, extension } = case;
        let (small, small_difference) = smaller;
        println!("DIFFERENCE in {name} ({shape}, {} bytes): {difference}", bytes.len());
        if small.as_slice() != *bytes {
            println!("  shrunk to {} bytes: {small_difference}", small.len());
        }
        let names = [format!("{name}.{extension}"), format!("{name}.small.{extension}")];
        let saved = std::fs::create_dir_all(&options.save)
            .and_then(|()| std::fs::write(options.save.join(&names[0]), bytes))
            .and_then(|()| std::fs::write(options.save.join(&names[1]), small));
        self.note(options, names, saved);
    }

    /// Notes a difference, and prints under which names it was saved.
    pub fn note(&self, options: &Options, names: [String; 2], saved: std::io::Result<()>) {
        let [whole, small] = names;
        match saved {
            Ok(()) => println!("  saved as {whole} and {small} in {}", options.save.display()),
            Err(error) => println!("  not saved: {error}"),
        }
        if let Ok(mut names) = self.names.lock() {
            names.push(whole);
        }
    }
}

#[cfg(test)]
mod tests {
    use super::*;

    const PROGRAM: Program = Program {
        name: "compare_things",
        things: "things",
        whole_run: 500,
        flags: &["--more", "--less"],
        side: "maker of things",
    };

    fn options(words: &str) -> Result<Options, String> {
        PROGRAM.options(words.split_whitespace().map(str::to_string))
    }

    #[test]
    fn a_program_that_is_told_nothing_makes_a_whole_run() {
        let told = options("").expect("no argument is wanted");
        assert_eq!((told.count, told.save.as_path(), told.flags.len()), (500, "differences".as_ref(), 0));
        assert!(told.threads >= 1 && told.seed < 1_000_000_000);
    }

    #[test]
    fn every_option_is_read() {
        let told = options("--things 7 --seed 8 --less --save folder --threads 3 --more");
        let flags = vec!["--less".to_string(), "--more".to_string()];
        assert_eq!(told, Ok(Options { count: 7, seed: 8, save: "folder".into(), threads: 3, flags }));
        assert_eq!(options("--threads 0").map(|told| told.threads), Ok(1));
    }

    #[test]
    fn what_is_not_known_is_named() {
        assert_eq!(options("--things"), Err("--things wants a value".to_string()));
        assert_eq!(options("--things many"), Err("many is no number".to_string()));
        assert_eq!(options("--files 7"), Err("--files is not known".to_string()));
        assert_eq!(options("things 7"), Err("things is not known".to_string()));
    }

    #[test]
    fn the_line_of_use_names_all_options() {
        let rest = "[--things N] [--seed S] [--save DIR] [--threads T]";
        assert_eq!(PROGRAM.usage(), format!("compare_things {rest} [--more | --less]"));
        assert_eq!(Program { flags: &[], ..PROGRAM }.usage(), format!("compare_things {rest}"));
    }

    #[test]
    fn points_are_demanded_of_a_whole_run() {
        let (whole, short) = (options("--things 500").unwrap(), options("--things 499").unwrap());
        for told in [&whole, &short] {
            assert!(PROGRAM.passes(told, 0, 0));
            assert!(!PROGRAM.passes(told, 1, 0));
        }
        assert!(PROGRAM.passes(&short, 0, 1));
        assert!(!PROGRAM.passes(&whole, 0, 1));
    }

    #[test]
    fn every_thread_has_its_share_and_all_are_taken_in_order() {
        let mut taken = Vec::new();
        on_threads(3, |first| (first..10).step_by(3).collect::<Vec<u64>>(), |part| taken.push(part));
        assert_eq!(taken, [vec![0, 3, 6, 9], vec![1, 4, 7], vec![2, 5, 8]]);
    }

    #[test]
    fn ten_differences_are_enough_and_both_files_are_saved() {
        let folder = std::env::temp_dir().join(format!("compared-{}", std::process::id()));
        let told = Options { save: folder.clone(), ..options("").unwrap() };
        let found = Found::default();
        for index in 0..ENOUGH {
            assert!(!found.enough());
            let case = Case { name: format!("thing{index}"), shape: "any", bytes: b"whole", extension: "x" };
            found.report(&told, &case, "another answer", &(b"part".to_vec(), "still another".to_string()));
        }
        assert!(found.enough());
        assert_eq!(std::fs::read(folder.join("thing0.x")).unwrap(), b"whole");
        assert_eq!(std::fs::read(folder.join("thing9.small.x")).unwrap(), b"part");
        std::fs::remove_dir_all(folder).unwrap();
    }
}
