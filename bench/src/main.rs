//! Times the proved library beside the independent reader and writer, a plain walk of memory and a plain copy, on the same bytes in turn.
//! The ratios go to standard output as tables; seconds and the machine's own numbers go to standard error.
//! Use: bench [read | write | salvage] [SEED], or bench SEED MIB TIMES [CONTENDER [SHAPE]] for a profiler.

mod contenders;
mod inputs;
mod reading;
mod salvaging;
mod timing;
mod writing;

use std::env;
use std::thread;

use contenders::{
    copying, independent, independent_draft, independent_writing, proved, proved_draft, proved_writing, Counted,
};
use inputs::{file, Batch, Shape, MIB};
use timing::now;
use writing::Sheets;

#[global_allocator]
static ALLOCATOR: Counted = Counted;

const STACK: usize = 256 << 10;

/// One contender alone, for a profiler: so many MiB, so many times, on files without pictures or (shape 1) with them. The contenders are the proved
/// reader, the independent one, the proved writer, the independent one, a plain copy, the proved draft, the independent one; each in ASCII (the
/// even numbers) and in EBCDIC.
fn profile(seed: u64, size: usize, times: usize, which: usize, shape: usize) {
    let shape = if shape == 1 { Shape::Pictures } else { Shape::NoPictures };
    let ascii = Batch::one(file(seed, shape, size * MIB));
    let batch = if which % 2 == 1 { ascii.in_ebcdic() } else { ascii };
    // Ten numbers for a record of a draft, and at least 77 bytes for one of a file.
    let mut table = vec![1; size * MIB / 77 * 10];
    let mut out = vec![1; size * MIB];
    let sheets = if (4..10).contains(&which) { Some(Sheets::of(&batch)) } else { None };
    for _ in 0..times {
        match (which / 2, &sheets) {
            (0, _) => reading::run(proved, &batch, &mut table),
            (1, _) => reading::run(independent, &batch, &mut table),
            (2, Some(sheets)) => sheets.run(proved_writing, &mut out),
            (3, Some(sheets)) => sheets.run(independent_writing, &mut out),
            (_, Some(sheets)) => sheets.run(copying, &mut out),
            (5, _) => reading::run(proved_draft, &batch, &mut table),
            _ => reading::run(independent_draft, &batch, &mut table),
        }
    }
}

fn main() {
    let mut words: Vec<String> = env::args().skip(1).collect();
    let only = words.first().filter(|word| ["read", "write", "salvage"].contains(&word.as_str())).cloned();
    if only.is_some() {
        words.remove(0);
    }
    let given: Vec<usize> = words.iter().map(|word| word.parse().expect("the arguments are numbers")).collect();
    let seed = given.first().copied().unwrap_or(180) as u64;
    if let [_, size, times, ref more @ ..] = given[..] {
        let more = |place: usize| more.get(place).copied().unwrap_or(0);
        return profile(seed, size, times, more(0), more(1));
    }
    eprintln!("seed {seed}");
    if only.as_deref() != Some("salvage") {
        read_and_write(seed, only.as_deref());
    }
    if only.is_none() || only.as_deref() == Some("salvage") {
        let mut lent = salvaging::Lent::new();
        salvaging::tables(seed, &mut lent);
        on_a_small_stack(|| salvaging::once(seed, &mut lent));
        println!("The proved salvage asked for no memory, and ran on a stack of {} KiB.", STACK >> 10);
    }
}

fn read_and_write(seed: u64, only: Option<&str>) {
    let start = now();
    let pictures = Batch::one(file(seed, Shape::Pictures, 200 * MIB));
    let plain = Batch::one(file(seed, Shape::NoPictures, 32 * MIB));
    let small = Batch::small(seed, 10_000);
    let lockbox = Batch::one(file(seed, Shape::Lockbox, 32 * MIB));
    eprintln!("inputs made in {:.1} s", (now() - start).as_secs_f64());
    let inputs = [
        ("(a) 200 MiB with pictures", &pictures),
        ("(b) 32 MiB without pictures", &plain),
        ("(c) 10,000 small files", &small),
        ("(d) 32 MiB of lockbox deposits", &lockbox),
    ];
    if only != Some("write") {
        reading::tables(seed, &inputs);
    }
    if only != Some("read") {
        writing::tables(seed, &inputs);
    }
    let mut table = vec![1; 32 * MIB / 77 * 7];
    let sheets = inputs.map(|(_, batch)| Sheets::of(batch));
    let mut out = vec![1; 200 * MIB];
    on_a_small_stack(|| reading::once(&inputs, &mut table));
    on_a_small_stack(|| writing::once(&sheets, &mut out));
    println!("The proved calls asked for no memory, and read and wrote all inputs on a stack of {} KiB.", STACK >> 10);
}

fn on_a_small_stack(work: impl FnOnce() + Send) {
    thread::scope(|scope| {
        let joined = thread::Builder::new().stack_size(STACK).spawn_scoped(scope, work).map(|thread| thread.join());
        assert!(matches!(joined, Ok(Ok(_))), "the thread with the small stack fails");
    });
}
