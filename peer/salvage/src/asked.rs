//! What is asked about each file: the lengths of the buffers and lists that are lent.

use peer_reader::random::Random;

use crate::put::Lent;
use crate::salvage::{Outcome, LIST_ROW};

/// How a buffer and a list are lent.
pub const SORTS: [&str; 13] = [
    "exact",
    "a byte short",
    "a row short",
    "a number short",
    "no bytes",
    "no numbers",
    "nothing",
    "both short",
    "more bytes",
    "a number more",
    "two numbers more",
    "three numbers more",
    "more of both",
];

/// For a file above so many bytes little is asked.
const LARGE: usize = 300_000;

/// Exactly enough, and some of the others; on a refusal nothing, and more than enough.
pub fn lents(file: &[u8], outcome: &Outcome, random: &mut Random) -> Vec<(&'static str, Lent)> {
    if !outcome.is_written() {
        let enough = (3 * file.len() + 400, (file.len() / 6 + 2) * LIST_ROW);
        return vec![("more of both", enough), ("nothing", (0, 0))];
    }
    let others = if file.len() > LARGE { 1 } else { 4 };
    let mut lents = vec![("exact", lent("exact", outcome, random))];
    for _ in 0..others {
        let sort = random.pick(&SORTS[1..]);
        lents.push((sort, lent(sort, outcome, random)));
    }
    lents
}

fn lent(sort: &str, outcome: &Outcome, random: &mut Random) -> Lent {
    let (bytes, numbers) = (outcome.file.len(), outcome.list.len() * LIST_ROW);
    match sort {
        "a byte short" => (bytes - 1, numbers),
        "a row short" => (bytes, numbers - LIST_ROW),
        "a number short" => (bytes, numbers - 1),
        "no bytes" => (0, numbers),
        "no numbers" => (bytes, 0),
        "nothing" => (0, 0),
        "both short" => (random.below(bytes), random.below(numbers)),
        "more bytes" => (bytes + random.between(1, 300), numbers),
        "a number more" => (bytes, numbers + 1),
        "two numbers more" => (bytes, numbers + 2),
        "three numbers more" => (bytes, numbers + 3),
        "more of both" => (bytes + random.between(1, 300), numbers + random.between(1, 40)),
        _ => (bytes, numbers),
    }
}
