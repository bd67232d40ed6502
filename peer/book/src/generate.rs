//! The stream of histories of one run: the seed and a history's index give the history.

use peer_reader::random::Random;

use crate::apart::{self, Pair};
use crate::call::{History, Kind};
use crate::{grow, tamper};

/// Shapes by turn.
#[rustfmt::skip]
const TURNS: [&str; 90] = [
    "grown", "grown", "grown", "grown", "grown", "grown", "grown", "grown", "head", "head",
    "row", "row", "row", "row", "claim", "claim", "sum", "sum", "sum", "sum",
    "sum", "sum", "sum", "sum", "sum", "sum", "short", "short", "short", "short",
    "short", "short", "full", "full", "full", "full", "full", "duplicate", "duplicate", "no duplicate",
    "no duplicate", "find", "find", "not found", "totals", "totals", "order", "order", "order", "order",
    "order", "again", "owner", "owner", "owner", "strange", "strange", "apart", "apart", "apart",
    "head", "head", "net", "net", "net", "net", "range", "range", "held", "behind",
    "refilled", "refilled", "refilled", "withdraw", "withdraw", "not withdrawn", "withdraw range", "withdraw range", "withdraw order", "withdraw order",
    "tidy", "tidy", "gaps", "gaps", "list claim", "list claim", "short list", "short list", "edges", "edges",
];

/// The histories of a round.
pub const ROUND: usize = TURNS.len();

/// Coverage is demanded of runs of at least so many histories.
pub const WHOLE_RUN: u64 = 10_000;

/// The histories of a run unless told otherwise.
pub const USUAL_RUN: u64 = 20_000;

/// One in so many histories has a large file.
const RARE: u64 = 1_000;

/// What a run has at an index: a large history, or a shape and how many of that shape came before.
fn turn_of(index: u64) -> (&'static str, usize) {
    if index % RARE == RARE / 2 {
        return ("large", 0);
    }
    let (turn, place) = ((index / ROUND as u64) as usize, (index % ROUND as u64) as usize);
    let shape = TURNS[place];
    let alike = |turns: &[&str]| turns.iter().filter(|other| **other == shape).count();
    (shape, turn * alike(&TURNS) + alike(&TURNS[..place]))
}

fn random_of(seed: u64, index: u64) -> Random {
    Random::for_file(seed ^ 0x0010_0010_0010_0010, index)
}

/// The history of this index in the run of this seed; of a pair the first.
pub fn history(seed: u64, index: u64) -> History {
    let (shape, turn) = turn_of(index);
    shaped(&mut random_of(seed, index), shape, turn)
}

/// The pair of histories of this index, where it has one.
pub fn pair(seed: u64, index: u64) -> Option<Pair> {
    (turn_of(index).0 == "apart").then(|| apart::pair(&mut random_of(seed, index)))
}

/// A history of this shape; where a shape has many targets, the turn chooses one.
pub fn shaped(random: &mut Random, shape: &str, turn: usize) -> History {
    match shape {
        "large" => grow::large(random),
        "head" => tamper::head(random, turn),
        "row" => tamper::row(random, turn),
        "owner" => tamper::owner(random, turn),
        "strange" => tamper::strange(random, turn),
        "behind" => tamper::behind(random, turn),
        "claim" => tamper::claim(random, turn),
        "sum" => tamper::sum(random, turn),
        "short" => tamper::short(random, turn),
        "full" => tamper::full(random, turn),
        "duplicate" => tamper::duplicate(random, turn),
        "no duplicate" => tamper::no_duplicate(random, turn),
        "find" => tamper::find(random, turn, Kind::Find),
        "not found" => tamper::not_found(random, turn, Kind::Find),
        "withdraw" => tamper::find(random, turn, Kind::Withdraw),
        "not withdrawn" => tamper::not_found(random, turn, Kind::Withdraw),
        "withdraw range" => tamper::withdraw_range(random, turn),
        "withdraw order" => tamper::withdraw_order(random, turn),
        "tidy" => tamper::tidy(random, turn),
        "gaps" => tamper::gaps(random, turn),
        "list claim" => tamper::list_claim(random, turn),
        "short list" => tamper::short_list(random, turn),
        "edges" => tamper::edges(random, turn),
        "totals" => tamper::totals(random, turn),
        "order" => tamper::order(random, turn),
        "again" => tamper::again(random, turn),
        "net" => tamper::net_off(random, turn),
        "range" => tamper::range(random, turn),
        "held" => tamper::held(random, turn),
        "refilled" => grow::refilled(random),
        "apart" => apart::pair(random).histories[0].clone(),
        _ => grow::grown(random),
    }
}

/// The long history of this index in the run of this seed: so many calls on an empty book.
pub fn long(seed: u64, index: u64, calls: usize) -> History {
    grow::long(&mut random_of(seed ^ 1 << 40, index), calls)
}
