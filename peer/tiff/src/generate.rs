//! The stream of images of one run: the seed and an image's index give the image.

use peer_reader::random::Random;

use crate::harm;
use crate::sheet::{lay, sound};

/// An image and the shape it was made in.
#[derive(Clone, Debug)]
pub struct Made {
    pub shape: &'static str,
    pub bytes: Vec<u8>,
}

/// Shapes by turn.
#[rustfmt::skip]
const TURNS: [&str; 48] = [
    "sound", "sound", "sound", "sound", "short", "header", "directory", "directory", "entries", "value edge", "value edge", "value edge",
    "value edge", "cut entry", "unknown type", "strip", "strip", "strip", "strip free", "doubled strip", "order", "order", "order", "crossing",
    "doubled", "absent", "kind", "kind", "kind", "count", "count", "value", "value", "value", "resolution", "resolution",
    "resolution", "shared", "pair", "pair", "several", "several", "next", "overlap", "over header", "flip", "flip", "flip",
];

/// The images of a round.
pub const ROUND: usize = TURNS.len();

/// Every shape once, but for that of large images, which come of a seed and an index alone.
pub fn shapes() -> Vec<&'static str> {
    let mut shapes = TURNS.to_vec();
    shapes.sort();
    shapes.dedup();
    shapes
}

/// One in so many images is a large one.
const RARE: u64 = 1_000;

/// The image of this index in the run of this seed.
pub fn image(seed: u64, index: u64) -> Made {
    let mut random = Random::for_file(seed ^ 0x0013_0013_0013_0013, index);
    if index % RARE == RARE / 2 {
        return large(&mut random, (index / RARE) as usize);
    }
    let (turn, place) = ((index / ROUND as u64) as usize, (index % ROUND as u64) as usize);
    let shape = TURNS[place];
    let alike = |turns: &[&str]| turns.iter().filter(|other| **other == shape).count();
    shaped(&mut random, shape, turn * alike(&TURNS) + alike(&TURNS[..place]))
}

/// An image of this shape; where a shape has many targets, the turn chooses one.
pub fn shaped(random: &mut Random, shape: &'static str, turn: usize) -> Made {
    let bytes = match shape {
        "short" => harm::short_image(random, turn),
        "header" => harm::header(random, turn),
        "directory" => harm::directory(random, turn),
        "entries" => harm::entry_count(random, turn),
        "value edge" => harm::value_edge(random, turn),
        "cut entry" => harm::cut_entry(random, turn),
        "unknown type" => harm::unknown_type(random, turn),
        "strip" => harm::strip(random, turn),
        "strip free" => harm::strip_free(random, turn),
        "doubled strip" => harm::doubled_strip(random, turn),
        "order" => harm::order(random, turn),
        "crossing" => harm::crossing(random, turn),
        "doubled" => harm::doubled(random, turn),
        "absent" => harm::absent(random, turn),
        "kind" => harm::kind(random, turn),
        "count" => harm::count(random, turn),
        "value" => harm::value(random, turn),
        "resolution" => harm::resolution(random, turn),
        "shared" => harm::shared(random, turn),
        "pair" => harm::pair(random, turn),
        "several" => harm::several(random, turn),
        "next" => harm::next(random, turn),
        "overlap" => harm::overlap(random, turn),
        "over header" => harm::over_header(random, [2, 3, 4, 5, 6, 7][turn % 6]),
        "flip" => harm::flip(random, turn),
        _ => {
            let plan = sound(random);
            lay(random, &plan).bytes
        }
    };
    Made { shape, bytes }
}

/// Images of some hundred thousand bytes.
fn large(random: &mut Random, turn: usize) -> Made {
    let bytes = match turn % 12 {
        0 => harm::many(random, 65_535),
        1 => harm::over_header(random, 0),
        2 => harm::over_header(random, 1),
        turn => harm::count_past_16_bits(random, turn - 3),
    };
    Made { shape: "large", bytes }
}
