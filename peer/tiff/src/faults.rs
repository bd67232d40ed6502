//! A second opinion in another style: every rule is tried for itself on whatever can be read, all faults are put into one list, and the answer is
//! the fault that comes first in the order of request 13. Whether something lies within the image is asked by taking it out of the image.

use std::collections::BTreeMap;

/// The rules in the order in which they refuse.
#[derive(Clone, Copy, Debug, PartialEq, Eq, PartialOrd, Ord)]
pub enum Rule {
    EightBytes,
    Header,
    Inside,
    Order,
    Required,
}

impl Rule {
    fn number(self) -> u64 {
        match self {
            Rule::EightBytes | Rule::Inside => 3,
            Rule::Order => 18,
            Rule::Header | Rule::Required => 19,
        }
    }
}

/// A rule that is broken, and at which tag.
pub type Fault = (Rule, u64);

/// The number and the tag.
pub fn opinion(image: &[u8]) -> (u64, u64) {
    match faults(image).into_iter().min() {
        Some((rule, tag)) => (rule.number(), tag),
        None => (0, 0),
    }
}

/// So many bytes from here on, if the image has them all.
fn taken(image: &[u8], from: u64, bytes: u64) -> Option<&[u8]> {
    let from = usize::try_from(from).ok()?;
    let bytes = usize::try_from(bytes).ok()?;
    image.get(from..)?.get(..bytes)
}

/// A number, its lowest byte first.
fn number(bytes: &[u8]) -> u64 {
    bytes.iter().rev().fold(0, |number, byte| number << 8 | u64::from(*byte))
}

/// The sizes of types 1 to 12.
const SIZES: [u64; 12] = [1, 1, 2, 4, 8, 1, 1, 2, 4, 8, 4, 8];

/// Twelve bytes of the directory: tag, type, count, value.
#[derive(Clone, Copy)]
struct Line<'a>(&'a [u8]);

impl<'a> Line<'a> {
    fn tag(self) -> u64 {
        number(&self.0[..2])
    }

    fn kind(self) -> u64 {
        number(&self.0[2..4])
    }

    fn count(self) -> u64 {
        number(&self.0[4..8])
    }

    fn offset(self) -> u64 {
        number(&self.0[8..])
    }

    /// The bytes of the value, wherever they stand; no type of TIFF 6.0 gives an empty value. `None`: not within the image.
    fn value(self, image: &'a [u8]) -> Option<&'a [u8]> {
        let Some(size) = (self.kind() as usize).checked_sub(1).and_then(|place| SIZES.get(place)) else {
            return Some(&[]);
        };
        match size * self.count() {
            bytes @ 0..=4 => Some(&self.0[8..8 + bytes as usize]),
            bytes => taken(image, self.offset(), bytes),
        }
    }

    /// One value of one of these types, in its bytes.
    fn single(self, image: &'a [u8], kinds: &[u64]) -> Option<&'a [u8]> {
        (self.count() == 1 && kinds.contains(&self.kind())).then(|| self.value(image)).flatten()
    }
}

/// All faults that can be told, in no order. Where a directory is cut off, its whole entries are looked at all the same.
pub fn faults(image: &[u8]) -> Vec<Fault> {
    let mut found = Vec::new();
    let mut broken = |rule, tag, is: bool| found.extend(is.then_some((rule, tag)));

    broken(Rule::EightBytes, 0, taken(image, 0, 8).is_none());
    broken(Rule::Header, 0, !image.iter().zip([0x49, 0x49, 0x2A, 0x00]).all(|(is, shall)| *is == shall));
    let Some(start) = taken(image, 4, 4).map(number) else { return found };
    let count = taken(image, start, 2).map(number);
    let directory = count.and_then(|count| taken(image, start, 2 + 12 * count + 4));
    broken(Rule::Inside, 0, directory.is_none());

    let lines: Vec<Line> =
        (0..count.unwrap_or(0)).map_while(|index| taken(image, start + 2 + 12 * index, 12)).map(Line).collect();
    broken(Rule::Inside, 0, lines.iter().any(|line| line.value(image).is_none()));
    // Collected from the last to the first, so that the first of a tag stays.
    let firsts: BTreeMap<u64, Line> = lines.iter().rev().map(|line| (line.tag(), *line)).collect();
    let whole = |tag| firsts.get(&tag).and_then(|line| line.single(image, &[3, 4])).map(number);
    if let (Some(offset), Some(bytes)) = (whole(273), whole(279)) {
        broken(Rule::Inside, 0, taken(image, offset, bytes).is_none());
    }

    lines.windows(2).for_each(|pair| broken(Rule::Order, pair[1].tag(), pair[1].tag() <= pair[0].tag()));

    let only_short = |tag| firsts.get(&tag).and_then(|line| line.single(image, &[3])).map(number);
    let ratio = |tag| firsts.get(&tag).and_then(|line| line.single(image, &[5])).and_then(lowest_terms);
    let lawful = |ratio: Option<(u64, u64)>| matches!(ratio, Some((200 | 240, 1)));
    let offset = |tag| firsts.get(&tag).map(|line| line.offset());
    for tag in [256, 257] {
        broken(Rule::Required, tag, matches!(whole(tag), None | Some(0)));
    }
    broken(Rule::Required, 259, only_short(259) != Some(4));
    broken(Rule::Required, 262, only_short(262) != Some(0));
    for tag in [273, 279] {
        broken(Rule::Required, tag, whole(tag).is_none());
    }
    broken(Rule::Required, 278, whole(278).is_none() || (whole(257).is_some() && whole(278) != whole(257)));
    broken(Rule::Required, 282, !lawful(ratio(282)));
    let unlike = ratio(282).is_some() && (ratio(283) != ratio(282) || offset(283) == offset(282));
    broken(Rule::Required, 283, !lawful(ratio(283)) || unlike);
    found
}

/// Eight bytes as a ratio in its lowest terms; none over 0.
fn lowest_terms(bytes: &[u8]) -> Option<(u64, u64)> {
    let (above, below) = (number(&bytes[..4]), number(&bytes[4..]));
    let (mut divisor, mut rest) = (below, above);
    while rest != 0 {
        (divisor, rest) = (rest, divisor % rest);
    }
    (below != 0).then(|| (above / divisor, below / divisor))
}
