//! An image as a plan (entries, strip, next offset), and the plan laid out as bytes.

use peer_reader::random::Random;

use crate::judge::{type_size, LONG, RATIONAL, REQUIRED, SHORT};

/// What an entry's four value bytes are to hold.
#[derive(Clone, Debug, PartialEq, Eq)]
pub enum Value {
    /// These.
    Here([u8; 4]),
    /// The offset of these bytes, which are laid out somewhere.
    Behind(Vec<u8>),
    /// The offset of the strip, as a SHORT or a LONG.
    Strip,
}

#[derive(Clone, Debug, PartialEq, Eq)]
pub struct Planned {
    pub tag: u16,
    pub kind: u16,
    pub count: u32,
    pub value: Value,
}

#[derive(Clone, Debug)]
pub struct Plan {
    pub entries: Vec<Planned>,
    pub strip: Vec<u8>,
    pub next: u32,
}

impl Plan {
    /// The first entry with the tag.
    pub fn entry(&mut self, tag: u16) -> &mut Planned {
        self.entries.iter_mut().find(|entry| entry.tag == tag).expect("the plan has the tag")
    }

    pub fn sort(&mut self) {
        self.entries.sort_by_key(|entry| entry.tag);
    }

    /// Puts an entry where its tag belongs, in the place of any of that tag.
    pub fn put(&mut self, entry: Planned) {
        self.entries.retain(|other| other.tag != entry.tag);
        self.entries.push(entry);
        self.sort();
    }
}

/// A whole number as a SHORT, often with something in the two bytes behind it, or as a LONG.
pub fn whole(random: &mut Random, tag: u16, number: u32) -> Planned {
    let kind = if number < 65_536 && random.percent(50) { SHORT } else { LONG };
    Planned { tag, kind, count: 1, value: Value::Here(in_four(random, kind, number)) }
}

/// Four value bytes with this number as this type.
pub fn in_four(random: &mut Random, kind: u16, number: u32) -> [u8; 4] {
    let mut four = number.to_le_bytes();
    if kind == SHORT && random.percent(50) {
        (four[2], four[3]) = (random.byte(), random.byte());
    }
    four
}

/// A SHORT.
pub fn short(random: &mut Random, tag: u16, number: u16) -> Planned {
    Planned { tag, kind: SHORT, count: 1, value: Value::Here(in_four(random, SHORT, u32::from(number))) }
}

pub fn ratio(tag: u16, above: u32, below: u32) -> Planned {
    let bytes = [above.to_le_bytes(), below.to_le_bytes()].concat();
    Planned { tag, kind: RATIONAL, count: 1, value: Value::Behind(bytes) }
}

/// Table 2 with its defaults.
const OPTIONAL: [(u16, u16); 8] = [(254, 0), (258, 1), (263, 1), (266, 1), (274, 1), (277, 1), (293, 0), (296, 2)];

/// The plan of a sound image.
pub fn sound(random: &mut Random) -> Plan {
    let lines = random.pick(&[1, 1100, 65_535, 65_536, 131_072, u32::MAX, random.clone().draw() as u32 | 1]);
    let width = random.pick(&[1, 1700, 65_535, 65_536, u32::MAX, random.clone().draw() as u32 | 1]);
    let dots = random.pick(&[200u32, 240]);
    let below = |random: &mut Random| {
        let top = u32::MAX / dots;
        random.pick(&[1, 1, 4, top, 1 + random.clone().below(top as usize) as u32])
    };
    let (x, y) = (below(random), below(random));
    let y = if random.percent(50) { x } else { y };
    let strip: Vec<u8> = (0..random.below(40)).map(|_| random.byte()).collect();
    let strip_kind = random.pick(&[SHORT, LONG]);
    let mut entries = vec![
        whole(random, 256, width),
        whole(random, 257, lines),
        short(random, 259, 4),
        short(random, 262, 0),
        Planned { tag: 273, kind: strip_kind, count: 1, value: Value::Strip },
        whole(random, 278, lines),
        whole(random, 279, strip.len() as u32),
        ratio(282, dots * x, x),
        ratio(283, dots * y, y),
    ];
    for (tag, default) in OPTIONAL {
        if random.percent(30) {
            let number = if random.percent(80) { default } else { random.draw() as u16 };
            entries.push(short(random, tag, number));
        }
    }
    let mut plan = Plan { entries, strip, next: 0 };
    if random.percent(30) {
        plan.next = random.draw() as u32;
    }
    for _ in 0..random.below(5) {
        let tag = spare_tag(random, &plan);
        let kind = random.pick(&[1, 2, 3, 4, 5, 6, 7, 8, 9, 10, 11, 12, 0, 13, 65_535]);
        let count = random.below(9) as u32;
        let extra = extra(random, tag, kind, count);
        plan.put(extra);
    }
    plan.sort();
    plan
}

/// A tag that is not required and not in the plan.
pub fn spare_tag(random: &mut Random, plan: &Plan) -> u16 {
    loop {
        let tag = match random.below(4) {
            0 => random.pick(&[0, 1, 254, 255, 258, 270, 305, 32_767, 32_768, 65_534, 65_535]),
            1 => random.between(250, 300) as u16,
            _ => random.draw() as u16,
        };
        if !REQUIRED.contains(&tag) && plan.entries.iter().all(|entry| entry.tag != tag) {
            return tag;
        }
    }
}

/// An entry with chance bytes as its value.
pub fn extra(random: &mut Random, tag: u16, kind: u16, count: u32) -> Planned {
    let bytes = type_size(kind).map_or(0, |size| size as usize * count as usize);
    let value = match bytes {
        0..=4 => Value::Here((random.draw() as u32).to_le_bytes()),
        _ => Value::Behind((0..bytes).map(|_| random.byte()).collect()),
    };
    Planned { tag, kind, count, value }
}

/// What is laid out one after another.
#[derive(Clone, Copy, Debug, PartialEq, Eq)]
pub enum Part {
    Directory,
    /// The value of the first entry with this tag.
    ValueOf(u16),
    Strip,
}

/// An image with its directory's place.
#[derive(Clone, Debug)]
pub struct Laid {
    pub bytes: Vec<u8>,
    pub directory: usize,
}

/// Lays a plan out, its parts in any order with gaps, chance bytes behind them all.
pub fn lay(random: &mut Random, plan: &Plan) -> Laid {
    lay_with_last(random, plan, None)
}

/// The same; the part that is named comes last, and the image ends with it.
pub fn lay_with_last(random: &mut Random, plan: &Plan, last: Option<Part>) -> Laid {
    let mut parts = vec![(Part::Directory, usize::MAX), (Part::Strip, usize::MAX)];
    for (index, entry) in plan.entries.iter().enumerate() {
        if let Value::Behind(_) = entry.value {
            parts.push((Part::ValueOf(entry.tag), index));
        }
    }
    for place in (1..parts.len()).rev() {
        parts.swap(place, random.below(place + 1));
    }
    if let Some(place) = parts.iter().position(|(part, _)| Some(*part) == last) {
        let part = parts.remove(place);
        parts.push(part);
    }
    let loose = random.percent(60);
    let mut bytes = vec![0; 8];
    let (mut directory, mut strip, mut starts) = (8, 8, vec![0; plan.entries.len()]);
    for (part, index) in parts {
        let gap = if loose { random.below(4) } else { 0 };
        (0..gap).for_each(|_| bytes.push(random.byte()));
        let start = bytes.len();
        match part {
            Part::Directory => {
                directory = start;
                bytes.resize(start + 2 + 12 * plan.entries.len() + 4, 0);
            }
            Part::Strip => {
                strip = start;
                bytes.extend(&plan.strip);
            }
            Part::ValueOf(_) => {
                starts[index] = start;
                let Value::Behind(value) = &plan.entries[index].value else { continue };
                bytes.extend(value);
            }
        }
    }
    if last.is_none() && loose {
        (0..random.below(12)).for_each(|_| bytes.push(random.byte()));
    }
    bytes[..4].copy_from_slice(&[0x49, 0x49, 42, 0]);
    bytes[4..8].copy_from_slice(&(directory as u32).to_le_bytes());
    let mut laid = Laid { bytes, directory };
    laid.put(directory, &(plan.entries.len() as u16).to_le_bytes());
    for (index, entry) in plan.entries.iter().enumerate() {
        let wide = entry.value == Value::Strip && entry.kind == SHORT && strip > 65_535;
        let kind = if wide { LONG } else { entry.kind };
        let value = match &entry.value {
            Value::Here(four) => *four,
            Value::Behind(_) => (starts[index] as u32).to_le_bytes(),
            Value::Strip => in_four(random, kind, strip as u32),
        };
        laid.set_tag(index, entry.tag);
        laid.set_kind(index, kind);
        laid.set_count(index, entry.count);
        laid.set_value(index, value);
    }
    let next = directory + 2 + 12 * plan.entries.len();
    laid.put(next, &plan.next.to_le_bytes());
    laid
}

impl Laid {
    pub fn put(&mut self, at: usize, bytes: &[u8]) {
        self.bytes[at..at + bytes.len()].copy_from_slice(bytes);
    }

    pub fn entries(&self) -> usize {
        usize::from(u16::from_le_bytes([self.bytes[self.directory], self.bytes[self.directory + 1]]))
    }

    /// Where an entry begins.
    pub fn at(&self, index: usize) -> usize {
        self.directory + 2 + 12 * index
    }

    /// Which entry is the first with the tag.
    pub fn find(&self, tag: u16) -> usize {
        let has = |index: &usize| self.bytes[self.at(*index)..][..2] == tag.to_le_bytes();
        (0..self.entries()).find(has).expect("the image has the tag")
    }

    pub fn set_tag(&mut self, index: usize, tag: u16) {
        self.put(self.at(index), &tag.to_le_bytes());
    }

    pub fn set_kind(&mut self, index: usize, kind: u16) {
        self.put(self.at(index) + 2, &kind.to_le_bytes());
    }

    pub fn set_count(&mut self, index: usize, count: u32) {
        self.put(self.at(index) + 4, &count.to_le_bytes());
    }

    pub fn set_value(&mut self, index: usize, value: [u8; 4]) {
        self.put(self.at(index) + 8, &value);
    }

    pub fn value(&self, index: usize) -> u32 {
        let at = self.at(index) + 8;
        u32::from_le_bytes([self.bytes[at], self.bytes[at + 1], self.bytes[at + 2], self.bytes[at + 3]])
    }

    pub fn set_offset(&mut self, offset: u32) {
        self.put(4, &offset.to_le_bytes());
    }
}
