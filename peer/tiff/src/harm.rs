//! Damage, rule by rule and edge by edge, and sound images at the edges. The turn chooses the target.

use peer_reader::random::Random;

use crate::judge::{type_size, LONG, RATIONAL, REQUIRED, SHORT};
use crate::sheet::{extra, in_four, lay, lay_with_last, ratio, short, sound, spare_tag, whole};
use crate::sheet::{Laid, Part, Plan, Planned, Value};

pub fn at<T: Copy>(targets: &[T], turn: usize) -> T {
    targets[turn % targets.len()]
}

/// An offset that no image here reaches.
fn wild(random: &mut Random) -> u32 {
    random.pick(&[u32::MAX, u32::MAX - 1, 0x8000_0000, 0x7FFF_FFFF, 0x0200_0000])
}

/// Every length from 0 to 8, with the right header, with MM, with chance bytes.
pub fn short_image(random: &mut Random, turn: usize) -> Vec<u8> {
    let plan = sound(random);
    let mut bytes = lay(random, &plan).bytes;
    match turn / 9 % 3 {
        0 => {}
        1 => bytes[..4].copy_from_slice(b"MM\0\x2A"),
        _ => bytes[..8].fill_with(|| random.byte()),
    }
    bytes.truncate(turn % 9);
    bytes
}

pub fn header(random: &mut Random, turn: usize) -> Vec<u8> {
    let plan = sound(random);
    let mut laid = lay(random, &plan);
    let bytes = &mut laid.bytes;
    match turn % 10 {
        0 => bytes[0] = 0x4D,
        1 => bytes[1] = 0x4D,
        2 => bytes[..4].copy_from_slice(b"MM\0\x2A"),
        3 => bytes[2] = random.pick(&[0, 41, 43, 0x2B, 0xAA]),
        4 => bytes[3] = random.pick(&[1, 42, 128, 255]),
        5 => bytes[2..4].copy_from_slice(&[0, 42]),
        6 => bytes[0] ^= 1 << random.below(8),
        7 => bytes[1] ^= 1 << random.below(8),
        8 => bytes[..2].copy_from_slice(b"ii"),
        _ => bytes[2..4].fill_with(|| random.byte()),
    }
    if random.percent(30) {
        laid.set_offset(u32::MAX);
    }
    laid.bytes
}

/// The directory at and near the end, near 2^32, cut short by 1 to 16 bytes, and just within.
pub fn directory(random: &mut Random, turn: usize) -> Vec<u8> {
    let plan = sound(random);
    if turn.is_multiple_of(2) {
        let mut laid = lay_with_last(random, &plan, Some(Part::Directory));
        let missing = turn / 2 % 18;
        laid.bytes.truncate(laid.bytes.len() - missing);
        return laid.bytes;
    }
    let mut laid = lay(random, &plan);
    let length = laid.bytes.len() as u32;
    let low = [length - 1, length, length + 1, length + 2, length - 2, length - 6, length - 7, length - 5];
    let high = [0x8000_0000, 0xFFFF_FFFF, 0xFFFF_FFFE, 0xFFFF_FFFC, 0xFFFF_FFFA, 0xFFFF_FFF9, 0x7FFF_FFFF, 0x0200_0000];
    let offset = at(&[low, high].concat(), turn / 2);
    laid.set_offset(offset);
    // Where the count lies within: none, so that the next offset decides, or some.
    if offset <= length - 2 && random.percent(70) {
        let count = if random.percent(80) { [0, 0] } else { [1, 0] };
        laid.put(offset as usize, &count);
    }
    laid.bytes
}

/// Directories of no, one, all and too many entries.
pub fn entry_count(random: &mut Random, turn: usize) -> Vec<u8> {
    let mut plan = sound(random);
    match turn % 4 {
        0 => plan.entries.clear(),
        1 => {
            let kept = random.below(plan.entries.len());
            plan.entries = vec![plan.entries[kept].clone()];
        }
        2 => {
            let mut laid = lay(random, &plan);
            laid.put(laid.directory, &65_535u16.to_le_bytes());
            return laid.bytes;
        }
        _ => {
            let mut laid = lay_with_last(random, &plan, Some(Part::Directory));
            let count = laid.entries() as u16;
            let other = random.pick(&[count + 1, count - 1, 256 * count, count + 256]);
            laid.put(laid.directory, &other.to_le_bytes());
            return laid.bytes;
        }
    }
    lay(random, &plan).bytes
}

/// What is tried of each type's size.
pub const EDGES: usize = 10;

pub fn value_edge(random: &mut Random, turn: usize) -> Vec<u8> {
    let kind = (turn / EDGES % 12 + 1) as u16;
    let size = type_size(kind).expect("a type of TIFF 6.0");
    let mut plan = sound(random);
    let tag = spare_tag(random, &plan);
    let first_long = 4 / size + 1;
    let count = first_long + random.below(3) as u32;
    plan.put(extra(random, tag, kind, count));
    let mut laid = lay_with_last(random, &plan, Some(Part::ValueOf(tag)));
    let index = laid.find(tag);
    let (length, offset) = (laid.bytes.len() as u32, laid.value(index));
    match turn % EDGES {
        0 => {}
        1 if random.percent(50) => {
            laid.bytes.pop();
        }
        1 => laid.set_value(index, (offset + 1).to_le_bytes()),
        // The longest value that stands in the entry itself.
        2 => {
            laid.set_count(index, (4 / size).max(1));
            let four = if size > 4 { (length - 8).to_le_bytes() } else { wild(random).to_le_bytes() };
            laid.set_value(index, four);
        }
        3 => {
            laid.set_count(index, first_long);
            let past = [length - first_long * size + 1, length, length - 4, wild(random)];
            laid.set_value(index, random.pick(&past).to_le_bytes());
        }
        4 => {
            laid.set_count(index, 0);
            laid.set_value(index, wild(random).to_le_bytes());
        }
        // 2^32 bytes and up to four more, or so many that they seem to fit.
        5 if size > 1 => {
            let over = random.below((4 / size) as usize + 1) as u64;
            laid.set_count(index, ((1u64 << 32) / u64::from(size) + over) as u32);
            laid.set_value(index, random.pick(&[0, 8, length, u32::MAX]).to_le_bytes());
        }
        6 if size > 1 => {
            let times = random.between(1, size as usize - 1) as u64;
            let over = u64::from(first_long) + random.below(3) as u64;
            laid.set_count(index, (times * ((1u64 << 32) / u64::from(size)) + over) as u32);
            laid.set_value(index, 8u32.to_le_bytes());
        }
        // The end passes 2^32, by less than the image is long.
        5..=7 => {
            let bytes = size * count;
            let end = random.below(length as usize) as u32;
            laid.set_value(index, end.wrapping_sub(bytes).to_le_bytes());
            if end >= bytes {
                laid.set_value(index, 0u32.wrapping_sub(bytes).to_le_bytes());
            }
        }
        8 => laid.set_count(index, random.pick(&[u32::MAX, u32::MAX, u32::MAX - 1, 0x8000_0000])),
        // A value over the header, the directory or the strip.
        _ => {
            let bytes = size * count;
            let places = if random.percent(50) { 8 } else { (length - bytes) as usize + 1 };
            laid.set_value(index, (random.below(places) as u32).to_le_bytes());
        }
    }
    laid.bytes
}

/// The first, the last or any entry has its value outside.
pub fn cut_entry(random: &mut Random, turn: usize) -> Vec<u8> {
    let mut plan = sound(random);
    let tag = match turn % 3 {
        0 => 0,
        1 => 65_535,
        _ => random.between(284, 300) as u16,
    };
    plan.put(extra(random, tag, 7, 9));
    if turn % 3 == 2 {
        plan.put(extra(random, 60_000, 1, 1));
    }
    let mut laid = lay(random, &plan);
    let index = laid.find(tag);
    laid.set_value(index, (laid.bytes.len() as u32 - 8).to_le_bytes());
    laid.bytes
}

pub fn unknown_type(random: &mut Random, turn: usize) -> Vec<u8> {
    let mut plan = sound(random);
    let low = 256 * random.between(1, 255) as u16 + random.between(1, 12) as u16;
    let kind = at(&[0, 13, low, 65_535, 14, 256, 32_768], turn);
    let (tag, count) = (spare_tag(random, &plan), random.draw() as u32 | 8);
    plan.put(Planned { tag, kind, count, value: Value::Here(wild(random).to_le_bytes()) });
    lay(random, &plan).bytes
}

/// Strips at the edges, by the types of 273 and 279, and strips that are not judged.
pub fn strip(random: &mut Random, turn: usize) -> Vec<u8> {
    let mut plan = sound(random);
    let kinds = [(SHORT, SHORT), (SHORT, LONG), (LONG, SHORT), (LONG, LONG)];
    let (kind, bytes_kind) = at(&kinds, turn / 12);
    if plan.strip.is_empty() {
        plan.strip = vec![random.byte(); 3];
    }
    plan.entry(273).kind = kind;
    let four = in_four(random, bytes_kind, plan.strip.len() as u32);
    *plan.entry(279) = Planned { tag: 279, kind: bytes_kind, count: 1, value: Value::Here(four) };
    let mut laid = lay_with_last(random, &plan, Some(Part::Strip));
    let (offset, bytes) = (laid.find(273), laid.find(279));
    let length = laid.bytes.len() as u32;
    let strip = length - plan.strip.len() as u32;
    let mut set = |at: usize, kind: u16, number: u32| {
        laid.set_kind(at, kind);
        laid.set_value(at, in_four(random, kind, number));
    };
    match turn % 12 {
        0 => {}
        1 => set(offset, kind, strip + 1),
        2 => set(bytes, bytes_kind, length - strip + 1),
        // Past 2^32, by less than the image is long.
        3 => {
            set(offset, LONG, u32::MAX - 3);
            set(bytes, LONG, 8);
        }
        4 => {
            set(offset, kind, 8);
            set(bytes, LONG, u32::MAX - 7);
        }
        5 => set(bytes, bytes_kind, 0),
        6 => {
            set(offset, kind, length);
            set(bytes, bytes_kind, 0);
        }
        7 => {
            set(offset, kind, length + 1);
            set(bytes, bytes_kind, 0);
        }
        8 => set(offset, kind, 0),
        9 => {
            set(offset, kind, 0);
            set(bytes, bytes_kind, length);
        }
        10 => {
            set(offset, kind, 0);
            set(bytes, bytes_kind, length + 1);
        }
        _ => {
            set(offset, LONG, u32::MAX);
            set(bytes, LONG, u32::MAX);
        }
    }
    laid.bytes
}

/// 273 or 279 absent, of another type or count, the other anywhere: the strip is not judged.
pub fn strip_free(random: &mut Random, turn: usize) -> Vec<u8> {
    let mut plan = sound(random);
    let (tag, other) = at(&[(273, 279), (279, 273)], turn);
    let far = Value::Here(wild(random).to_le_bytes());
    *plan.entry(other) = Planned { tag: other, kind: LONG, count: 1, value: far.clone() };
    match turn / 2 % 4 {
        0 => plan.entries.retain(|entry| entry.tag != tag),
        1 => {
            let kind = random.pick(&[0, 9, 11, 13, 1, 2, 6, 7, 8]);
            *plan.entry(tag) = Planned { tag, kind, count: 1, value: far };
        }
        2 => *plan.entry(tag) = Planned { tag, kind: LONG, count: 0, value: far },
        // Two strips, a variance of Table 3.
        _ => *plan.entry(tag) = Planned { tag, kind: SHORT, count: 2, value: far },
    }
    lay(random, &plan).bytes
}

/// 273 or 279 twice: the first counts.
pub fn doubled_strip(random: &mut Random, turn: usize) -> Vec<u8> {
    let mut plan = sound(random);
    let tag = at(&[273, 279], turn);
    let far = Planned { tag, kind: LONG, count: 1, value: Value::Here(wild(random).to_le_bytes()) };
    let place = plan.entries.iter().position(|entry| entry.tag == tag).expect("sound plans have it");
    match turn / 2 % 4 {
        0 => plan.entries.insert(place, far),
        1 => plan.entries.insert(place + 1, far),
        2 => {
            plan.entries[place].kind = random.pick(&[0, 1, 9, 13]);
            plan.entries.insert(place + 1, far);
        }
        // Not side by side.
        _ => plan.entries.push(far),
    }
    lay(random, &plan).bytes
}

pub fn order(random: &mut Random, turn: usize) -> Vec<u8> {
    let mut plan = sound(random);
    let last = plan.entries.len() - 1;
    match turn % 10 {
        0 => {
            let place = random.below(last);
            plan.entries.swap(place, place + 1);
        }
        1 => plan.entries.swap(0, 1),
        2 => plan.entries.swap(last, last - 1),
        3 => plan.entries.reverse(),
        4 => (0..3).for_each(|_| plan.entries.swap(random.below(last + 1), random.below(last + 1))),
        5 => {
            let double = plan.entries[random.below(last + 1)].clone();
            plan.entries.insert(random.below(last + 2), double);
        }
        // Tags 0 and 65535 twice, 0 behind another, a tag one below that before it.
        6 => {
            let tag = random.pick(&[0, 65_535]);
            let one = extra(random, tag, 1, 1);
            plan.put(one.clone());
            let place = if tag == 0 { 0 } else { plan.entries.len() };
            plan.entries.insert(place, one);
        }
        7 => {
            let one = extra(random, 0, 3, 1);
            plan.entries.insert(random.between(1, last + 1), one);
        }
        8 => {
            let place = random.between(0, last);
            let below = plan.entries[place].tag.wrapping_sub(1);
            let one = extra(random, below, 3, 1);
            plan.entries.insert(place + 1, one);
        }
        _ => {
            for _ in 0..2 {
                let place = random.below(plan.entries.len());
                let double = plan.entries[place].clone();
                plan.entries.insert(place, double);
            }
        }
    }
    lay(random, &plan).bytes
}

/// Sound images whose tags cross 255 and 32767.
pub fn crossing(random: &mut Random, turn: usize) -> Vec<u8> {
    let mut plan = sound(random);
    let tags: &[u16] = at(&[&[255, 511, 512], &[32_767, 32_768], &[0, 1], &[65_534, 65_535]], turn);
    for tag in tags {
        let kind = random.between(0, 14) as u16;
        let one = extra(random, *tag, kind, 1);
        plan.put(one);
    }
    lay(random, &plan).bytes
}

/// A required tag twice; the second or the first may be wrong.
pub fn doubled(random: &mut Random, turn: usize) -> Vec<u8> {
    let mut plan = sound(random);
    let tag = at(&REQUIRED, turn);
    let place = plan.entries.iter().position(|entry| entry.tag == tag).expect("sound plans have it");
    let mut double = plan.entries[place].clone();
    if random.percent(50) {
        double.kind = 7;
        double.count = 1;
    }
    plan.entries.insert(place + random.below(2), double);
    lay(random, &plan).bytes
}

/// Tags that are absent.
pub fn absent(random: &mut Random, turn: usize) -> Vec<u8> {
    let mut plan = sound(random);
    let tag = at(&REQUIRED, turn);
    plan.entries.retain(|entry| entry.tag != tag);
    if random.percent(40) {
        // Another stands where it stood, or its neighbours are there already.
        let near = if random.percent(50) { tag + 1 } else { tag - 1 };
        if !REQUIRED.contains(&near) {
            let one = short(random, near, 4);
            plan.put(one);
        }
    }
    lay(random, &plan).bytes
}

/// The types a required tag may not have, 0 to 13 and higher bytes.
pub fn wrong_kinds(tag: u16) -> Vec<u16> {
    let lawful: &[u16] = match tag {
        259 | 262 => &[SHORT],
        282 | 283 => &[RATIONAL],
        _ => &[SHORT, LONG],
    };
    (0..=13).chain([256 + SHORT, 256 + LONG, 256 + RATIONAL]).filter(|kind| !lawful.contains(kind)).collect()
}

pub fn kind(random: &mut Random, turn: usize) -> Vec<u8> {
    let targets: Vec<(u16, u16)> =
        REQUIRED.into_iter().flat_map(|tag| wrong_kinds(tag).into_iter().map(move |kind| (tag, kind))).collect();
    let (tag, kind) = at(&targets, turn);
    let mut plan = sound(random);
    let entry = plan.entry(tag).clone();
    let long = type_size(kind).is_some_and(|size| size > 4);
    let value = match entry.value {
        Value::Here(four) if long => Value::Behind([four, [0; 4]].concat()),
        Value::Behind(_) if !long => Value::Here(200u32.to_le_bytes()),
        Value::Strip if long => Value::Behind(vec![8, 0, 0, 0, 1, 0, 0, 0]),
        value => value,
    };
    *plan.entry(tag) = Planned { tag, kind, count: 1, value };
    lay(random, &plan).bytes
}

pub const COUNTS: [u32; 4] = [0, 2, 257, 3];

pub fn count(random: &mut Random, turn: usize) -> Vec<u8> {
    let (tag, count) = (at(&REQUIRED, turn / COUNTS.len()), at(&COUNTS, turn));
    let mut plan = sound(random);
    counted(random, &mut plan, tag, count);
    lay(random, &plan).bytes
}

/// So many values, each as the one that stands there.
fn counted(random: &mut Random, plan: &mut Plan, tag: u16, count: u32) {
    let entry = plan.entry(tag).clone();
    let one = match &entry.value {
        Value::Here(four) => four.to_vec(),
        Value::Behind(bytes) => bytes.clone(),
        Value::Strip => vec![8, 0, 0, 0],
    };
    let size = type_size(entry.kind).expect("a lawful type") as usize;
    let bytes: Vec<u8> = one.iter().take(size).copied().cycle().take(size * count as usize).collect();
    let value = match bytes.len() {
        0 if random.percent(50) => Value::Here([200, 0, 0, 0]),
        0..=4 => {
            let mut four = [0; 4];
            four[..bytes.len()].copy_from_slice(&bytes);
            Value::Here(four)
        }
        _ => Value::Behind(bytes),
    };
    *plan.entry(tag) = Planned { tag, kind: entry.kind, count, value };
}

/// Wrong values of the tags that hold one number.
pub fn value(random: &mut Random, turn: usize) -> Vec<u8> {
    let mut plan = sound(random);
    let four = |tag, kind, number: u32| Planned { tag, kind, count: 1, value: Value::Here(number.to_le_bytes()) };
    let entry = match turn % 28 {
        0 => four(256, SHORT, 0),
        1 => four(256, SHORT, 0x0001_0000),
        2 => four(256, LONG, 0),
        3 => four(257, SHORT, 0),
        4 => four(257, SHORT, 0xFFFF_0000),
        5 => four(257, LONG, 0),
        6 => four(259, SHORT, 3),
        7 => four(259, SHORT, 5),
        8 => four(259, SHORT, 0),
        9 => four(259, SHORT, 0x0104),
        10 => four(259, SHORT, 0x0400),
        11 => four(259, SHORT, 0x0004_0000),
        12 => four(259, SHORT, 1),
        13 => four(262, SHORT, 1),
        14 => four(262, SHORT, 0x0100),
        15 => four(262, SHORT, 2),
        16 => four(262, SHORT, 0xFFFF),
        turn => return lines(random, plan, turn - 17),
    };
    *plan.entry(entry.tag) = entry.clone();
    if entry.tag == 257 && random.percent(50) {
        *plan.entry(278) = four(278, LONG, 0);
    }
    lay(random, &plan).bytes
}

/// 257 and 278: values that differ in one half, by one, or not at all, as SHORT and LONG.
fn lines(random: &mut Random, mut plan: Plan, turn: usize) -> Vec<u8> {
    let low = random.between(1, 65_534) as u32;
    let entry = |random: &mut Random, tag, kind, number| Planned {
        tag,
        kind,
        count: 1,
        value: Value::Here(in_four(random, kind, number)),
    };
    let ((kind, length), (rows_kind, rows)) = match turn {
        0 => ((SHORT, low), (SHORT, low)),
        1 => ((SHORT, low), (LONG, low)),
        2 => ((LONG, low), (SHORT, low)),
        3 => ((LONG, low), (LONG, low)),
        4 => ((SHORT, low), (SHORT, low + 1)),
        5 => ((LONG, low), (LONG, low - 1)),
        6 => ((LONG, 65_536 + low), (SHORT, low)),
        7 => ((SHORT, low), (LONG, 65_536 + low)),
        8 => ((LONG, low), (LONG, low ^ 0x8000_0000)),
        9 => ((SHORT, low), (SHORT, 0)),
        _ => ((LONG, 65_536), (LONG, 65_536)),
    };
    *plan.entry(257) = entry(random, 257, kind, length);
    *plan.entry(278) = entry(random, 278, rows_kind, rows);
    lay(random, &plan).bytes
}

/// Ratios of 282 and 283, wrong and right.
pub fn resolution(random: &mut Random, turn: usize) -> Vec<u8> {
    let mut plan = sound(random);
    let (tag, other) = at(&[(282, 283), (283, 282)], turn);
    *plan.entry(other) = ratio(other, 200, 1);
    let (above, below) = match turn / 2 % 22 {
        0 => (0, 0),
        1 => (200, 0),
        2 => (199, 1),
        3 => (201, 1),
        4 => (239, 1),
        5 => (241, 1),
        6 => (300, 1),
        7 => (0, 1),
        8 => (1, 200),
        9 => (401, 2),
        10 => (399, 2),
        // 200 and 240 times the denominator are these numbers but for multiples of 2^32.
        11 => (0, 0x2000_0000),
        12 => (200, 0x2000_0001),
        13 => (240, 0x1000_0001),
        14 => (u32::MAX, u32::MAX),
        15 => (200 * 21_474_836, 21_474_836),
        16 => (240 * 17_895_697, 17_895_697),
        17 => (240, 1),
        18 => (800, 4),
        19 => (65_736, 1),
        20 => (480, 2),
        _ => (200, 1),
    };
    *plan.entry(tag) = ratio(tag, above, below);
    lay(random, &plan).bytes
}

/// 283 at the offset of 282, or so near that the two overlap.
pub fn shared(random: &mut Random, turn: usize) -> Vec<u8> {
    let mut plan = sound(random);
    match turn % 3 {
        0 => {
            let mut laid = lay(random, &plan);
            let offset = laid.value(laid.find(282)).to_le_bytes();
            laid.set_value(laid.find(283), offset);
            laid.bytes
        }
        // 40000/200 and 200/1, or 57600/240 and 240/1, in twelve bytes.
        turn => {
            let dots = random.pick(&[200, 240]);
            let twelve: Vec<u8> = [dots * dots, dots, 1].into_iter().flat_map(u32::to_le_bytes).collect();
            *plan.entry(282) = Planned { tag: 282, kind: RATIONAL, count: 1, value: Value::Behind(twelve) };
            let mut laid = lay(random, &plan);
            let (x, y) = (laid.find(282), laid.find(283));
            let offset = laid.value(x);
            laid.set_value(y, (offset + 4).to_le_bytes());
            if turn == 2 {
                laid.set_value(x, (offset + 4).to_le_bytes());
                laid.set_value(y, offset.to_le_bytes());
            }
            laid.bytes
        }
    }
}

/// Makes a required tag wrong in some way that keeps everything inside.
fn spoil(random: &mut Random, plan: &mut Plan, tag: u16) {
    match random.below(3) {
        0 => plan.entries.retain(|entry| entry.tag != tag),
        1 => *plan.entry(tag) = Planned { tag, kind: 7, count: 1, value: Value::Here([1, 0, 0, 0]) },
        _ => counted(random, plan, tag, 2),
    }
}

/// Two required tags wrong, every pair by turn.
pub fn pair(random: &mut Random, turn: usize) -> Vec<u8> {
    let pairs: Vec<(u16, u16)> =
        (0..9).flat_map(|one| (one + 1..9).map(move |two| (REQUIRED[one], REQUIRED[two]))).collect();
    let (one, two) = at(&pairs, turn);
    let mut plan = sound(random);
    spoil(random, &mut plan, one);
    spoil(random, &mut plan, two);
    lay(random, &plan).bytes
}

/// Faults of several rules.
pub fn several(random: &mut Random, turn: usize) -> Vec<u8> {
    let mut plan = sound(random);
    let faults = at(&[0b0011, 0b0101, 0b0110, 0b1001, 0b1010, 0b1100, 0b1111, 0b0111, 0b1110], turn);
    if faults & 1 != 0 {
        let tag = random.pick(&REQUIRED);
        spoil(random, &mut plan, tag);
    }
    if faults & 2 != 0 {
        let last = plan.entries.len() - 1;
        let place = random.below(last);
        plan.entries.swap(place, place + 1);
    }
    let mut laid = lay(random, &plan);
    if faults & 4 != 0 {
        let index = random.below(laid.entries());
        laid.set_kind(index, 12);
        laid.set_count(index, u32::MAX);
    }
    if faults & 8 != 0 {
        let place = random.below(4);
        laid.bytes[place] ^= 4;
    }
    laid.bytes
}

/// Next offsets, and a further directory that would be refused.
pub fn next(random: &mut Random, turn: usize) -> Vec<u8> {
    let plan = sound(random);
    let mut laid = lay(random, &plan);
    let length = laid.bytes.len() as u32;
    let next = match turn % 5 {
        0 => 0,
        1 => laid.directory as u32,
        2 => u32::MAX,
        3 => length,
        _ => {
            // Two entries in no order, each with its value outside.
            laid.bytes.extend([2, 0]);
            laid.bytes.extend([0xFF; 28]);
            length
        }
    };
    laid.put(laid.at(laid.entries()), &next.to_le_bytes());
    laid.bytes
}

/// Parts over one another: the strip over all, values over the header and the directory.
pub fn overlap(random: &mut Random, turn: usize) -> Vec<u8> {
    let mut plan = sound(random);
    let (one, two) = (spare_tag(random, &plan), 60_001);
    plan.put(extra(random, one, 2, 9));
    plan.put(extra(random, two, 2, 9));
    let mut laid = lay(random, &plan);
    let length = laid.bytes.len() as u32;
    let (one, two) = (laid.find(one), laid.find(two));
    match turn % 4 {
        0 => {
            let (offset, bytes) = (laid.find(273), laid.find(279));
            laid.set_kind(bytes, LONG);
            laid.set_value(bytes, (length - laid.directory as u32).to_le_bytes());
            laid.set_kind(offset, LONG);
            laid.set_value(offset, (laid.directory as u32).to_le_bytes());
        }
        1 => laid.set_value(one, random.pick(&[0u32, 3]).to_le_bytes()),
        2 => laid.set_value(one, (laid.directory as u32).to_le_bytes()),
        _ => laid.set_value(two, laid.value(one).to_le_bytes()),
    }
    laid.bytes
}

/// The directory over the header, at each of its bytes, its count and first entry being what stands there. It is sound where it can be: at 2 the count is 42,
/// at 3 it is 768, at 7 a multiple of 256, at 0 18,761; at 4 it is 4, at 5 and 6 it is 0, and at 1 the first tag is 256 with type 0.
pub fn over_header(random: &mut Random, start: usize) -> Vec<u8> {
    let mut bytes = vec![0x49, 0x49, 42, 0, start as u8, 0, 0, 0];
    let high = random.between(1, 2) as u8;
    bytes.push(high);
    let count = usize::from(u16::from_le_bytes([bytes[start], bytes[start + 1]]));
    let first_tag = match start {
        0 => 42,
        1 => 256,
        2 => 2,
        7 => 20,
        _ => 0,
    };
    let plan = filled(random, count, first_tag);
    let mut table: Vec<u8> = vec![0; 2 + 12 * count + 4];
    let behind = (start + table.len()).max(bytes.len()) as u32;
    let mut values: Vec<u8> = Vec::new();
    for (index, entry) in plan.entries.iter().take(count).enumerate() {
        let mut kind = entry.kind;
        let four = match &entry.value {
            Value::Here(four) => *four,
            Value::Behind(value) => {
                let offset = behind + values.len() as u32;
                values.extend(value);
                offset.to_le_bytes()
            }
            Value::Strip => {
                kind = LONG;
                random.pick(&[0, 7, behind]).to_le_bytes()
            }
        };
        let at = 2 + 12 * index;
        table[at..at + 2].copy_from_slice(&entry.tag.to_le_bytes());
        table[at + 2..at + 4].copy_from_slice(&kind.to_le_bytes());
        table[at + 4..at + 8].copy_from_slice(&entry.count.to_le_bytes());
        table[at + 8..at + 12].copy_from_slice(&four);
    }
    // What the header already holds stays.
    let held = (bytes.len() - start).min(table.len());
    bytes.extend(&table[held..]);
    bytes.extend(values);
    bytes.extend(&plan.strip);
    bytes
}

/// The plan of so many entries from this tag on, the required ones among them where there is room.
fn filled(random: &mut Random, count: usize, first_tag: u16) -> Plan {
    let mut plan = sound(random);
    let bytes = whole(random, 279, plan.strip.len() as u32);
    plan.entries.retain(|entry| REQUIRED.contains(&entry.tag));
    *plan.entry(279) = bytes;
    let mut tags: Vec<u16> = REQUIRED.to_vec();
    if !tags.contains(&first_tag) {
        tags.push(first_tag);
        let one = extra(random, first_tag, 0, 0);
        plan.entries.push(one);
    }
    let step = ((65_535 - usize::from(first_tag)) / (count + 16)).max(1);
    let mut tag = first_tag;
    while plan.entries.len() < count && tag < 65_535 {
        tag = tag.saturating_add(step as u16);
        if !REQUIRED.contains(&tag) {
            let kind = random.pick(&[0, 1, 3, 4, 13]);
            let one = extra(random, tag, kind, 1);
            plan.entries.push(one);
        }
    }
    plan.sort();
    plan
}

/// A sound image whose directory has this many entries.
pub fn many(random: &mut Random, count: usize) -> Vec<u8> {
    let plan = filled(random, count, 0);
    lay(random, &plan).bytes
}

/// Counts whose low 16 bits are 1, in an image that has room for them.
pub fn count_past_16_bits(random: &mut Random, turn: usize) -> Vec<u8> {
    let mut plan = sound(random);
    counted(random, &mut plan, at(&REQUIRED, turn), 65_537);
    lay(random, &plan).bytes
}

/// Chance bytes and bits, a chance length.
pub fn flip(random: &mut Random, turn: usize) -> Vec<u8> {
    let plan = sound(random);
    let mut laid: Laid = lay(random, &plan);
    if turn.is_multiple_of(3) {
        laid.bytes.truncate(random.below(laid.bytes.len() + 1));
    }
    for _ in 0..random.between(0, 4) {
        if laid.bytes.is_empty() {
            break;
        }
        let place = random.below(laid.bytes.len());
        match turn % 2 {
            0 => laid.bytes[place] = random.byte(),
            _ => laid.bytes[place] ^= 1 << random.below(8),
        }
    }
    laid.bytes
}
