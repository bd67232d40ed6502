//! The mutator of the target `tiff`: by entry of the first directory, often with what is wrong made right again, one fault after the other, so that
//! the later rules are reached. An input is sixteen control bytes and an image.

use std::slice::{from_raw_parts, from_raw_parts_mut};

use peer_reader::random::Random;
use peer_tiff::generate::{shaped, shapes};
use peer_tiff::judge::{entries, examine, type_size, Entry, Why, LONG, RATIONAL, REQUIRED, SHORT};

use crate::mutate::{bytes, tried, Bytewise, CONTROL};

/// # Safety
/// `data` points to `max` bytes of which `size` are given.
#[no_mangle]
pub unsafe extern "C" fn peer_mutate_image(
    data: *mut u8,
    size: usize,
    max: usize,
    seed: u32,
    bytewise: Bytewise,
) -> usize {
    let given = from_raw_parts(data, size).to_vec();
    let mut random = Random::for_file(u64::from(seed), size as u64);
    match tried(|| mutated(&given, &mut random, bytewise)) {
        Some(made) if made.len() <= max && made != given => {
            from_raw_parts_mut(data, made.len()).copy_from_slice(&made);
            made.len()
        }
        _ => bytewise(data, size, max),
    }
}

/// # Safety
/// The pointers go with their lengths.
#[no_mangle]
pub unsafe extern "C" fn peer_cross_images(
    one: *const u8,
    one_size: usize,
    two: *const u8,
    two_size: usize,
    out: *mut u8,
    max: usize,
    seed: u32,
) -> usize {
    let (one, two) = (from_raw_parts(one, one_size).to_vec(), from_raw_parts(two, two_size).to_vec());
    let mut random = Random::for_file(u64::from(seed), one_size as u64);
    let made = tried(|| crossed(&one, &two, &mut random)).unwrap_or(one);
    let length = made.len().min(max);
    from_raw_parts_mut(out, length).copy_from_slice(&made[..length]);
    length
}

fn parts(input: &[u8]) -> (Vec<u8>, Vec<u8>) {
    let held = input.len().min(CONTROL);
    let mut control = input[..held].to_vec();
    control.resize(CONTROL, 0);
    (control, input[held..].to_vec())
}

fn mutated(given: &[u8], random: &mut Random, bytewise: Bytewise) -> Vec<u8> {
    let (mut control, mut image) = parts(given);
    if random.percent(20) {
        for _ in 0..random.between(1, 3) {
            control[random.below(CONTROL)] = random.byte();
        }
    }
    spare(&mut control, random);
    match random.below(100) {
        0..=11 => image = bytes(bytewise, &image, image.len() + 64),
        12..=19 => image = fresh(random),
        _ => {
            for _ in 0..random.pick(&[1, 1, 1, 2, 3]) {
                change(&mut image, random);
            }
        }
    }
    if random.percent(40) {
        repair(&mut image, random);
        if random.percent(60) {
            change(&mut image, random);
        }
    }
    if random.percent(6) {
        image.truncate(random.below(image.len() + 1));
    }
    [control, image].concat()
}

/// A long tail (control byte 6 is 5 modulo 64) and every beginning (8 is 1 modulo 32) are slow: most inputs lose them again.
fn spare(control: &mut [u8], random: &mut Random) {
    for (place, slow, modulus) in [(6, 5, 64), (8, 1, 32)] {
        if control[place] % modulus == slow && random.percent(85) {
            control[place] = 0;
        }
    }
}

/// An image of the generator, a large one aside.
fn fresh(random: &mut Random) -> Vec<u8> {
    let (shape, turn) = (random.pick(&shapes()), random.below(1_000_000));
    shaped(random, shape, turn).bytes
}

/// One change, of the header, of the directory as a whole, of an entry, of its value, or of the end.
fn change(image: &mut Vec<u8>, random: &mut Random) {
    let Some(mut lines) = directory(image) else {
        return restore(image, random);
    };
    let length = image.len() as u32;
    match random.below(20) {
        0 => image[random.clone().below(8)] ^= 1 << random.below(8),
        1 => set_offset(image, random.pick(&[0, 1, 7, length - 6, length - 5, length, u32::MAX, u32::MAX - 5])),
        2 => image.push(random.byte()),
        3 => drop(image.pop()),
        4 => move_directory(image, &lines, random),
        5..=8 => {
            change_lines(&mut lines, random);
            put_directory(image, &lines);
        }
        _ if lines.is_empty() => restore(image, random),
        9..=11 => change_value(image, &lines[random.below(lines.len())].clone(), random),
        _ => {
            let index = random.below(lines.len());
            change_entry(&mut lines, index, length, random);
            put_directory(image, &lines);
        }
    }
}

/// The entries, where header and directory can be read.
fn directory(image: &[u8]) -> Option<Vec<Entry>> {
    if image.len() < 8 {
        return None;
    }
    entries(image).ok()
}

/// A right header again, before what stands there or before an image of the generator.
fn restore(image: &mut Vec<u8>, random: &mut Random) {
    if image.len() < 8 || random.percent(60) {
        *image = fresh(random);
        return;
    }
    image[..4].copy_from_slice(b"II*\0");
    let place = random.below(image.len().min(65_536)) as u32;
    set_offset(image, random.pick(&[8, place, 8]));
}

fn set_offset(image: &mut [u8], offset: u32) {
    image[4..8].copy_from_slice(&offset.to_le_bytes());
}

fn start(image: &[u8]) -> usize {
    u32::from_le_bytes([image[4], image[5], image[6], image[7]]) as usize
}

fn laid(lines: &[Entry]) -> Vec<u8> {
    let mut laid = (lines.len() as u16).to_le_bytes().to_vec();
    for line in lines {
        laid.extend(line.tag.to_le_bytes());
        laid.extend(line.kind.to_le_bytes());
        laid.extend(line.count.to_le_bytes());
        laid.extend(line.value);
    }
    laid
}

/// These entries in the place of those that are there; at the image's end, where there are more of them now.
fn put_directory(image: &mut Vec<u8>, lines: &[Entry]) {
    let at = start(image);
    let before = 2 + 12 * usize::from(u16::from_le_bytes([image[at], image[at + 1]]));
    let next = image[at + before..at + before + 4].to_vec();
    let new = [laid(lines), next].concat();
    if new.len() <= before + 4 {
        image[at..at + new.len()].copy_from_slice(&new);
    } else if at >= 8 && at + before + 4 == image.len() {
        image.truncate(at);
        image.extend(new);
    } else {
        let end = image.len() as u32;
        set_offset(image, end);
        image.extend(new);
    }
}

/// The directory somewhere else: at the end, over what stands behind the header, with the image ending at it or a little before its end.
fn move_directory(image: &mut Vec<u8>, lines: &[Entry], random: &mut Random) {
    let new = [laid(lines), vec![0; 4]].concat();
    let place = if random.percent(70) { image.len() } else { random.between(0, image.len().min(40)) };
    image.resize(image.len().max(place + new.len()), 0);
    image[place..place + new.len()].copy_from_slice(&new);
    if place >= 8 || random.percent(50) {
        image[..4].copy_from_slice(b"II*\0");
        set_offset(image, place as u32);
    }
    if random.percent(40) {
        image.truncate((place + new.len()).saturating_sub(random.below(8)));
    }
}

/// Entries dropped, doubled, swapped, put in order, or one more of any tag.
fn change_lines(lines: &mut Vec<Entry>, random: &mut Random) {
    let (at, other) = (random.below(lines.len()), random.below(lines.len()));
    match random.below(7) {
        0 | 1 => lines.insert(random.below(lines.len() + 1), any_entry(random)),
        2 => lines.sort_by_key(|line| line.tag),
        _ if lines.is_empty() => lines.push(any_entry(random)),
        3 => drop(lines.remove(at)),
        4 => lines.insert(other, lines[at]),
        5 => lines.swap(at, other),
        _ => {
            let one = Entry { tag: lines[at].tag.wrapping_add(1), ..any_entry(random) };
            lines.insert(at + 1, one);
        }
    }
}

fn any_entry(random: &mut Random) -> Entry {
    Entry {
        tag: any_tag(random),
        kind: random.below(15) as u16,
        count: random.below(5) as u32,
        value: (random.below(400) as u32).to_le_bytes(),
    }
}

fn any_tag(random: &mut Random) -> u16 {
    match random.below(3) {
        0 => random.pick(&REQUIRED),
        1 => random.between(250, 300) as u16,
        _ => random.pick(&[0, 1, 255, 32_767, 32_768, 65_535, random.clone().draw() as u16]),
    }
}

/// One part of an entry: an edge of what it may be, or something near.
fn change_entry(lines: &mut [Entry], index: usize, length: u32, random: &mut Random) {
    let other = lines[random.below(lines.len())];
    let line = &mut lines[index];
    let bytes = line.bytes().map_or(0, |bytes| bytes as u32);
    let size = type_size(line.kind).unwrap_or(1);
    match random.below(16) {
        0 => line.tag = any_tag(random),
        1 => line.tag = line.tag.wrapping_add(random.below(5) as u16).wrapping_sub(2),
        2 => line.tag = other.tag,
        3 | 4 => line.kind = random.below(15) as u16,
        5 => line.kind = random.pick(&[SHORT, LONG, RATIONAL, SHORT + 256, 65_535]),
        6 => line.count = random.pick(&[0, 1, 2, 4 / size, 4 / size + 1, 65_537, u32::MAX]),
        7 => line.count = (u64::from(random.draw() as u8) * ((1 << 32) / u64::from(size)) + 1) as u32,
        8 => line.count = line.count.wrapping_add(random.below(5) as u32).wrapping_sub(2),
        9 => line.value = other.value,
        10 => {
            line.value = length.wrapping_sub(bytes).wrapping_add(random.below(3) as u32).wrapping_sub(1).to_le_bytes()
        }
        11 => line.value = 0u32.wrapping_sub(bytes).wrapping_add(random.below(20) as u32).to_le_bytes(),
        12 => line.value = line.long().wrapping_add(random.below(5) as u32).wrapping_sub(2).to_le_bytes(),
        13 => line.value[2 + random.below(2)] = random.byte(),
        14 => line.value = random.pick(&[0u32, 1, 4, 8, length, length + 1, u32::MAX]).to_le_bytes(),
        _ => line.value = (random.draw() as u32 >> random.below(32)).to_le_bytes(),
    }
}

/// The bytes that an entry points at; of 282 and 283 a ratio.
fn change_value(image: &mut [u8], line: &Entry, random: &mut Random) {
    let at = line.long() as usize;
    let Some(place) = image.get_mut(at..at + 8) else { return };
    let dots = random.pick(&[200u32, 240, 200, 240, 199, 201, 0, 300]);
    let below = random.pick(&[1, 1, 0, 4, u32::MAX / 240, random.clone().draw() as u32 % 17_000_000]);
    place[..4].copy_from_slice(&dots.wrapping_mul(below).to_le_bytes());
    place[4..].copy_from_slice(&below.to_le_bytes());
    if random.percent(20) {
        place[random.clone().below(8)] ^= 1 << random.below(8);
    }
}

/// Makes right what the judge finds wrong, up to a chance number of times: most often everything.
fn repair(image: &mut Vec<u8>, random: &mut Random) {
    for _ in 0..random.pick(&[1, 2, 5, 30, 30, 30]) {
        let verdict = examine(image);
        let Some(mut lines) = directory(image) else {
            return restore(image, random);
        };
        match verdict.why {
            Why::Sound => return,
            Why::Mark | Why::FortyTwo => image[..4].copy_from_slice(b"II*\0"),
            Why::ValueOf(index) => {
                lines[index].count = 1;
                lines[index].value = 0u32.to_le_bytes();
                put_directory(image, &lines);
            }
            Why::Strip => {
                lines.iter_mut().filter(|line| matches!(line.tag, 273 | 279)).for_each(|line| line.value = [0; 4]);
                put_directory(image, &lines);
            }
            Why::Order => {
                lines.sort_by_key(|line| line.tag);
                lines.dedup_by_key(|line| line.tag);
                put_directory(image, &lines);
            }
            _ => {
                let right = right_entry(image, &lines, verdict.tag, random);
                lines.retain(|line| line.tag != verdict.tag);
                lines.push(right);
                lines.sort_by_key(|line| line.tag);
                put_directory(image, &lines);
            }
        }
    }
}

/// A required entry as it is to be; the ratios are put behind the image.
fn right_entry(image: &mut Vec<u8>, lines: &[Entry], tag: u16, random: &mut Random) -> Entry {
    let one = |kind: u16, number: u32| Entry { tag, kind, count: 1, value: number.to_le_bytes() };
    let found = |tag: u16| lines.iter().find(|line| line.tag == tag);
    let whole = random.pick(&[SHORT, LONG]);
    match tag {
        256 | 257 => one(whole, random.between(1, 3_000) as u32),
        259 => one(SHORT, 4),
        278 => one(LONG, found(257).and_then(Entry::one_number).unwrap_or(1)),
        282 | 283 => {
            let same = found(282).and_then(|line| image.get(line.long() as usize..)?.get(..8)).map(<[u8]>::to_vec);
            let ratio = match (tag, same) {
                (283, Some(same)) => same,
                _ => [random.pick(&[200u32, 240]).to_le_bytes(), 1u32.to_le_bytes()].concat(),
            };
            let at = image.len() as u32;
            image.extend(ratio);
            one(RATIONAL, at)
        }
        _ => one(whole, 0),
    }
}

/// One image with some entries of another, whose values come behind its own.
fn crossed(one: &[u8], two: &[u8], random: &mut Random) -> Vec<u8> {
    let ((control, mut image), (_, other)) = (parts(one), parts(two));
    let (Some(mut lines), Some(others)) = (directory(&image), directory(&other)) else {
        return [control, other].concat();
    };
    for _ in 0..random.between(1, 4) {
        if others.is_empty() {
            break;
        }
        let mut taken = others[random.below(others.len())];
        if let Some(value) = value_of(&other, &taken) {
            taken.value = (image.len() as u32).to_le_bytes();
            image.extend(value);
        }
        lines.retain(|line| line.tag != taken.tag || random.percent(10));
        let place = lines.iter().position(|line| line.tag > taken.tag).unwrap_or(lines.len());
        lines.insert(place, taken);
    }
    put_directory(&mut image, &lines);
    [control, image].concat()
}

/// The bytes of a value that does not stand in its entry, if it is a short one within the image.
fn value_of<'a>(image: &'a [u8], line: &Entry) -> Option<&'a [u8]> {
    let bytes = line.bytes().filter(|bytes| (5..=1_000).contains(bytes))?;
    image.get(line.long() as usize..)?.get(..bytes as usize)
}
