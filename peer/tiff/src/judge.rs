//! One image judged as readings 48 and 49 say it, step by step. Sums and products are of 128 bits, which none of them comes near.

use std::fmt;

pub const ACCEPTED: u64 = 0;
pub const CUT: u64 = 3;
pub const TAGORDER: u64 = 18;
pub const TAGVALUE: u64 = 19;

pub const SHORT: u16 = 3;
pub const LONG: u16 = 4;
pub const RATIONAL: u16 = 5;

/// The tags of Table 1.
pub const REQUIRED: [u16; 9] = [256, 257, 259, 262, 273, 278, 279, 282, 283];

/// An answer, and what it rests on, for the coverage.
#[derive(Clone, Copy, Debug, PartialEq, Eq)]
pub struct Verdict {
    pub number: u64,
    pub tag: u16,
    pub why: Why,
}

impl fmt::Display for Verdict {
    fn fmt(&self, to: &mut fmt::Formatter) -> fmt::Result {
        write!(to, "number {} tag {} ({:?})", self.number, self.tag, self.why)
    }
}

#[derive(Clone, Copy, Debug, PartialEq, Eq, PartialOrd, Ord)]
pub enum Why {
    Sound,
    /// Fewer than 8 bytes.
    Short,
    Mark,
    FortyTwo,
    /// Outside the image: the count of the directory, the rest of it, the value of this entry, the strip.
    DirectoryCount,
    Directory,
    ValueOf(usize),
    Strip,
    Order,
    Absent,
    Type,
    Count,
    Value,
    Denominator,
    Ratio,
    /// 283: another ratio than that of 282, or the same offset.
    UnlikeX,
    SameOffset,
}

/// One entry of the directory.
#[derive(Clone, Copy, Debug, PartialEq, Eq)]
pub struct Entry {
    pub tag: u16,
    pub kind: u16,
    pub count: u32,
    pub value: [u8; 4],
}

impl Entry {
    /// The value as an offset, or as a LONG.
    pub fn long(&self) -> u32 {
        u32::from_le_bytes(self.value)
    }

    /// The one SHORT or LONG that the entry holds; a SHORT stands in the first two bytes.
    pub fn one_number(&self) -> Option<u32> {
        match (self.kind, self.count) {
            (SHORT, 1) => Some(u32::from(self.value[0]) + 256 * u32::from(self.value[1])),
            (LONG, 1) => Some(self.long()),
            _ => None,
        }
    }

    /// The bytes of the value, of a type of TIFF 6.0.
    pub fn bytes(&self) -> Option<u128> {
        Some(u128::from(self.count) * u128::from(type_size(self.kind)?))
    }
}

/// BYTE, ASCII, SHORT, LONG, RATIONAL, SBYTE, UNDEFINED, SSHORT, SLONG, SRATIONAL, FLOAT, DOUBLE.
pub fn type_size(kind: u16) -> Option<u32> {
    match kind {
        1 | 2 | 6 | 7 => Some(1),
        3 | 8 => Some(2),
        4 | 9 | 11 => Some(4),
        5 | 10 | 12 => Some(8),
        _ => None,
    }
}

fn short(image: &[u8], at: usize) -> u16 {
    u16::from_le_bytes([image[at], image[at + 1]])
}

fn long(image: &[u8], at: usize) -> u32 {
    u32::from_le_bytes([image[at], image[at + 1], image[at + 2], image[at + 3]])
}

/// The entries of the first directory, where it lies within the image.
pub fn entries(image: &[u8]) -> Result<Vec<Entry>, Why> {
    let length = image.len() as u128;
    let start = long(image, 4);
    if u128::from(start) + 2 > length {
        return Err(Why::DirectoryCount);
    }
    let start = start as usize;
    let count = short(image, start);
    if start as u128 + 2 + 12 * u128::from(count) + 4 > length {
        return Err(Why::Directory);
    }
    let entry = |index: usize| {
        let at = start + 2 + 12 * index;
        let value = [image[at + 8], image[at + 9], image[at + 10], image[at + 11]];
        Entry { tag: short(image, at), kind: short(image, at + 2), count: long(image, at + 4), value }
    };
    Ok((0..usize::from(count)).map(entry).collect())
}

/// The first entry with this tag.
pub fn first(entries: &[Entry], tag: u16) -> Option<&Entry> {
    entries.iter().find(|entry| entry.tag == tag)
}

/// The number and the tag.
pub fn judge(image: &[u8]) -> (u64, u64) {
    let verdict = examine(image);
    (verdict.number, u64::from(verdict.tag))
}

/// The same with what it rests on.
pub fn examine(image: &[u8]) -> Verdict {
    let refused = |number, tag, why| Verdict { number, tag, why };
    if image.len() < 8 {
        return refused(CUT, 0, Why::Short);
    }
    if image[0] != 0x49 || image[1] != 0x49 {
        return refused(TAGVALUE, 0, Why::Mark);
    }
    if image[2] != 42 || image[3] != 0 {
        return refused(TAGVALUE, 0, Why::FortyTwo);
    }
    let entries = match entries(image) {
        Ok(entries) => entries,
        Err(why) => return refused(CUT, 0, why),
    };
    if let Some(why) = outside(image, &entries) {
        return refused(CUT, 0, why);
    }
    if let Some(tag) = lowest_out_of_order(&entries) {
        return refused(TAGORDER, tag, Why::Order);
    }
    for tag in REQUIRED {
        if let Some(why) = wrong(image, &entries, tag) {
            return refused(TAGVALUE, tag, why);
        }
    }
    refused(ACCEPTED, 0, Why::Sound)
}

fn outside(image: &[u8], entries: &[Entry]) -> Option<Why> {
    let length = image.len() as u128;
    for (index, entry) in entries.iter().enumerate() {
        if let Some(bytes) = entry.bytes() {
            if bytes > 4 && u128::from(entry.long()) + bytes > length {
                return Some(Why::ValueOf(index));
            }
        }
    }
    let offset = first(entries, 273)?.one_number()?;
    let bytes = first(entries, 279)?.one_number()?;
    (u128::from(offset) + u128::from(bytes) > length).then_some(Why::Strip)
}

fn lowest_out_of_order(entries: &[Entry]) -> Option<u16> {
    let mut lowest = None;
    for index in 1..entries.len() {
        let tag = entries[index].tag;
        if tag <= entries[index - 1].tag && lowest.is_none_or(|lowest| tag < lowest) {
            lowest = Some(tag);
        }
    }
    lowest
}

/// What is wrong with a required tag, if anything. The values of 282 and 283 lie within the image by now.
fn wrong(image: &[u8], entries: &[Entry], tag: u16) -> Option<Why> {
    let Some(entry) = first(entries, tag) else { return Some(Why::Absent) };
    let kinds: &[u16] = match tag {
        259 | 262 => &[SHORT],
        282 | 283 => &[RATIONAL],
        _ => &[SHORT, LONG],
    };
    if !kinds.contains(&entry.kind) {
        return Some(Why::Type);
    }
    if entry.count != 1 {
        return Some(Why::Count);
    }
    let number = entry.one_number().unwrap_or(0);
    let right = match tag {
        256 | 257 => number != 0,
        259 => number == 4,
        262 => number == 0,
        278 => first(entries, 257).and_then(Entry::one_number) == Some(number),
        282 | 283 => return wrong_ratio(image, entries, entry),
        _ => true,
    };
    (!right).then_some(Why::Value)
}

fn wrong_ratio(image: &[u8], entries: &[Entry], entry: &Entry) -> Option<Why> {
    let parts = |entry: &Entry| {
        let at = entry.long() as usize;
        (u128::from(long(image, at)), u128::from(long(image, at + 4)))
    };
    let (above, below) = parts(entry);
    if below == 0 {
        return Some(Why::Denominator);
    }
    if above != 200 * below && above != 240 * below {
        return Some(Why::Ratio);
    }
    if entry.tag == 283 {
        // 282 has been found right before.
        let x = first(entries, 282)?;
        let (x_above, x_below) = parts(x);
        if above * x_below != x_above * below {
            return Some(Why::UnlikeX);
        }
        if entry.long() == x.long() {
            return Some(Why::SameOffset);
        }
    }
    None
}
