//! The plain words of a refusal by the tags of a picture. The proved library says what is wrong; this module looks at the picture's own bytes to say
//! what stands there, and at `tag` for what is asked. It decides nothing, and any bytes will do.

use crate::character_set::CharacterSet;
use crate::directory::{Directory, TagEntry, COUNT, HEADER};
use crate::refusal::Number;
use crate::shown::{counted, shown};
use crate::tag::Tag;
use crate::tag_fault::{TagFault, Words};

/// The refusal that the call on a picture's tags answered.
pub(crate) fn fault(image: &[u8], number: Number, tag: u64) -> TagFault {
    let words = match (number, tag) {
        (Number::CUT, _) => outside(image),
        (Number::TAGORDER, _) => out_of_order(image, tag),
        (Number::TAGVALUE, 0) => header(image),
        _ => required(image, tag),
    };
    TagFault { number, tag, words: Box::new(words) }
}

/// The first of the parts that do not lie within the picture, in the order in which one leads to the other.
fn outside(image: &[u8]) -> Words {
    let Some(directory) = Directory::of(image) else { return no_header(image) };
    let part = directory_outside(image, &directory)
        .or_else(|| value_outside(image, &directory))
        .or_else(|| strip_outside(image, &directory));
    part.unwrap_or_else(|| Words { place: "the picture".to_string(), ..Words::default() })
}

fn no_header(image: &[u8]) -> Words {
    let found = match image.len() {
        0 => "0 bytes: there is no picture".to_string(),
        length => counted(length as u64, "byte"),
    };
    let asked = Some(format!("{HEADER} bytes"));
    Words { place: "the header".to_string(), found: Some(found), asked }
}

fn directory_outside(image: &[u8], directory: &Directory<'_>) -> Option<Words> {
    let (what, end) = match (directory.count, directory.end()) {
        (Some(count), Some(end)) => (format!("{} and the next offset", counted_entries(count)), end),
        _ => ("its count of entries".to_string(), directory.offset + COUNT),
    };
    let found = format!("{what}, at offset {} by the header", directory.offset);
    cut_off(image, "the directory".to_string(), found, end)
}

fn value_outside(image: &[u8], directory: &Directory<'_>) -> Option<Words> {
    directory.entries().find_map(|entry| cut_off(image, place_of(directory, &entry), held(&entry), entry.value_end()?))
}

/// The strip, where StripOffsets and StripByteCounts each tell one number.
fn strip_outside(image: &[u8], directory: &Directory<'_>) -> Option<Words> {
    let [offsets, byte_counts] = [273, 279].map(|tag| (Tag::spoken(tag), directory.first(tag)));
    let (offset, bytes) = (offsets.1?.one_number()?, byte_counts.1?.one_number()?);
    let found = format!("{} ({}) at offset {offset} ({})", counted(bytes, "byte"), byte_counts.0, offsets.0);
    cut_off(image, "the strip".to_string(), found, offset + bytes)
}

/// The words of a part that ends behind the picture; `None` of any other.
fn cut_off(image: &[u8], place: String, found: String, end: u64) -> Option<Words> {
    let length = image.len() as u64;
    let asked = format!("all of it within the picture, which has {}", counted(length, "byte"));
    let words = Words { place, found: Some(format!("{found}, up to offset {end}")), asked: Some(asked) };
    (end > length).then_some(words)
}

/// The byte order mark (clause 9.3), or the number behind it.
fn header(image: &[u8]) -> Words {
    let bytes = |from: usize| image.get(from..from + 2).unwrap_or_default();
    let (place, found, asked) = match bytes(0) {
        b"II" => {
            let number = bytes(2).first_chunk().map(|bytes| u16::from_le_bytes(*bytes));
            ("the number behind the byte order mark, at offset 2", number.map(|number| number.to_string()), "42")
        }
        mark => {
            let asked = "\"II\" (the least significant byte first)";
            ("the byte order mark, at offset 0", Some(shown(CharacterSet::Ascii, mark)), asked)
        }
    };
    Words { place: format!("{place} of the picture"), found, asked: Some(asked.to_string()) }
}

/// The first entry with the tag that does not stand above the entry before it.
fn out_of_order(image: &[u8], tag: u64) -> Words {
    let asked = Some("entries in ascending order of their tags, no tag twice".to_string());
    let Some(directory) = Directory::of(image) else { return Words { place: Tag::spoken(tag), found: None, asked } };
    let mut pairs = directory.entries().zip(directory.entries().skip(1));
    match pairs.find(|(before, entry)| entry.tag == tag && entry.tag <= before.tag) {
        Some((before, entry)) => {
            let behind = format!("it behind {}", Tag::spoken(before.tag));
            Words { place: place_of(&directory, &entry), found: Some(behind), asked }
        }
        None => Words { place: Tag::spoken(tag), found: None, asked },
    }
}

/// The first entry with a required tag, or that there is none.
fn required(image: &[u8], tag: u64) -> Words {
    let directory = Directory::of(image);
    let asked = asked(directory.as_ref(), tag);
    let Some(directory) = directory else { return Words { place: Tag::spoken(tag), found: None, asked } };
    match directory.first(tag) {
        Some(entry) => Words { place: place_of(&directory, &entry), found: Some(held(&entry)), asked },
        None => {
            let found = format!("no entry with this tag among {}", directory.count.unwrap_or(0));
            Words { place: Tag::spoken(tag), found: Some(found), asked }
        }
    }
}

/// What Table 1 asks of a tag. Where that is the value of another tag, what that one holds is told besides.
fn asked(directory: Option<&Directory<'_>>, tag: u64) -> Option<String> {
    let asked = Tag::of(tag)?.asked?;
    let other = match tag {
        278 => directory.and_then(|directory| directory.first(257)),
        283 => directory.and_then(|directory| directory.first(282)),
        _ => None,
    };
    Some(match other {
        Some(other) => format!("{asked} (tag {} has {})", other.tag, value_of(&other)),
        None => asked.to_string(),
    })
}

/// Where an entry stands.
fn place_of(directory: &Directory<'_>, entry: &TagEntry<'_>) -> String {
    let (ordinal, count, offset) = (entry.ordinal, directory.count.unwrap_or(0), entry.offset);
    format!("{}, entry {ordinal} of {count}, at offset {offset} of the picture", Tag::spoken(entry.tag))
}

/// What an entry holds: type, count and value.
fn held(entry: &TagEntry<'_>) -> String {
    let name = match entry.type_name() {
        Some(name) => name.to_string(),
        None => format!("type {}, which TIFF 6.0 does not have", entry.type_number),
    };
    format!("{name}, count {}, {}", entry.count, value_of(entry))
}

fn value_of(entry: &TagEntry<'_>) -> String {
    let offset = entry.value_offset();
    if let Some((above, below)) = entry.one_ratio() {
        return format!("value {above}/{below} at offset {offset}");
    }
    let in_four = |length: u64| entry.four.get(..usize::try_from(length).ok()?);
    match (entry.value_length(), entry.numbers()) {
        (Some(0), _) => "no value".to_string(),
        (_, Some(numbers)) => {
            let numbers: Vec<String> = numbers.iter().map(i64::to_string).collect();
            format!("value {}", numbers.join(" "))
        }
        (length, None) => match in_four(length.unwrap_or(4)) {
            Some(bytes) => format!("value {}", shown(CharacterSet::Ascii, bytes)),
            None => format!("value of {} at offset {offset}", counted(length.unwrap_or(0), "byte")),
        },
    }
}

fn counted_entries(count: u64) -> String {
    match count {
        1 => "1 entry".to_string(),
        _ => format!("{count} entries"),
    }
}

#[cfg(test)]
mod tests {
    use super::*;

    /// The words never panic and always name the place, also where the answer is not one that the library gives of these bytes.
    #[test]
    fn any_answer_about_any_bytes() {
        let sound = peer_reader::pictures::tiff(&[1, 1, 1, 1]);
        let cut = (0..sound.len()).map(|length| sound[..length].to_vec());
        let made = (0..400).map(|index| peer_tiff::generate::image(1, index).bytes);
        let of_one_byte = [0, 1, 8, 0x49, 0x80, 0xFF].map(|byte| vec![byte; 200]);
        let tags = [0, 255, 256, 257, 259, 262, 273, 278, 279, 282, 283, 305, 32_768, u64::MAX];
        let answers = tags.map(|tag| [0, 3, 18, 19, u64::MAX].map(|number| (number, tag))).concat();
        for image in cut.chain(made).chain(of_one_byte) {
            for (number, tag) in &answers {
                let fault = fault(&image, Number(*number), *tag);
                assert!(!fault.words.place.is_empty());
                assert_eq!(fault.to_string(), format!("{fault:#}").replace('\n', "; "));
            }
        }
    }

    /// A directory of one entry at offset 8.
    fn with_entry(type_number: u8, count: u8, four: [u8; 4]) -> Vec<u8> {
        let head = [0x49, 0x49, 42, 0, 8, 0, 0, 0, 1, 0, 0, 1, type_number, 0, count, 0, 0, 0];
        [&head[..], &four, &[0; 4], &[200, 0, 0, 0, 1, 0, 0, 0]].concat()
    }

    #[test]
    fn what_an_entry_holds() {
        for (type_number, count, four, words) in [
            (1, 3, [1, 2, 255, 9], "BYTE, count 3, value 1 2 255"),
            (2, 3, *b"AB\0\0", "ASCII, count 3, value the bytes 41 42 00 (hexadecimal)"),
            (2, 2, *b"AB\0\0", "ASCII, count 2, value \"AB\""),
            (3, 1, [0, 1, 9, 9], "SHORT, count 1, value 256"),
            (3, 2, [0, 1, 2, 0], "SHORT, count 2, value 256 2"),
            (3, 3, [9, 0, 0, 0], "SHORT, count 3, value of 6 bytes at offset 9"),
            (4, 1, [0xFF; 4], "LONG, count 1, value 4294967295"),
            (4, 0, [1, 0, 0, 0], "LONG, count 0, no value"),
            (5, 1, [26, 0, 0, 0], "RATIONAL, count 1, value 200/1 at offset 26"),
            (5, 1, [27, 0, 0, 0], "RATIONAL, count 1, value of 8 bytes at offset 27"),
            (5, 2, [26, 0, 0, 0], "RATIONAL, count 2, value of 16 bytes at offset 26"),
            (6, 4, [0, 127, 128, 255], "SBYTE, count 4, value 0 127 -128 -1"),
            (7, 1, [0; 4], "UNDEFINED, count 1, value the byte 00 (hexadecimal)"),
            (8, 2, [0, 128, 255, 127], "SSHORT, count 2, value -32768 32767"),
            (9, 1, [0xFF; 4], "SLONG, count 1, value -1"),
            (10, 1, [26, 0, 0, 0], "SRATIONAL, count 1, value of 8 bytes at offset 26"),
            (11, 1, [0; 4], "FLOAT, count 1, value the bytes 00 00 00 00 (hexadecimal)"),
            (12, 1, [26, 0, 0, 0], "DOUBLE, count 1, value of 8 bytes at offset 26"),
            (
                0,
                1,
                [4, 0, 0, 0],
                "type 0, which TIFF 6.0 does not have, count 1, value the bytes 04 00 00 00 (hexadecimal)",
            ),
            (
                13,
                1,
                [4, 0, 0, 0],
                "type 13, which TIFF 6.0 does not have, count 1, value the bytes 04 00 00 00 (hexadecimal)",
            ),
        ] {
            let image = with_entry(type_number, count, four);
            assert_eq!(fault(&image, Number::TAGVALUE, 256).found(), Some(words));
        }
    }

    #[test]
    fn tags_without_a_name() {
        for (tag, spoken) in [(305, "tag 305"), (32_767, "tag 32767"), (32_768, "tag 32768, a private tag")] {
            assert_eq!(fault(b"", Number::TAGORDER, tag).words.place, spoken);
        }
    }
}
