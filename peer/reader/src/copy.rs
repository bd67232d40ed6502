//! The ASCII copy of a file (request 5, reading 36), and the way back: the EBCDIC version of an ASCII file.
//!
//! Record by record, as the lengths frame them, the characters are translated. Kept are the lengths, the Binary parts of a 52 where its
//! stated lengths put them, and the bytes that no length frames. Where the lengths of a 52 do not add up, all that stands behind its fixed
//! part is kept: such a record is refused for its lengths, whatever stands there.

use std::borrow::Cow;

use crate::charset::{Set, Text, NO_CHARACTER};
use crate::descent::split_record;
use crate::judge::{all_digits_in, part_length_in, part_start_in};
use crate::layout::{carried_in, layout, Layout, Part, Type};

/// The ASCII copy of a file. An ASCII file is its own copy.
pub fn copy(file: &[u8]) -> Cow<'_, [u8]> {
    match Set::of(file) {
        Set::Ascii => Cow::Borrowed(file),
        Set::Ebcdic => Cow::Owned(translated(file, Set::Ebcdic, |byte| Set::Ebcdic.character(byte))),
    }
}

/// The EBCDIC version of an ASCII file: its copy is the file again, but that a byte which is no character is 00 where characters stand.
/// Such a byte becomes one without a counterpart, each another. The result is EBCDIC if the file begins with a record of type 01.
pub fn to_ebcdic(file: &[u8]) -> Vec<u8> {
    let bytes = ebcdic_bytes();
    translated(file, Set::Ascii, |byte| bytes[usize::from(byte)])
}

/// For each byte of an ASCII file one of an EBCDIC file: characters for characters, and the others in their order.
pub fn ebcdic_bytes() -> [u8; 256] {
    let mut bytes = [NO_CHARACTER; 256];
    for (from, to) in Set::Ascii.strangers().into_iter().zip(Set::Ebcdic.strangers()) {
        bytes[usize::from(from)] = to;
    }
    for byte in (0..=255).filter(|byte| Set::Ascii.is_character(*byte)) {
        bytes[usize::from(byte)] = Set::Ebcdic.byte(byte);
    }
    bytes
}

/// A file of this set with its characters changed.
fn translated(file: &[u8], set: Set, change: impl Fn(u8) -> u8) -> Vec<u8> {
    let mut made = file.to_vec();
    let mut at = 0;
    while let Some(body) = split_record(&file[at..]) {
        translate_record(set, &mut made[at + 4..at + 4 + body.len()], &change);
        at += 4 + body.len();
    }
    made
}

/// A record's characters changed, the body alone.
pub fn translate_record(set: Set, body: &mut [u8], change: impl Fn(u8) -> u8) {
    let mut from = 0;
    for (start, end) in kept(set, body) {
        body[from..start].iter_mut().for_each(|byte| *byte = change(*byte));
        from = end;
    }
    body[from..].iter_mut().for_each(|byte| *byte = change(*byte));
}

/// The stretches of a record that are not translated, one behind the other.
fn kept(set: Set, body: &[u8]) -> Vec<(usize, usize)> {
    let layout = layout(52);
    if body.len() < layout.fixed || carried_in(set, &body[..2]) != Some(52) {
        return Vec::new();
    }
    if !adds_up(set, layout, body) {
        return vec![(layout.fixed, body.len())];
    }
    let place = |part: &Part| {
        let start = part_start_in(set, layout, body, part);
        (start, start + part_length_in(set, layout, body, part) as usize)
    };
    layout.parts.iter().filter(|part| part.kind == Type::Binary).map(place).collect()
}

/// Whether the stated lengths are lengths, and the record is as long as they say.
fn adds_up(set: Set, layout: &Layout, body: &[u8]) -> bool {
    let stated = |part: &Part| all_digits_in(Text::new(set, layout.field(part.sized_by).of(body)));
    let length = |part: &Part| part_length_in(set, layout, body, part);
    layout.parts.iter().all(stated)
        && body.len() as u64 == layout.fixed as u64 + layout.parts.iter().map(length).sum::<u64>()
}

#[cfg(test)]
mod tests {
    use super::*;
    use crate::descent::{read, read_in, Number};
    use crate::picture::picture;
    use crate::plain;
    use crate::stream;

    /// Request 5's one statement: answer and rows are those of the copy, and the picture call agrees wherever a record begins.
    fn agrees_with_its_copy(file: &[u8], name: &str) {
        let copied = copy(file);
        let (own, of_copy) = (read(file), read_in(Set::Ascii, &copied));
        assert_eq!(own.answer, of_copy.answer, "{name}");
        assert_eq!(own.rows, of_copy.rows, "{name}");
        assert_eq!(own.answer, read(&copied).answer, "{name}: a copy is its own copy");
        assert_eq!(copy(&copied), copied, "{name}: a copy is its own copy");
        let mut at = 0;
        while let Some(body) = split_record(&file[at..]) {
            assert_eq!(picture(file, at as u64), picture(&copied, at as u64), "{name} at {at}");
            at += 4 + body.len();
        }
    }

    /// Every shape of the stream, as it is and in EBCDIC: the answer and the rows are those of the ASCII file.
    #[test]
    fn files_in_ebcdic_get_the_answers_of_their_copies() {
        let (mut accepted, mut translated) = (0, 0);
        for index in (0..12_000).filter(|index| index % 5_000 != 2_500) {
            let made = stream::file(5, index);
            let name = format!("file {index}, {}", made.shape);
            agrees_with_its_copy(&made.bytes, &name);
            let version = to_ebcdic(&made.bytes);
            agrees_with_its_copy(&version, &name);
            if Set::of(&version) == Set::Ebcdic && Set::of(&made.bytes) == Set::Ascii {
                let (ascii, ebcdic) = (read(&made.bytes), read(&version));
                assert_eq!((ascii.answer, &ascii.rows), (ebcdic.answer, &ebcdic.rows), "{name}");
                accepted += usize::from(ebcdic.answer.number == Number::Accepted);
                translated += 1;
            }
        }
        assert!(accepted > 3_000 && translated > 10_000, "{accepted} accepted of {translated} in EBCDIC");
    }

    #[test]
    fn a_version_is_copied_back_but_for_bytes_that_are_no_characters() {
        let mut bytes = ebcdic_bytes().to_vec();
        bytes.sort_unstable();
        assert!(bytes.into_iter().eq(0..=255), "each byte becomes another");
        for index in (0..3_000).filter(|index| index % 5_000 != 2_500) {
            let made = stream::file(6, index).bytes;
            let version = to_ebcdic(&made);
            if Set::of(&version) == Set::Ebcdic {
                let back = copy(&version);
                assert_eq!(back.len(), made.len());
                let alike = |(one, other): (&u8, &u8)| one == other || (*one == 0 && !Set::Ascii.is_character(*other));
                assert!(back.iter().zip(&made).all(alike), "file {index}");
            }
        }
    }

    /// A 52 with a part of each sort, each of "1A": fields 22, 24 and 25 are characters, 23, 26, 27 and 28 Binary.
    #[test]
    fn binary_parts_are_kept_where_the_stated_lengths_put_them() {
        let fixed = &plain::view_data(b"")[..103];
        let record = [fixed, b"000200002000020000200002000000200002", b"1A1A1A1A1A1A1A"].concat();
        let mut version = record.clone();
        translate_record(Set::Ascii, &mut version, |byte| Set::Ebcdic.byte(byte));
        assert_eq!(version[..139], Set::Ebcdic.bytes(&record[..139]));
        assert_eq!(version[139..], *b"\xF1\xC11A\xF1\xC1\xF1\xC11A1A1A");
        // One byte more than the lengths state: what stands behind the fixed part is kept.
        let mut longer = [&record[..], b"1"].concat();
        translate_record(Set::Ascii, &mut longer, |byte| Set::Ebcdic.byte(byte));
        assert_eq!(longer[..139], version[..139]);
        assert_eq!(longer[139..], *b"1A1A1A1A1A1A1A1");
    }
}
