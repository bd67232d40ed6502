//! Cases worked out by hand from document 004 (Table 1, Note 3, clause 9.3), document 02 and readings 48 to 50. Each is put to the judge and to the second
//! opinion.

use peer_tiff::faults::opinion;
use peer_tiff::judge::judge;

const ACCEPTED: (u64, u64) = (0, 0);
const CUT: (u64, u64) = (3, 0);
const TAGORDER: u64 = 18;
const TAGVALUE: u64 = 19;

/// A sound image of 142 bytes. The directory stands at 8: nine entries from 10 on, the next offset at 118; the resolutions at 122 and 130; the strip
/// of four bytes at 138.
#[rustfmt::skip]
const SOUND: [u8; 142] = [
    0x49, 0x49, 0x2A, 0x00, 0x08, 0x00, 0x00, 0x00,
    0x09, 0x00,
    0x00, 0x01, 0x03, 0x00, 0x01, 0x00, 0x00, 0x00, 0xA4, 0x06, 0x00, 0x00, // 10: 256 ImageWidth, SHORT, 1, 1700
    0x01, 0x01, 0x03, 0x00, 0x01, 0x00, 0x00, 0x00, 0x4C, 0x04, 0x00, 0x00, // 22: 257 ImageLength, SHORT, 1, 1100
    0x03, 0x01, 0x03, 0x00, 0x01, 0x00, 0x00, 0x00, 0x04, 0x00, 0x00, 0x00, // 34: 259 Compression, SHORT, 1, 4
    0x06, 0x01, 0x03, 0x00, 0x01, 0x00, 0x00, 0x00, 0x00, 0x00, 0x00, 0x00, // 46: 262 PhotometricInterpretation, SHORT, 1, 0
    0x11, 0x01, 0x04, 0x00, 0x01, 0x00, 0x00, 0x00, 0x8A, 0x00, 0x00, 0x00, // 58: 273 StripOffsets, LONG, 1, 138
    0x16, 0x01, 0x03, 0x00, 0x01, 0x00, 0x00, 0x00, 0x4C, 0x04, 0x00, 0x00, // 70: 278 RowsPerStrip, SHORT, 1, 1100
    0x17, 0x01, 0x04, 0x00, 0x01, 0x00, 0x00, 0x00, 0x04, 0x00, 0x00, 0x00, // 82: 279 StripByteCounts, LONG, 1, 4
    0x1A, 0x01, 0x05, 0x00, 0x01, 0x00, 0x00, 0x00, 0x7A, 0x00, 0x00, 0x00, // 94: 282 XResolution, RATIONAL, 1, at 122
    0x1B, 0x01, 0x05, 0x00, 0x01, 0x00, 0x00, 0x00, 0x82, 0x00, 0x00, 0x00, // 106: 283 YResolution, RATIONAL, 1, at 130
    0x00, 0x00, 0x00, 0x00,
    0xC8, 0x00, 0x00, 0x00, 0x01, 0x00, 0x00, 0x00, // 122: 200/1
    0xC8, 0x00, 0x00, 0x00, 0x01, 0x00, 0x00, 0x00, // 130: 200/1
    0x26, 0xA0, 0x01, 0x00,
];

/// Both sides' answer.
#[track_caller]
fn gives(image: &[u8], answer: (u64, u64)) {
    assert_eq!(judge(image), answer);
    assert_eq!(opinion(image), answer, "the second opinion");
}

/// The sound image with other bytes at some places.
fn with(places: &[(usize, &[u8])]) -> Vec<u8> {
    let mut image = SOUND.to_vec();
    for (at, bytes) in places {
        image[*at..at + bytes.len()].copy_from_slice(bytes);
    }
    image
}

#[track_caller]
fn with_gives(places: &[(usize, &[u8])], answer: (u64, u64)) {
    gives(&with(places), answer);
}

/// The sound image with a tenth entry at the end of its directory, and its parts twelve bytes further on: 150 and so on; 154 bytes.
fn with_tenth(tenth: [u8; 12]) -> Vec<u8> {
    let mut image = SOUND.to_vec();
    image.splice(118..118, tenth);
    image[8] = 10;
    (image[66], image[102], image[114]) = (150, 134, 142);
    image
}

#[test]
fn the_sound_image() {
    gives(&SOUND, ACCEPTED);
}

#[test]
fn fewer_than_eight_bytes() {
    (0..8).for_each(|length| gives(&SOUND[..length], CUT));
    // The mark is not looked at.
    gives(b"MM\0\x2A", CUT);
    gives(&[0xFF; 7], CUT);
    // With eight, the directory lies outside; the mark comes before that.
    gives(&SOUND[..8], CUT);
    gives(b"MM\0\x2A\0\0\0\x08", (TAGVALUE, 0));
}

#[test]
fn mark_and_number() {
    with_gives(&[(0, b"MM\0\x2A")], (TAGVALUE, 0));
    with_gives(&[(0, b"M")], (TAGVALUE, 0));
    with_gives(&[(1, b"M")], (TAGVALUE, 0));
    with_gives(&[(0, b"ii")], (TAGVALUE, 0));
    with_gives(&[(2, &[43])], (TAGVALUE, 0));
    with_gives(&[(3, &[1])], (TAGVALUE, 0));
    with_gives(&[(2, &[0, 42])], (TAGVALUE, 0));
    // Before a directory outside, and entries in no order.
    with_gives(&[(2, &[41]), (4, &[0xFF; 4])], (TAGVALUE, 0));
    with_gives(&[(0, b"M"), (22, &[0])], (TAGVALUE, 0));
}

#[test]
fn where_the_directory_stands() {
    // 142 is the end: 141 leaves half the count, 140 the count alone.
    for offset in [143u32, 142, 141, u32::MAX, u32::MAX - 1, u32::MAX - 5, 0x8000_0008] {
        with_gives(&[(4, &offset.to_le_bytes())], CUT);
    }
    // The strip's last two bytes as a count of 1; of 0: no place for the next offset.
    with_gives(&[(4, &[140]), (140, &[1, 0])], CUT);
    with_gives(&[(4, &[140]), (140, &[0, 0])], CUT);
    with_gives(&[(4, &[137]), (137, &[0, 0])], CUT);
    // At 136 a directory of no entries ends with the image: the lowest required tag is absent.
    with_gives(&[(4, &[136]), (136, &[0, 0])], (TAGVALUE, 256));
    // Ten entries end at 8 + 2 + 120 + 4 = 134: the tenth has tag 0 (118), which is not above 283.
    with_gives(&[(8, &[10])], (TAGORDER, 0));
    // Eleven end at 146, four bytes past the end; 65535 far past it.
    with_gives(&[(8, &[11])], CUT);
    with_gives(&[(8, &[0xFF, 0xFF])], CUT);
}

#[test]
fn the_next_offset_is_part_of_the_directory() {
    // The image ends within the next offset, or before it.
    let mut image = SOUND.to_vec();
    image.truncate(121);
    gives(&image, CUT);
    image.truncate(118);
    gives(&image, CUT);
    // Its value is not judged.
    with_gives(&[(118, &[0xFF; 4])], ACCEPTED);
    with_gives(&[(118, &[8])], ACCEPTED);
}

#[test]
fn the_next_offset_at_the_end() {
    // The parts first, then the directory: 8 strip, 12 and 20 the resolutions, 28 the directory, 138 the next offset; 142 bytes.
    let mut image = SOUND[..8].to_vec();
    image[4] = 28;
    image.extend(&SOUND[138..]);
    image.extend(&SOUND[122..138]);
    image.extend(&SOUND[8..122]);
    (image[28 + 58], image[28 + 94], image[28 + 106]) = (8, 12, 20);
    assert_eq!(image.len(), 142);
    gives(&image, ACCEPTED);
    for missing in 1..=4 {
        gives(&image[..142 - missing], CUT);
    }
}

#[test]
fn values_of_each_type_at_the_edge() {
    // Tag 300 with a value of 8 bytes, by type the count of it; the image has 154 bytes, so that it fits at 146.
    let counts = [8u8, 8, 4, 2, 1, 8, 8, 4, 2, 1, 2, 1];
    for (kind, count) in (1..=12).zip(counts) {
        let tenth = |offset: u8| with_tenth([0x2C, 0x01, kind, 0, count, 0, 0, 0, offset, 0, 0, 0]);
        gives(&tenth(146), ACCEPTED);
        gives(&tenth(147), CUT);
        gives(&tenth(0), ACCEPTED);
    }
    // Other types are not judged.
    for kind in [[0, 0], [13, 0], [3, 1], [0xFF, 0xFF]] {
        let [low, high] = kind;
        gives(&with_tenth([0x2C, 0x01, low, high, 0xFF, 0xFF, 0xFF, 0xFF, 0xFF, 0xFF, 0xFF, 0xFF]), ACCEPTED);
    }
}

#[test]
fn four_bytes_stand_in_the_entry() {
    for (kind, count) in
        [(1, 4), (2, 4), (3, 2), (4, 1), (6, 4), (7, 4), (8, 2), (9, 1), (11, 1), (5, 0), (10, 0), (12, 0)]
    {
        gives(&with_tenth([0x2C, 0x01, kind, 0, count, 0, 0, 0, 0xFF, 0xFF, 0xFF, 0xFF]), ACCEPTED);
        gives(&with_tenth([0x2C, 0x01, kind, 0, count + 1, 0, 0, 0, 0xFF, 0xFF, 0xFF, 0xFF]), CUT);
    }
}

#[test]
fn count_times_size_is_a_whole_number() {
    // 2^29 times 8, 2^30 times 4 and 2^31 times 2 are 2^32; and eight bytes more.
    gives(&with_tenth([0x2C, 0x01, 12, 0, 0, 0, 0, 0x20, 0, 0, 0, 0]), CUT);
    gives(&with_tenth([0x2C, 0x01, 4, 0, 0, 0, 0, 0x40, 0, 0, 0, 0]), CUT);
    gives(&with_tenth([0x2C, 0x01, 3, 0, 0, 0, 0, 0x80, 0, 0, 0, 0]), CUT);
    gives(&with_tenth([0x2C, 0x01, 12, 0, 1, 0, 0, 0x20, 8, 0, 0, 0]), CUT);
    gives(&with_tenth([0x2C, 0x01, 5, 0, 0xFF, 0xFF, 0xFF, 0xFF, 0xFF, 0xFF, 0xFF, 0xFF]), CUT);
    // Eight bytes from 2^32 - 8 on.
    gives(&with_tenth([0x2C, 0x01, 1, 0, 8, 0, 0, 0, 0xF8, 0xFF, 0xFF, 0xFF]), CUT);
}

#[test]
fn the_strip() {
    // One byte more than there is, one byte further on.
    with_gives(&[(90, &[5])], CUT);
    with_gives(&[(66, &[139])], CUT);
    with_gives(&[(66, &[139]), (90, &[3])], ACCEPTED);
    // 2^32 - 4 and 8 come to 4 in 32 bits.
    with_gives(&[(66, &[0xFC, 0xFF, 0xFF, 0xFF]), (90, &[8])], CUT);
    with_gives(&[(66, &[0xFF; 4]), (90, &[0xFF; 4])], CUT);
    // Of no bytes, at the end too, but not past it; at 0; all of the image.
    with_gives(&[(90, &[0])], ACCEPTED);
    with_gives(&[(66, &[142]), (90, &[0])], ACCEPTED);
    with_gives(&[(66, &[143]), (90, &[0])], CUT);
    with_gives(&[(66, &[0])], ACCEPTED);
    with_gives(&[(66, &[0]), (90, &[142])], ACCEPTED);
    with_gives(&[(66, &[0]), (90, &[143])], CUT);
    // SHORTs with something behind them.
    with_gives(&[(60, &[3]), (68, &[0xFF, 0xFF]), (84, &[3]), (92, &[0xFF, 0xFF])], ACCEPTED);
    with_gives(&[(60, &[3]), (68, &[0xFF, 0xFF]), (84, &[3]), (90, &[5]), (92, &[0xFF, 0xFF])], CUT);
}

#[test]
fn strips_that_are_not_judged() {
    // 273 of another count or type, 279 likewise: the other may be anything.
    with_gives(&[(60, &[3]), (62, &[2]), (90, &[0xFF; 4])], (TAGVALUE, 273));
    with_gives(&[(60, &[9]), (66, &[0xFF; 4])], (TAGVALUE, 273));
    with_gives(&[(62, &[0]), (66, &[0xFF; 4])], (TAGVALUE, 273));
    with_gives(&[(84, &[9]), (66, &[0xFF; 4])], (TAGVALUE, 279));
    with_gives(&[(86, &[0]), (66, &[0xFF; 4])], (TAGVALUE, 279));
    // Two LONGs are eight bytes, and these are to lie within: at 138 they do not.
    with_gives(&[(62, &[2])], CUT);
    // 279 becomes 280: absent.
    with_gives(&[(82, &[0x18]), (66, &[0xFF; 4])], (TAGVALUE, 279));
}

#[test]
fn the_first_of_a_tag_counts() {
    // 262 becomes 273 with a LONG outside: the strip is outside. Behind the right one it is out of order alone.
    with_gives(&[(46, &[0x11, 0x01, 4, 0, 1, 0, 0, 0, 0xFF, 0xFF, 0xFF, 0xFF])], CUT);
    with_gives(&[(70, &[0x11, 0x01, 4, 0, 1, 0, 0, 0, 0xFF, 0xFF, 0xFF, 0xFF])], (TAGORDER, 273));
    // The first is of no such type, and the second is not looked at.
    with_gives(&[(46, &[0x11, 0x01, 9]), (66, &[0xFF; 4])], (TAGORDER, 273));
}

#[test]
fn order() {
    // 257 becomes 256; 259 becomes 257 and 256.
    with_gives(&[(22, &[0])], (TAGORDER, 256));
    with_gives(&[(34, &[1])], (TAGORDER, 257));
    with_gives(&[(34, &[0])], (TAGORDER, 256));
    // 256 becomes 65535: 257 comes after it. 283 becomes 0.
    with_gives(&[(10, &[0xFF, 0xFF])], (TAGORDER, 257));
    with_gives(&[(106, &[0, 0])], (TAGORDER, 0));
    // Disorders at 262 (third place, 300 before it) and at 257 (last place): the lower one, which comes later.
    with_gives(&[(34, &[0x2C]), (106, &[1])], (TAGORDER, 257));
    // At 257 and then at 278.
    with_gives(&[(10, &[2]), (58, &[0x17])], (TAGORDER, 257));
    // Before a required tag that is wrong and lower; after what is outside.
    with_gives(&[(18, &[0, 0]), (106, &[0x1A])], (TAGORDER, 282));
    with_gives(&[(106, &[0x1A]), (114, &[0xFF])], CUT);
    // 32768 is above 283, and 255 below 256.
    gives(&with_tenth([0x00, 0x80, 1, 0, 1, 0, 0, 0, 0, 0, 0, 0]), ACCEPTED);
    gives(&with_tenth([0xFF, 0xFF, 1, 0, 1, 0, 0, 0, 0, 0, 0, 0]), ACCEPTED);
    gives(&with_tenth([0x1B, 0x01, 1, 0, 1, 0, 0, 0, 0, 0, 0, 0]), (TAGORDER, 283));
    gives(&with_tenth([0xFF, 0x00, 1, 0, 1, 0, 0, 0, 0, 0, 0, 0]), (TAGORDER, 255));
}

#[test]
fn each_required_tag_absent() {
    // The entry's tag becomes another that keeps the order: 255, 258, 260, 263, 274, 277 (before 279), 280, 281 and 284.
    let others: [(usize, u16, u64); 9] = [
        (10, 255, 256),
        (22, 258, 257),
        (34, 260, 259),
        (46, 263, 262),
        (58, 274, 273),
        (70, 277, 278),
        (82, 280, 279),
        (94, 281, 282),
        (106, 284, 283),
    ];
    for (at, other, tag) in others {
        with_gives(&[(at, &other.to_le_bytes())], (TAGVALUE, tag));
    }
    // Two of them.
    with_gives(&[(46, &263u16.to_le_bytes()), (94, &281u16.to_le_bytes())], (TAGVALUE, 262));
}

#[test]
fn types_of_required_tags() {
    // LONG beside SHORT in 256, 257, 278; not in 259 and 262.
    with_gives(&[(12, &[4])], ACCEPTED);
    with_gives(&[(24, &[4])], ACCEPTED);
    with_gives(&[(72, &[4])], ACCEPTED);
    with_gives(&[(36, &[4])], (TAGVALUE, 259));
    with_gives(&[(48, &[4])], (TAGVALUE, 262));
    // BYTE, SSHORT, SLONG, a type above 255.
    with_gives(&[(12, &[1])], (TAGVALUE, 256));
    with_gives(&[(24, &[8])], (TAGVALUE, 257));
    with_gives(&[(72, &[9])], (TAGVALUE, 278));
    with_gives(&[(13, &[1])], (TAGVALUE, 256));
    // SRATIONAL, DOUBLE, LONG.
    with_gives(&[(96, &[10])], (TAGVALUE, 282));
    with_gives(&[(108, &[12])], (TAGVALUE, 283));
    with_gives(&[(108, &[4])], (TAGVALUE, 283));
}

#[test]
fn counts_of_required_tags() {
    for (at, tag) in [(14, 256), (26, 257), (38, 259), (50, 262), (74, 278)] {
        with_gives(&[(at, &[2])], (TAGVALUE, tag));
        with_gives(&[(at, &[0])], (TAGVALUE, tag));
    }
    // Two rationals at 122 are 16 bytes and end at 138; at 130 they pass the end at 146.
    with_gives(&[(98, &[2])], (TAGVALUE, 282));
    with_gives(&[(110, &[2])], CUT);
    with_gives(&[(110, &[0])], (TAGVALUE, 283));
}

#[test]
fn values_of_required_tags() {
    with_gives(&[(18, &[0, 0])], (TAGVALUE, 256));
    with_gives(&[(18, &[0, 0, 1, 0])], (TAGVALUE, 256));
    with_gives(&[(12, &[4]), (18, &[0, 0, 1, 0])], ACCEPTED);
    with_gives(&[(30, &[0, 0])], (TAGVALUE, 257));
    with_gives(&[(30, &[0, 0]), (78, &[0, 0])], (TAGVALUE, 257));
    with_gives(&[(42, &[3])], (TAGVALUE, 259));
    with_gives(&[(43, &[4])], (TAGVALUE, 259));
    with_gives(&[(44, &[9, 9])], ACCEPTED);
    // The variance of Table 3.
    with_gives(&[(54, &[1])], (TAGVALUE, 262));
    with_gives(&[(55, &[1])], (TAGVALUE, 262));
    with_gives(&[(56, &[1])], ACCEPTED);
    with_gives(&[(78, &[0x4D])], (TAGVALUE, 278));
    // 66636 lines have 1100 in the low half.
    with_gives(&[(24, &[4]), (32, &[1])], (TAGVALUE, 278));
    with_gives(&[(72, &[4]), (80, &[1])], (TAGVALUE, 278));
    with_gives(&[(24, &[4]), (32, &[1]), (72, &[4]), (80, &[1])], ACCEPTED);
    with_gives(&[(32, &[7, 7]), (80, &[9])], ACCEPTED);
}

#[test]
fn resolutions() {
    // 240/1; only one of them.
    with_gives(&[(122, &[240]), (130, &[240])], ACCEPTED);
    with_gives(&[(122, &[240])], (TAGVALUE, 283));
    with_gives(&[(130, &[240])], (TAGVALUE, 283));
    // 800/4 (Note 3) beside 200/1.
    with_gives(&[(122, &[0x20, 0x03, 0, 0, 4])], ACCEPTED);
    with_gives(&[(130, &[0x20, 0x03, 0, 0, 4])], ACCEPTED);
    with_gives(&[(122, &[0x20, 0x03, 0, 0, 5])], (TAGVALUE, 282));
    // 401/2, 199, 300, denominators of 0.
    with_gives(&[(122, &[0x91, 0x01, 0, 0, 2])], (TAGVALUE, 282));
    with_gives(&[(122, &[199])], (TAGVALUE, 282));
    with_gives(&[(122, &[0x2C, 0x01]), (130, &[0x2C, 0x01])], (TAGVALUE, 282));
    with_gives(&[(126, &[0])], (TAGVALUE, 282));
    with_gives(&[(134, &[0])], (TAGVALUE, 283));
    with_gives(&[(122, &[0; 8])], (TAGVALUE, 282));
    with_gives(&[(130, &[0; 8])], (TAGVALUE, 283));
    // 200 times 2^29 is a multiple of 2^32.
    with_gives(&[(122, &[0, 0, 0, 0, 0, 0, 0, 0x20])], (TAGVALUE, 282));
    with_gives(&[(130, &[200, 0, 0, 0, 1, 0, 0, 0x20])], (TAGVALUE, 283));
    // The offset of 282: identical values, but not unique offsets. 282 at the offset of 283 is the same, and faulted at 283.
    with_gives(&[(114, &[122])], (TAGVALUE, 283));
    with_gives(&[(102, &[130])], (TAGVALUE, 283));
    // 40000/200 at 122 and 200/1 at 126.
    with_gives(&[(114, &[126]), (122, &[0x40, 0x9C, 0, 0, 200, 0, 0, 0, 1, 0, 0, 0])], ACCEPTED);
}

#[test]
fn at_an_odd_offset() {
    // A byte before the directory moves everything by one.
    let mut image = SOUND.to_vec();
    image.insert(8, 0xEE);
    (image[4], image[67], image[103], image[115]) = (9, 139, 123, 131);
    gives(&image, ACCEPTED);
}

#[test]
fn over_the_header() {
    // At 6 and at 5 the count is 0; twelve bytes hold such a directory at 6, eleven do not.
    gives(&[0x49, 0x49, 42, 0, 6, 0, 0, 0, 0, 0, 0, 0], (TAGVALUE, 256));
    gives(&[0x49, 0x49, 42, 0, 6, 0, 0, 0, 0, 0, 0], CUT);
    gives(&[0x49, 0x49, 42, 0, 5, 0, 0, 0, 0, 0, 0], (TAGVALUE, 256));
    // At 4 the count is 4, and the directory ends at 58.
    let mut image = vec![0; 58];
    image[..8].copy_from_slice(&[0x49, 0x49, 42, 0, 4, 0, 0, 0]);
    gives(&image, (TAGORDER, 0));
    gives(&image[..57], CUT);
    (image[18], image[30], image[42]) = (1, 2, 3);
    gives(&image, (TAGVALUE, 256));
    // At 2 the count is 42: 2 + 2 + 504 + 4 = 512. The first entry has tag 2 and type 0; tags 3 to 34 follow, then the nine.
    let mut image = vec![0; 512 + 20];
    image[..8].copy_from_slice(&[0x49, 0x49, 42, 0, 2, 0, 0, 0]);
    for index in 1..33 {
        image[4 + 12 * index] = 2 + index as u8;
    }
    image[4 + 12 * 33..4 + 12 * 42].copy_from_slice(&SOUND[10..118]);
    image[512..].copy_from_slice(&SOUND[122..142]);
    let nine = 4 + 12 * 33 - 10;
    image[nine + 66..nine + 68].copy_from_slice(&528u16.to_le_bytes());
    image[nine + 102..nine + 104].copy_from_slice(&512u16.to_le_bytes());
    image[nine + 114..nine + 116].copy_from_slice(&520u16.to_le_bytes());
    gives(&image, ACCEPTED);
    gives(&image[..531], CUT);
}
