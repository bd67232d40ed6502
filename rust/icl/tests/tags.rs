//! `tags`: whole outputs on the samples' pictures, as they are and made wrong in each way. What is wrong, the independent judge says; what the lines
//! tell was worked out from the pictures' layout and Table 1 of X9.100-181.

mod common;

use std::fs;

use common::{icl, outcome, piped, read, run, Folder};
use peer_reader::copy::to_ebcdic;
use peer_tiff::judge::judge;

const PICTURED: &str = "samples/two-letters-with-pictures.x9";

/// The places of the views of the sample with pictures. The pictures begin 143 bytes behind these offsets.
const PLACES: [(&str, usize); 8] = [
    ("cash letter 1, bundle 1, item 1, view 1", 623),
    ("cash letter 1, bundle 1, item 1, view 2", 1029),
    ("cash letter 1, bundle 1, item 2, view 1", 1612),
    ("cash letter 1, bundle 1, item 2, view 2", 2027),
    ("cash letter 1, bundle 2, item 1, view 1", 2702),
    ("cash letter 1, bundle 2, item 1, view 2", 3117),
    ("cash letter 2, bundle 1, item 1, view 1", 4252),
    ("cash letter 2, bundle 1, item 1, view 2", 4667),
];

/// The first picture of the sample: 179 bytes, 64 dots wide, 72 lines (four bars, each of 8 lines with 8 behind it and 8 behind its group, below 8).
/// The directory stands at 8 with nine entries of 12 bytes from 10 on: 256 SHORT 64, 257 SHORT 72, 259 SHORT 4, 262 SHORT 0, 273 LONG 138, 278 SHORT 72,
/// 279 LONG 41, 282 and 283 RATIONAL at 122 and 130, each 200/1. The strip has the bytes from 138 on.
const FIRST: std::ops::Range<usize> = 766..945;

/// A picture made wrong: other bytes at places of the first picture, the answer, and the lines for place, found and asked.
type Wrong = (&'static [(usize, &'static [u8])], (u64, u64), [&'static str; 3]);

/// What is asked.
const II: &str = "\"II\" (the least significant byte first)";
const WITHIN: &str = "all of it within the picture, which has 179 bytes";
const ASCENDING: &str = "entries in ascending order of their tags, no tag twice";
const NOT_0: &str = "SHORT or LONG, count 1, a value other than 0";
const GROUP_4: &str = "SHORT, count 1, value 4 (Group 4, ITU-T T.6)";
const WHITE_IS_0: &str = "SHORT, count 1, value 0 (a bit of 0 is white)";
const ONE_STRIP: &str = "SHORT or LONG, count 1 (a single strip)";
const LENGTH_72: &str = "SHORT or LONG, count 1, the value of tag 257, ImageLength (tag 257 has value 72)";
const LENGTH_71: &str = "SHORT or LONG, count 1, the value of tag 257, ImageLength (tag 257 has value 71)";
const DOTS: &str = "RATIONAL, count 1, value 200/1 or 240/1 or a ratio that comes to one of them";
const SAME_DOTS: &str = "RATIONAL, count 1, the ratio of tag 282, XResolution, at an offset of its own (tag 282 has value 200/1 at offset 122)";

#[rustfmt::skip]
const WRONG: &[Wrong] = &[
    // The header.
    (&[(0, b"MM")], (19, 0), ["the byte order mark, at offset 0 of the picture", "\"MM\"", II]),
    (&[(0, b"MM\0*")], (19, 0), ["the byte order mark, at offset 0 of the picture", "\"MM\"", II]),
    (&[(1, b"\0")], (19, 0), ["the byte order mark, at offset 0 of the picture", "the bytes 49 00 (hexadecimal)", II]),
    (&[(2, b"\x2B")], (19, 0), ["the number behind the byte order mark, at offset 2 of the picture", "43", "42"]),
    (&[(2, b"\0\x2A")], (19, 0), ["the number behind the byte order mark, at offset 2 of the picture", "10752", "42"]),
    // Outside: the directory (14 entries: 8 + 2 + 168 + 4 = 182), a value, the strip.
    (&[(4, &[178])], (3, 0), ["the directory", "its count of entries, at offset 178 by the header, up to offset 180", WITHIN]),
    (&[(4, &[0xFF; 4])], (3, 0), ["the directory", "its count of entries, at offset 4294967295 by the header, up to offset 4294967297", WITHIN]),
    (&[(8, &[14])], (3, 0), ["the directory", "14 entries and the next offset, at offset 8 by the header, up to offset 182", WITHIN]),
    (&[(102, &[172])], (3, 0), ["tag 282, XResolution, entry 8 of 9, at offset 94 of the picture", "RATIONAL, count 1, value of 8 bytes at offset 172, up to offset 180", WITHIN]),
    (&[(12, &[4]), (14, &[0, 0, 0, 1])], (3, 0), ["tag 256, ImageWidth, entry 1 of 9, at offset 10 of the picture", "LONG, count 16777216, value of 67108864 bytes at offset 64, up to offset 67108928", WITHIN]),
    (&[(90, &[42])], (3, 0), ["the strip", "42 bytes (tag 279, StripByteCounts) at offset 138 (tag 273, StripOffsets), up to offset 180", WITHIN]),
    (&[(66, &[0xFF; 4])], (3, 0), ["the strip", "41 bytes (tag 279, StripByteCounts) at offset 4294967295 (tag 273, StripOffsets), up to offset 4294967336", WITHIN]),
    // Order: 256, 259, 257; then 256 twice; then a private tag before the others, and a tag without a name behind one.
    (&[(22, &[3, 1]), (34, &[1, 1])], (18, 257), ["tag 257, ImageLength, entry 3 of 9, at offset 34 of the picture", "it behind tag 259, Compression", ASCENDING]),
    (&[(22, &[0, 1])], (18, 256), ["tag 256, ImageWidth, entry 2 of 9, at offset 22 of the picture", "it behind tag 256, ImageWidth", ASCENDING]),
    (&[(10, &[0, 0x80])], (18, 257), ["tag 257, ImageLength, entry 2 of 9, at offset 22 of the picture", "it behind tag 32768, a private tag", ASCENDING]),
    (&[(22, &[0, 0])], (18, 0), ["tag 0, entry 2 of 9, at offset 22 of the picture", "it behind tag 256, ImageWidth", ASCENDING]),
    // Each required tag absent: its entry has the number beside it, and the order is kept.
    (&[(10, &[255, 0])], (19, 256), ["tag 256, ImageWidth", "no entry with this tag among 9", NOT_0]),
    (&[(22, &[2, 1])], (19, 257), ["tag 257, ImageLength", "no entry with this tag among 9", NOT_0]),
    (&[(34, &[2, 1])], (19, 259), ["tag 259, Compression", "no entry with this tag among 9", GROUP_4]),
    (&[(46, &[7, 1])], (19, 262), ["tag 262, Photometric Interpretation", "no entry with this tag among 9", WHITE_IS_0]),
    (&[(58, &[16, 1])], (19, 273), ["tag 273, StripOffsets", "no entry with this tag among 9", ONE_STRIP]),
    (&[(70, &[21, 1])], (19, 278), ["tag 278, RowsPerStrip", "no entry with this tag among 9", LENGTH_72]),
    (&[(82, &[24, 1])], (19, 279), ["tag 279, StripByteCounts", "no entry with this tag among 9", ONE_STRIP]),
    (&[(94, &[25, 1])], (19, 282), ["tag 282, XResolution", "no entry with this tag among 9", DOTS]),
    (&[(106, &[28, 1])], (19, 283), ["tag 283, YResolution", "no entry with this tag among 9", SAME_DOTS]),
    // An empty directory: 8 + 2 + 4 = 14.
    (&[(8, &[0])], (19, 256), ["tag 256, ImageWidth", "no entry with this tag among 0", NOT_0]),
    // Each required tag of a wrong type, count or value.
    (&[(18, &[0])], (19, 256), ["tag 256, ImageWidth, entry 1 of 9, at offset 10 of the picture", "SHORT, count 1, value 0", NOT_0]),
    (&[(14, &[2])], (19, 256), ["tag 256, ImageWidth, entry 1 of 9, at offset 10 of the picture", "SHORT, count 2, value 64 0", NOT_0]),
    (&[(12, &[1])], (19, 256), ["tag 256, ImageWidth, entry 1 of 9, at offset 10 of the picture", "BYTE, count 1, value 64", NOT_0]),
    (&[(30, &[0])], (19, 257), ["tag 257, ImageLength, entry 2 of 9, at offset 22 of the picture", "SHORT, count 1, value 0", NOT_0]),
    (&[(24, &[8])], (19, 257), ["tag 257, ImageLength, entry 2 of 9, at offset 22 of the picture", "SSHORT, count 1, value 72", NOT_0]),
    (&[(42, &[1])], (19, 259), ["tag 259, Compression, entry 3 of 9, at offset 34 of the picture", "SHORT, count 1, value 1", GROUP_4]),
    (&[(36, &[4])], (19, 259), ["tag 259, Compression, entry 3 of 9, at offset 34 of the picture", "LONG, count 1, value 4", GROUP_4]),
    (&[(38, &[0])], (19, 259), ["tag 259, Compression, entry 3 of 9, at offset 34 of the picture", "SHORT, count 0, no value", GROUP_4]),
    (&[(54, &[1])], (19, 262), ["tag 262, Photometric Interpretation, entry 4 of 9, at offset 46 of the picture", "SHORT, count 1, value 1", WHITE_IS_0]),
    (&[(48, &[13])], (19, 262), ["tag 262, Photometric Interpretation, entry 4 of 9, at offset 46 of the picture", "type 13, which TIFF 6.0 does not have, count 1, value the bytes 00 00 00 00 (hexadecimal)", WHITE_IS_0]),
    (&[(62, &[2])], (19, 273), ["tag 273, StripOffsets, entry 5 of 9, at offset 58 of the picture", "LONG, count 2, value of 8 bytes at offset 138", ONE_STRIP]),
    (&[(60, &[9])], (19, 273), ["tag 273, StripOffsets, entry 5 of 9, at offset 58 of the picture", "SLONG, count 1, value 138", ONE_STRIP]),
    (&[(78, &[36])], (19, 278), ["tag 278, RowsPerStrip, entry 6 of 9, at offset 70 of the picture", "SHORT, count 1, value 36", LENGTH_72]),
    (&[(30, &[71])], (19, 278), ["tag 278, RowsPerStrip, entry 6 of 9, at offset 70 of the picture", "SHORT, count 1, value 72", LENGTH_71]),
    (&[(84, &[1])], (19, 279), ["tag 279, StripByteCounts, entry 7 of 9, at offset 82 of the picture", "BYTE, count 1, value 41", ONE_STRIP]),
    (&[(122, &[100])], (19, 282), ["tag 282, XResolution, entry 8 of 9, at offset 94 of the picture", "RATIONAL, count 1, value 100/1 at offset 122", DOTS]),
    (&[(126, &[0])], (19, 282), ["tag 282, XResolution, entry 8 of 9, at offset 94 of the picture", "RATIONAL, count 1, value 200/0 at offset 122", DOTS]),
    (&[(96, &[4])], (19, 282), ["tag 282, XResolution, entry 8 of 9, at offset 94 of the picture", "LONG, count 1, value 122", DOTS]),
    (&[(98, &[2])], (19, 282), ["tag 282, XResolution, entry 8 of 9, at offset 94 of the picture", "RATIONAL, count 2, value of 16 bytes at offset 122", DOTS]),
    (&[(130, &[240])], (19, 283), ["tag 283, YResolution, entry 9 of 9, at offset 106 of the picture", "RATIONAL, count 1, value 240/1 at offset 130", SAME_DOTS]),
    (&[(114, &[122])], (19, 283), ["tag 283, YResolution, entry 9 of 9, at offset 106 of the picture", "RATIONAL, count 1, value 200/1 at offset 122", SAME_DOTS]),
    (&[(108, &[10])], (19, 283), ["tag 283, YResolution, entry 9 of 9, at offset 106 of the picture", "SRATIONAL, count 1, value of 8 bytes at offset 130", SAME_DOTS]),
];

/// The lines behind a view's place or a file's name.
fn refused((_, (number, tag), [place, found, asked]): &Wrong) -> String {
    let meaning = match (number, tag) {
        (3, _) => "CUT: the picture ends before one of its parts does",
        (18, _) => "TAGORDER: a tag is not above the tag before it",
        (_, 0) => "TAGVALUE: the header is wrong",
        _ => "TAGVALUE: a required tag is wrong or absent",
    };
    format!("refused {number} tag {tag}\n  {meaning}\n  {place}\n  found {found}\n  asked: {asked}\n")
}

/// Bytes with others at these places.
fn with(bytes: &[u8], start: usize, changes: &[(usize, &[u8])]) -> Vec<u8> {
    let mut bytes = bytes.to_vec();
    for (at, change) in changes {
        bytes[start + at..][..change.len()].copy_from_slice(change);
    }
    bytes
}

/// What is printed of the sample with pictures where its first picture gives these lines.
fn of_sample(first: &str, last: &str) -> String {
    let line = |(place, offset): (&str, usize)| format!("{place}, at offset {offset}: ");
    let rest: String = PLACES[1..].iter().map(|place| format!("{}ok\n", line(*place))).collect();
    format!("{}{first}{rest}{last}", line(PLACES[0]))
}

const ONE_WRONG: &str = "8 views declared as TIFF of Group 4 (format 00): 7 ok, 1 wrong\n";

#[test]
fn the_samples_pass() {
    let all_right = of_sample("ok\n", "8 views declared as TIFF of Group 4 (format 00): 8 ok, 0 wrong\n");
    assert_eq!(run(&format!("tags {PICTURED}")), (0, all_right.clone(), String::new()));
    assert_eq!(run("tags samples/ebcdic-with-pictures.x9"), (0, all_right.clone(), String::new()));
    assert_eq!(piped("tags -", &read(PICTURED)), (0, all_right, String::new()));
    // The offsets as icl/tests/pictures.rs has them, in the order of the file.
    let credits = "\
cash letter 1, credit record 1, view 1, at offset 340: ok
cash letter 1, credit record 1, view 2, at offset 737: ok
cash letter 1, bundle 1, item 1, view 1, at offset 1314: ok
cash letter 1, bundle 1, item 2, view 1, at offset 1804: ok
cash letter 1, bundle 1, item 2, view 2, at offset 2219: ok
cash letter 1, bundle 1, item 3, view 1, at offset 2726: ok
cash letter 1, bundle 1, item 3, view 2, at offset 3149: ok
cash letter 1, bundle 2, item 1, view 1, at offset 4008: ok
cash letter 1, bundle 2, item 1, view 2, at offset 4423: ok
cash letter 1, credit record 3, view 1, at offset 5018: ok
cash letter 2, bundle 1, item 1, view 1, at offset 5857: ok
cash letter 2, bundle 1, item 1, view 2, at offset 6272: ok
cash letter 2, bundle 1, item 2, view 1, at offset 6783: ok
cash letter 2, credit record 1, view 1, at offset 7378: ok
14 views declared as TIFF of Group 4 (format 00): 14 ok, 0 wrong
";
    assert_eq!(run("tags samples/credits-with-pictures.x9"), (0, credits.to_string(), String::new()));
}

/// A letter whose first picture is wrong in each way, and that picture alone.
#[test]
fn wrong_in_each_way() {
    let folder = Folder::new("tags-wrong");
    let file = read(PICTURED);
    for wrong in WRONG {
        let letter = with(&file, FIRST.start, wrong.0);
        let picture = &letter[FIRST];
        assert_eq!(judge(picture), wrong.1, "{wrong:?}");
        let expected = of_sample(&refused(wrong), ONE_WRONG);
        assert_eq!(run(&format!("tags {}", folder.with("letter", &letter))), (1, expected, String::new()));
        let alone = run(&format!("tags --tiff {}", folder.with("picture", picture)));
        assert_eq!(alone, (1, refused(wrong), String::new()));
    }
    // Each required tag was absent, and each was wrong.
    for tag in [256, 257, 259, 262, 273, 278, 279, 282, 283] {
        let absent = |wrong: &&Wrong| wrong.1 == (19, tag) && wrong.2[1].starts_with("no entry");
        let there = |wrong: &&Wrong| wrong.1 == (19, tag) && wrong.2[1].contains(", count ");
        assert!(WRONG.iter().any(|wrong| absent(&wrong)) && WRONG.iter().any(|wrong| there(&wrong)), "{tag}");
    }
}

/// The same in EBCDIC: pictures are never translated.
#[test]
fn wrong_in_ebcdic() {
    let folder = Folder::new("tags-ebcdic");
    let file = read("samples/ebcdic-with-pictures.x9");
    for wrong in WRONG.iter().step_by(7) {
        let letter = with(&file, FIRST.start, wrong.0);
        assert_eq!(judge(&letter[FIRST]), wrong.1, "{wrong:?}");
        let expected = of_sample(&refused(wrong), ONE_WRONG);
        assert_eq!(run(&format!("tags {}", folder.with("letter", &letter))), (1, expected, String::new()));
    }
}

/// What Table 1 leaves free, and what is not judged.
#[test]
fn right_in_other_ways() {
    let folder = Folder::new("tags-right");
    let picture = read(PICTURED)[FIRST].to_vec();
    let ratio = |above: u8, below: u8| [above, 0, 0, 0, below, 0, 0, 0];
    let ratios = |x: [u8; 8], y: [u8; 8]| with(&picture, 0, &[(122, &x), (130, &y)]);
    for image in [
        ratios(ratio(240, 1), ratio(240, 1)),
        // 800 / 4 (Note 3 of Table 1), beside 200 / 1.
        ratios([0x20, 3, 0, 0, 4, 0, 0, 0], ratio(200, 1)),
        // LONG for SHORT, a strip of no bytes, a further directory, bytes behind the end.
        with(&picture, 0, &[(12, &[4]), (24, &[4]), (72, &[4])]),
        with(&picture, 0, &[(90, &[0]), (118, &[8])]),
        [picture.as_slice(), b"more"].concat(),
    ] {
        assert_eq!(judge(&image), (0, 0));
        let outcome = run(&format!("tags --tiff {}", folder.with("picture", &image)));
        assert_eq!(outcome, (0, "ok\n".to_string(), String::new()));
    }
}

/// Every entry taken out of the directory in turn, which then stands behind the picture.
#[test]
fn required_entries_taken_out() {
    let folder = Folder::new("tags-absent");
    let picture = read(PICTURED)[FIRST].to_vec();
    for (index, tag) in [256, 257, 259, 262, 273, 278, 279, 282, 283].into_iter().enumerate() {
        let mut image = with(&picture, 0, &[(4, &[picture.len() as u8])]);
        let entries = picture[10..118].chunks(12).enumerate().filter(|(entry, _)| *entry != index);
        image.extend([8, 0]);
        entries.for_each(|(_, entry)| image.extend(entry));
        image.extend([0; 4]);
        assert_eq!(judge(&image), (19, tag));
        let (status, output, complaint) = run(&format!("tags --tiff {}", folder.with("picture", &image)));
        let lines: Vec<&str> = output.lines().collect();
        assert_eq!((status, complaint.as_str(), lines.len()), (1, "", 5), "{output}");
        assert_eq!(lines[0], format!("refused 19 tag {tag}"));
        assert_eq!(lines[3], "  found no entry with this tag among 8");
    }
}

#[test]
fn images_of_every_sort() {
    let folder = Folder::new("tags-images");
    let picture = read(PICTURED)[FIRST].to_vec();
    let right = folder.with("right.tif", &picture);
    let wrong = folder.with("wrong.tif", &with(&picture, 0, WRONG[0].0));
    let (empty, short) = (folder.with("empty.tif", b""), folder.with("short.tif", &picture[..7]));
    let (missing, inside) = (folder.path("missing.tif"), folder.path("inside"));
    fs::create_dir(&inside).unwrap();
    let cut = |found: &str| {
        format!(
            "refused 3 tag 0\n  CUT: the picture ends before one of its parts does\n  the header\n  found {found}\n  asked: 8 bytes\n"
        )
    };
    let (of_wrong, of_empty) = (refused(&WRONG[0]), cut("0 bytes: there is no picture"));
    for (words, status, output, complaint) in [
        (right.clone(), 0, "ok\n".to_string(), String::new()),
        (wrong.clone(), 1, of_wrong.clone(), String::new()),
        (empty.clone(), 1, of_empty.clone(), String::new()),
        (short.clone(), 1, cut("7 bytes"), String::new()),
        (missing.clone(), 2, String::new(), format!("icl: {missing}: there is no such file or folder\n")),
        (inside.clone(), 2, String::new(), format!("icl: {inside}: it is a folder, not a file\n")),
        (format!("{right} {right}"), 0, format!("{right}: ok\n{right}: ok\n"), String::new()),
        (format!("{right} {wrong}"), 1, format!("{right}: ok\n{wrong}: {of_wrong}"), String::new()),
        (
            format!("{missing} {wrong} {inside} {empty} {right}"),
            2,
            format!("{wrong}: {of_wrong}{empty}: {of_empty}{right}: ok\n"),
            format!("icl: {missing}: there is no such file or folder\nicl: {inside}: it is a folder, not a file\n"),
        ),
    ] {
        assert_eq!(run(&format!("tags --tiff {words}")), (status, output.clone(), complaint.clone()), "{words}");
        assert_eq!(run(&format!("tags {words} --tiff")), (status, output, complaint), "{words}");
    }
    assert_eq!(piped("tags --tiff -", &picture), (0, "ok\n".to_string(), String::new()));
    assert_eq!(piped("tags --tiff -", b""), (1, of_empty, String::new()));
    let both = format!("{wrong}: {of_wrong}-: ok\n");
    assert_eq!(piped(&format!("tags --tiff {wrong} -"), &picture), (1, both, String::new()));
}

/// A name that begins with a dash, and one that holds a line end.
#[test]
fn names_of_images() {
    let folder = Folder::new("tags-names");
    let picture = &read(PICTURED)[FIRST];
    folder.with("-x", picture);
    folder.with("a\nb", picture);
    let output = outcome(icl(["tags", "--tiff", "--", "-x", "a\nb"]).current_dir(&folder.0));
    assert_eq!(output, (0, "-x: ok\na\\nb: ok\n".to_string(), String::new()));
}

/// Not refused by any rule on tags, but more than is read; what stands beside it is judged all the same.
#[test]
fn an_image_that_is_too_large() {
    let folder = Folder::new("tags-large");
    let large = folder.sparse("large.tif", 300 << 20);
    let right = folder.with("right.tif", &read(PICTURED)[FIRST]);
    let complaint = format!("icl: {large}: too large: at most 268435456 bytes are read, and it has 314572800\n");
    let outcome = run(&format!("tags --tiff {large} {right}"));
    assert_eq!(outcome, (2, format!("{right}: ok\n"), complaint));
}

/// Clause 21.5: 00 is TIFF of Group 4; 23 and 24 are TIFF in gray, 21 is JPEG. The 50 stands 84 bytes before its 52, field 5 at positions 21 and 22.
#[test]
fn views_declared_otherwise() {
    let folder = Folder::new("tags-formats");
    let mut letter = read(PICTURED);
    for (view, format) in [(0, "21"), (1, "23"), (3, "24"), (7, "23")] {
        letter[PLACES[view].1 - 84 + 4 + 20..][..2].copy_from_slice(format.as_bytes());
        // Their pictures are not looked at.
        letter[PLACES[view].1 + 143] = b'?';
    }
    let expected = "\
cash letter 1, bundle 1, item 2, view 1, at offset 1612: ok
cash letter 1, bundle 2, item 1, view 1, at offset 2702: ok
cash letter 1, bundle 2, item 1, view 2, at offset 3117: ok
cash letter 2, bundle 1, item 1, view 1, at offset 4252: ok
4 views declared as TIFF of Group 4 (format 00): 4 ok, 0 wrong
4 views declared otherwise, passed over and not judged: 1 of format 21, 2 of format 23, 1 of format 24
";
    let in_ebcdic = folder.with("ebcdic", &to_ebcdic(&letter));
    let in_ascii = folder.with("ascii", &letter);
    for file in [in_ascii, in_ebcdic] {
        assert_eq!(run(&format!("tags {file}")), (0, expected.to_string(), String::new()));
    }
}

/// Pictures of no byte and of five, by the description of this sample in peer/reader/src/samples.rs; and a file without views.
#[test]
fn views_without_a_whole_header() {
    let words = |found: &str| {
        format!(
            "  CUT: the picture ends before one of its parts does\n  the header\n  found {found}\n  asked: 8 bytes\n"
        )
    };
    let expected = format!(
        "cash letter 2, bundle 1, item 1, view 1, at offset 593: refused 3 tag 0\n{}\
         cash letter 2, bundle 2, item 1, view 1, at offset 1156: refused 3 tag 0\n{five}\
         cash letter 2, bundle 2, item 2, view 1, at offset 1556: refused 3 tag 0\n{five}\
         3 views declared as TIFF of Group 4 (format 00): 0 ok, 3 wrong\n",
        words("0 bytes: there is no picture"),
        five = words("5 bytes"),
    );
    assert_eq!(run("tags peer/samples/sound-6-two-letters.x9"), (1, expected, String::new()));
    let none = "0 views declared as TIFF of Group 4 (format 00): 0 ok, 0 wrong\n";
    assert_eq!(run("tags peer/samples/sound-2-checks.x9"), (0, none.to_string(), String::new()));
}

/// The letter has to be accepted; a picture's tags bear on no other command.
#[test]
fn letters_refused_and_letters_accepted() {
    let folder = Folder::new("tags-letters");
    let damaged = "peer/samples/damaged-06-item-count.x9";
    let refused_by_pictures = run(&format!("pictures {damaged} {}", folder.path("out")));
    assert_eq!(refused_by_pictures.0, 1);
    assert_eq!(run(&format!("tags {damaged}")), refused_by_pictures);

    let letter = folder.with("letter", &with(&read(PICTURED), FIRST.start, WRONG[0].0));
    assert_eq!(run(&format!("check {letter}")), run(&format!("check {PICTURED}")));
    assert_eq!(run(&format!("tree {letter}")), run(&format!("tree {PICTURED}")));
    let out = folder.path("pictures");
    assert_eq!(run(&format!("pictures {letter} {out}")).0, 0);
    let names = folder.all("pictures");
    let images: Vec<String> = names.iter().map(|name| format!("{out}/{name}")).collect();
    let rest: String = images[1..].iter().map(|image| format!("{image}: ok\n")).collect();
    let expected = format!("{}: {}{rest}", images[0], refused(&WRONG[0]));
    assert_eq!(run(&format!("tags --tiff {}", images.join(" "))), (1, expected, String::new()));
}
