//! The tags of pictures: the answers of the independent judge, and words that agree with what it rests them on.

use std::collections::BTreeMap;

use peer_reader::pictures::tiff;
use peer_tiff::generate::image;
use peer_tiff::judge::{entries, examine, first, Entry, Verdict, Why, REQUIRED};
use x9180::{tags, Number, Tag, TagFault, TAGS};

/// The samples and how many views each has. They are declared as TIFF, one and all.
const SAMPLES: [(&str, usize); 3] =
    [("two-letters-with-pictures.x9", 8), ("ebcdic-with-pictures.x9", 8), ("credits-with-pictures.x9", 14)];

#[test]
fn the_pictures_of_the_samples_pass() {
    for (name, views) in SAMPLES {
        let file = std::fs::read(format!("{}/../../samples/{name}", env!("CARGO_MANIFEST_DIR"))).unwrap();
        let reading = x9180::read(&file).unwrap();
        let letters = || reading.letters();
        let in_bundles = letters().flat_map(|letter| letter.bundles()).flat_map(|bundle| bundle.items());
        let items = in_bundles.chain(letters().flat_map(|letter| letter.credits()));
        let mut judged = 0;
        for view in items.flat_map(|item| item.views()) {
            let picture = x9180::picture(&file, view.offset()).unwrap();
            assert!(view.is_tiff(&file), "{name}");
            assert_eq!(examine(picture).why, Why::Sound, "{name}");
            assert_eq!(tags(picture), Ok(()), "{name}");
            judged += 1;
        }
        assert_eq!(judged, views, "{name}");
    }
}

/// Only 00 is declared as TIFF of Group 4 (clause 21.5, Annex F).
#[test]
fn formats_that_are_not_judged() {
    let name = concat!(env!("CARGO_MANIFEST_DIR"), "/../../peer/samples/sound-8-signed-view.x9");
    for format in ["00", "01", "20", "21", "22", "23", "24", "25", "26", "99"] {
        let mut file = std::fs::read(name).unwrap();
        // The 50 is the fifth record, at 336; its field 5 stands at positions 21 and 22.
        file[336 + 4 + 20..][..2].copy_from_slice(format.as_bytes());
        let reading = x9180::read(&file).unwrap();
        let item = reading.letter(1).and_then(|letter| letter.bundle(1)).and_then(|bundle| bundle.item(1)).unwrap();
        assert_eq!(item.view(1).unwrap().is_tiff(&file), format == "00", "{format}");
    }
}

/// Tables 1 and 2 in ascending order; what is asked stands at the tags of Table 1.
#[test]
fn the_table_of_tags() {
    assert!(TAGS.windows(2).all(|pair| pair[0].number < pair[1].number));
    let required: Vec<u64> = TAGS.iter().filter(|tag| tag.asked.is_some()).map(|tag| tag.number).collect();
    assert_eq!(required, REQUIRED.map(u64::from));
    let optional: Vec<u64> = TAGS.iter().filter(|tag| tag.asked.is_none()).map(|tag| tag.number).collect();
    assert_eq!(optional, [254, 258, 263, 266, 274, 277, 293, 296]);
    assert!(TAGS.iter().all(|tag| Tag::of(tag.number) == Some(tag)));
}

#[test]
fn numbers_have_names() {
    let names: Vec<&str> = (0..=20).map(|number| Number(number).name()).collect();
    let known = "ACCEPTED SIZE ROOM CUT LENGTH TYPE PLACE FIELD LINK TOTAL OPEN AFTER";
    assert_eq!(names[..12].join(" "), known);
    assert_eq!(names[14], "UNKNOWN");
    assert_eq!(names[17..20], ["NOTHING", "TAGORDER", "TAGVALUE"]);
    assert!((0..12).chain(17..20).all(|number| !Number(number).meaning().contains("this version")));
}

/// Answer and words of a picture beside the independent judge; what the answer rests on is counted.
fn compare(image: &[u8], what: &str, seen: &mut BTreeMap<String, u64>) {
    let verdict = examine(image);
    let why = format!("{:?}", verdict.why);
    let why = why.split('(').next().unwrap_or_default().to_string();
    match (tags(image), verdict.number) {
        (Ok(()), 0) => {}
        (Err(fault), number) => {
            assert_eq!((fault.number().0, fault.tag()), (number, u64::from(verdict.tag)), "{what}");
            agree(image, &fault, &verdict, what);
        }
        (answer, number) => panic!("{what}: {answer:?}, by the independent judge {number}"),
    }
    *seen.entry(why).or_default() += 1;
}

/// The words name the part that the independent judge found, with what stands there and what is asked.
fn agree(image: &[u8], fault: &TagFault, verdict: &Verdict, what: &str) {
    let words = format!("{fault:#}");
    assert_eq!(fault.to_string(), words.replace('\n', "; "), "{what}");
    assert_eq!(fault.line(), format!("refused {} tag {}", verdict.number, verdict.tag), "{what}");
    let lines: Vec<&str> = words.lines().collect();
    let [meaning, place, found, asked] = lines[..] else { panic!("{what}: {words}") };
    assert_eq!(found.strip_prefix("found "), fault.found(), "{what}");
    assert_eq!(asked.strip_prefix("asked: "), fault.asked(), "{what}");
    let name = Tag::of(fault.tag()).map_or(format!("tag {}", fault.tag()), Tag::to_string);
    let (starts, start_of_place, start_of_found) = match verdict.why {
        Why::Sound => panic!("{what}"),
        Why::Short => ("CUT: ", "the header".to_string(), format!("found {} byte", image.len())),
        Why::Mark => ("TAGVALUE: the header", "the byte order mark, at offset 0".to_string(), "found ".to_string()),
        Why::FortyTwo => {
            let number = u16::from_le_bytes([image[2], image[3]]);
            ("TAGVALUE: the header", "the number behind the byte order mark".to_string(), format!("found {number}"))
        }
        Why::DirectoryCount => ("CUT: ", "the directory".to_string(), "found its count of entries, at".to_string()),
        Why::Directory => ("CUT: ", "the directory".to_string(), "found ".to_string()),
        Why::ValueOf(index) => {
            let entry = entries(image).unwrap()[index];
            ("CUT: ", format!("tag {}", entry.tag), format!("found {}value of ", type_and_count(&entry)))
        }
        Why::Strip => ("CUT: ", "the strip".to_string(), "found ".to_string()),
        Why::Order => ("TAGORDER: ", format!("{name}, "), "found it behind tag ".to_string()),
        Why::Absent => ("TAGVALUE: a required", name, "found no entry with this tag among ".to_string()),
        _ => {
            let entry = *first(&entries(image).unwrap(), verdict.tag).unwrap();
            ("TAGVALUE: a required", format!("{name}, entry "), format!("found {}", type_and_count(&entry)))
        }
    };
    assert!(meaning.starts_with(starts), "{what}, {:?}: {words}", verdict.why);
    assert!(place.starts_with(&start_of_place), "{what}, {:?}: {words}", verdict.why);
    assert!(found.starts_with(&start_of_found), "{what}, {:?}: {words}", verdict.why);
    if let Why::ValueOf(index) = verdict.why {
        assert!(place.contains(&format!(", entry {} of ", index + 1)), "{what}: {words}");
    }
    if verdict.number == 3 {
        let length = format!("which has {} byte", image.len());
        assert!(asked.contains(&length) || verdict.why == Why::Short && asked == "asked: 8 bytes", "{what}: {words}");
    }
    if let (Some(tag), 19) = (Tag::of(fault.tag()), verdict.number) {
        assert!(asked.starts_with(&format!("asked: {}", tag.asked.unwrap())), "{what}: {words}");
    }
}

/// The types of TIFF 6.0, by their numbers.
fn type_and_count(entry: &Entry) -> String {
    const NAMES: [&str; 12] = [
        "BYTE",
        "ASCII",
        "SHORT",
        "LONG",
        "RATIONAL",
        "SBYTE",
        "UNDEFINED",
        "SSHORT",
        "SLONG",
        "SRATIONAL",
        "FLOAT",
        "DOUBLE",
    ];
    let name = usize::from(entry.kind).checked_sub(1).and_then(|place| NAMES.get(place));
    let name =
        name.map_or_else(|| format!("type {}, which TIFF 6.0 does not have", entry.kind), |name| name.to_string());
    format!("{name}, count {}, ", entry.count)
}

#[test]
fn generated_pictures() {
    let mut seen = BTreeMap::new();
    for index in 0..12_000 {
        let made = image(13, index);
        compare(&made.bytes, &format!("image {index}, {}", made.shape), &mut seen);
    }
    // Everything that an answer can rest on has come about.
    assert_eq!(seen.len(), 17, "{seen:?}");
    assert!(seen.values().all(|count| *count >= 10), "{seen:?}");
}

/// Every beginning of a sound picture, and every byte of it made each of some others.
#[test]
fn a_sound_picture_cut_and_changed() {
    let sound = tiff(&[1, 2, 3]);
    let mut seen = BTreeMap::new();
    for length in 0..=sound.len() {
        compare(&sound[..length], &format!("length {length}"), &mut seen);
    }
    for place in 0..sound.len() {
        for byte in [0, 1, 2, 3, 4, 5, 12, 13, 0x49, 0x7F, 0x80, 0xFF] {
            let mut image = sound.clone();
            image[place] = byte;
            compare(&image, &format!("byte {byte} at {place}"), &mut seen);
        }
    }
    assert!(seen.len() > 10, "{seen:?}");
}
