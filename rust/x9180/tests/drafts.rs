//! Drafts: of files, changed, and written again; what is refused, and in which words.

use peer_reader::copy::{copy, to_ebcdic};
use peer_reader::random::Random;
use x9180::{read, CharacterSet, DataType, Date, Draft, Kind, Number, Place, Record, Refusal, KINDS};

fn folder(name: &str) -> std::path::PathBuf {
    std::path::Path::new(env!("CARGO_MANIFEST_DIR")).join("../..").join(name)
}

fn sample(name: &str) -> Vec<u8> {
    std::fs::read(folder("peer/samples").join(name)).unwrap()
}

/// Every sound sample, with its name.
fn sound_samples() -> Vec<(String, Vec<u8>)> {
    let mut samples = Vec::new();
    for name in ["peer/samples", "peer/samples/ebcdic", "samples"] {
        let paths = std::fs::read_dir(folder(name)).unwrap().map(|entry| entry.unwrap().path());
        for path in paths.filter(|path| path.extension().is_some_and(|end| end == "x9")) {
            let file = std::fs::read(&path).unwrap();
            if read(&file).is_ok() {
                samples.push((path.display().to_string(), file));
            }
        }
    }
    assert_eq!(samples.len(), 13 + 6 + 3);
    samples
}

/// Accepted files of the generator, in both sets.
fn generated(count: u64) -> impl Iterator<Item = Vec<u8>> {
    let both = |index| {
        let ascii = peer_reader::stream::file(4, index).bytes;
        [to_ebcdic(&ascii), ascii]
    };
    (0..count).flat_map(both).filter(|file| file.len() < 100_000 && read(file).is_ok())
}

#[test]
fn a_draft_is_written_as_the_same_bytes() {
    let mut seen = [0; 2];
    let samples = sound_samples().into_iter().map(|(_, file)| file);
    for file in samples.chain(generated(1_500)) {
        let draft = Draft::of(&file).unwrap();
        assert_eq!(draft.write().unwrap(), *copy(&file));
        assert_eq!(draft.records(), read(&file).unwrap().totals().records);
        assert_eq!(draft.size(), file.len() as u64);
        seen[usize::from(CharacterSet::of(&file) == CharacterSet::Ebcdic)] += 1;
    }
    assert!(seen.iter().all(|seen| *seen > 300), "{seen:?}");
}

/// A text without the blanks that its data type fills a field up with.
fn unfilled(data_type: DataType, text: &str) -> &str {
    match data_type.fill() {
        (' ', true) => text.trim_start_matches(' '),
        (' ', false) => text.trim_end_matches(' '),
        _ => text,
    }
}

/// The draft of the same values, put down one by one: what is blank is not given.
fn by_values(draft: &Draft<'_>) -> Draft<'static> {
    let mut other = Draft::new();
    for number in 1..=draft.records() {
        let kind = draft.kind(number).unwrap();
        let mut record = Record::new(kind.number).unwrap();
        record.ask_blank_micr_total(draft.asks_blank_micr_total(number)).unwrap_or(());
        for field in kind.fields.iter().filter(|field| !kind.works_out(field.number)) {
            match (draft.text(number, field.number), field.place) {
                (None, _) => record.lend(field.number, draft.bytes(number, field.number).unwrap()).unwrap(),
                (Some(text), Place::SizedBy(_)) => record.set(field.number, &text).unwrap(),
                (Some(text), _) if text.trim().is_empty() => {}
                (Some(text), _) => record.set(field.number, unfilled(field.data_type, &text)).unwrap(),
            }
        }
        other.push(&record);
    }
    other
}

#[test]
fn the_same_values_are_written_as_the_same_bytes() {
    let samples = sound_samples().into_iter().map(|(_, file)| file);
    for file in samples.chain(generated(700)) {
        let draft = by_values(&Draft::of(&file).unwrap());
        assert_eq!(draft.write().unwrap(), *copy(&file));
    }
}

/// The refusals of a draft's file are those of reading it.
#[test]
fn no_draft_of_a_file_that_is_refused() {
    for name in ["damaged-02-check-digit.x9", "damaged-08-open.x9", "ebcdic/damaged-8-micr-total.x9"] {
        let file = sample(name);
        assert_eq!(Draft::of(&file).unwrap_err(), read(&file).unwrap_err(), "{name}");
    }
    assert_eq!(Draft::of(&[]).unwrap_err(), read(&[]).unwrap_err());
}

/// 01, 10, 20, 25 with 26, 27, 28, 28, 25 without, 70, 90, 99. In EBCDIC the draft is changed in EBCDIC and written in ASCII.
#[test]
fn values_are_changed_and_the_rest_follows() {
    let ascii = sample("sound-2-checks.x9");
    for file in [ascii.clone(), to_ebcdic(&ascii)] {
        let mut draft = Draft::of(&file).unwrap();
        let types: Vec<u64> = (1..=12).map(|record| draft.kind(record).unwrap().number).collect();
        assert_eq!(types, [1, 10, 20, 25, 26, 27, 28, 28, 25, 70, 90, 99]);
        assert_eq!((draft.of_type(25), draft.of_type(31)), (vec![4, 9], vec![]));

        draft.set(9, 6, 9_999_999_999).unwrap();
        draft.set(1, 9, "A {B} ~").unwrap();
        draft.set(11, 7, Date::new(2024, 2, 29)).unwrap();
        draft.set(6, 13, "A LONGER LOCATOR").unwrap();
        draft.set(6, 18, "").unwrap();
        assert_eq!(draft.text(1, 9).as_deref(), Some("A {B} ~           "));
        assert_eq!(draft.text(6, 13).as_deref(), Some("A LONGER LOCATOR"));
        let written = draft.write().unwrap();
        assert_eq!(draft.size(), written.len() as u64);
        let reading = read(&written).unwrap();
        assert_eq!(reading.character_set(), CharacterSet::Ascii);
        assert_eq!(reading.totals().debit, 10_000_000_099);
        let text = |record: usize, field| reading.rows()[record - 1].text(&written, field).unwrap();
        assert_eq!((text(1, 9).trim_end(), text(11, 7).as_str()), ("A {B} ~", "20240229"));
        assert_eq!((text(6, 13).as_str(), text(6, 6).as_str()), ("A LONGER LOCATOR", "0016"));
        assert_eq!(text(11, 4), "00010000000099");

        // The values of the draft are those of the file.
        let again = Draft::of(&written).unwrap();
        for record in 1..=draft.records() {
            for field in draft.kind(record).unwrap().fields {
                assert_eq!(
                    draft.text(record, field.number),
                    again.text(record, field.number),
                    "{record} {}",
                    field.name
                );
            }
        }
    }
}

#[test]
fn records_are_added_and_taken_out() {
    let ascii = sample("sound-2-checks.x9");
    for file in [ascii.clone(), to_ebcdic(&ascii)] {
        let mut draft = Draft::of(&file).unwrap();
        // The first check's addenda: one 28 more, then neither 26 nor 27.
        let mut addendum = Record::new(28).unwrap();
        addendum.set(13, "ONE MORE").unwrap();
        draft.insert(8, &addendum).unwrap();
        draft.remove(5).unwrap();
        draft.remove(5).unwrap();
        // A check at the end of the bundle, before its control.
        let mut check = Record::new(25).unwrap();
        check.set(4, "123456780").unwrap();
        check.set(6, 7).unwrap();
        let end = draft.of_type(70)[0];
        draft.insert(end, &check).unwrap();
        let written = draft.write().unwrap();
        let reading = read(&written).unwrap();
        let types: Vec<u64> = reading.rows().iter().map(|row| row.record_type).collect();
        assert_eq!(types, [1, 10, 20, 25, 28, 28, 28, 25, 25, 70, 90, 99]);
        let text = |record: usize, field| reading.rows()[record - 1].text(&written, field).unwrap();
        assert_eq!(
            [(4, 12), (5, 2), (6, 2), (7, 2), (9, 12)].map(|(record, field)| text(record, field)),
            ["03", "01", "02", "03", "00"]
        );
        assert_eq!((text(6, 13).trim_end(), reading.totals().debit), ("ONE MORE", 357));
    }
    let mut draft = Draft::new();
    let header = Record::new(1).unwrap();
    for (number, given) in [(0, "record 0"), (2, "record 2"), (u64::MAX, "record 18446744073709551615")] {
        let asked = "asked: the number of a record: the draft has 0";
        assert_eq!(draft.insert(number, &header).unwrap_err().to_string(), format!("given {given}; {asked}"));
    }
    assert!(draft.remove(1).is_err() && draft.set(1, 2, "03").is_err() && draft.set_bytes(0, 27, b"").is_err());
    draft.insert(1, &header).unwrap();
    assert_eq!((draft.records(), draft.kind(1), draft.kind(2)), (1, Kind::of(1), None));
}

/// A picture of another size, in its place; all else of the record is as it was.
#[test]
fn a_picture_is_changed() {
    let ascii = sample("sound-8-signed-view.x9");
    for file in [ascii.clone(), to_ebcdic(&ascii)] {
        let mut draft = Draft::of(&file).unwrap();
        let record = draft.of_type(52)[0];
        let before: Vec<_> = (22..=28).map(|field| draft.bytes(record, field).unwrap().to_vec()).collect();
        let picture: Vec<u8> = (0..=255).cycle().take(70_000).collect();
        draft.set_bytes(record, 27, &picture).unwrap();
        draft.set(record, 22, "KEY").unwrap();
        let written = draft.write().unwrap();
        let reading = read(&written).unwrap();
        let row = reading.rows()[record as usize - 1];
        assert_eq!(x9180::picture(&written, row.offset).unwrap(), picture);
        assert_eq!(row.field(&written, 22), Some(b"KEY".as_slice()));
        for field in [23, 26, 28] {
            assert_eq!(row.field(&written, field), Some(before[field as usize - 22].as_slice()), "field {field}");
        }
        // And back.
        draft.set_bytes(record, 27, &before[5]).unwrap();
        let key = CharacterSet::of(&file).text(&before[0]).unwrap();
        draft.set(record, 22, &key).unwrap();
        assert_eq!(draft.write().unwrap(), ascii);
    }
}

#[test]
fn a_blank_micr_total_is_asked_for() {
    // 25.10 is 1 in the first check of 1.00 alone.
    let file = sample("sound-2-checks.x9");
    let mut draft = Draft::of(&file).unwrap();
    let record = draft.of_type(70)[0];
    for (blank, stated) in [(true, "            "), (false, "000000000100")] {
        draft.ask_blank_micr_total(record, blank).unwrap();
        assert_eq!(draft.asks_blank_micr_total(record), blank);
        let written = draft.write().unwrap();
        assert_eq!(read(&written).unwrap().rows()[9].text(&written, 4).as_deref(), Some(stated));
        assert_eq!(Draft::of(&written).unwrap().asks_blank_micr_total(record), blank);
    }
    assert_eq!(
        draft.ask_blank_micr_total(1, true).unwrap_err().to_string(),
        "record 1 of the draft, File Header Record (type 01); asked: a Bundle Control Record (type 70), which alone has a MICR total \
         that may be blank"
    );
}

/// The lines of a refusal behind its first, and its numbers.
fn told(refusal: &Refusal) -> (&'static str, u64, u64, u64, Vec<String>) {
    let lines = format!("{refusal:#}").lines().skip(1).map(str::to_string).collect();
    assert_eq!((refusal.decided_by(), refusal.more_bytes()), (None, None));
    (refusal.number().name(), refusal.record(), refusal.field(), refusal.offset(), lines)
}

#[test]
fn refusals_of_place() {
    let file = sample("sound-2-checks.x9");
    let mut draft = Draft::of(&file).unwrap();
    draft.remove(12).unwrap();
    // The file has 1,159 bytes: the 99 takes 84 of them.
    let lines = [
        "record 12 of the draft, which ends without a File Control Record (type 99)",
        "the record before it is record 11, Cash Letter Control Record (type 90)",
    ];
    let offset = file.len() as u64 - 84;
    assert_eq!(told(&draft.write().unwrap_err()), ("PLACE", 12, 0, offset, lines.map(str::to_string).to_vec()));

    let mut draft = Draft::of(&file).unwrap();
    draft.push(&Record::new(99).unwrap());
    let (name, record, field, offset, lines) = told(&draft.write().unwrap_err());
    assert_eq!((name, record, field, offset), ("PLACE", 13, 0, file.len() as u64));
    assert_eq!(lines[1], "the record before it is record 12, File Control Record (type 99)");

    let mut draft = Draft::of(&file).unwrap();
    draft.insert(9, &Record::new(31).unwrap()).unwrap();
    let lines = [
        "record 9 of the draft, Return Record (type 31), at offset 734 of the file being made",
        "a bundle holds checks or returns, not both, and record 4 is a Check Detail Record (type 25)",
    ];
    assert_eq!(told(&draft.write().unwrap_err()), ("PLACE", 9, 0, 734, lines.map(str::to_string).to_vec()));

    let lines = [
        "record 1 of the draft, which ends without a File Control Record (type 99)",
        "a file begins with a File Header Record (type 01)",
    ];
    assert_eq!(told(&Draft::new().write().unwrap_err()), ("PLACE", 1, 0, 0, lines.map(str::to_string).to_vec()));
}

#[test]
fn refusals_of_fields() {
    let file = sample("sound-2-checks.x9");
    let mut draft = Draft::of(&file).unwrap();
    draft.set(4, 8, "Q").unwrap();
    // The 25 stands at 252, its field 8 at position 73.
    let lines = [
        "record 4 of the draft, Check Detail Record (type 25), at offset 252 of the file being made",
        "field 8, Documentation Type Indicator, at offset 328",
        "given \"Q\"",
        "asked: all blank, or one of A-M",
    ];
    assert_eq!(told(&draft.write().unwrap_err()), ("FIELD", 4, 8, 252, lines.map(str::to_string).to_vec()));

    // A hundred addenda: 25.12 has two digits.
    let mut draft = Draft::of(&file).unwrap();
    let addendum = Record::new(28).unwrap();
    (0..96).for_each(|_| draft.insert(8, &addendum).unwrap());
    let lines = [
        "record 4 of the draft, Check Detail Record (type 25), at offset 252 of the file being made",
        "field 12, Check Detail Record Addendum Count, at offset 332",
        "100 addenda follow the item",
        "the field holds 2 digits",
    ];
    assert_eq!(told(&draft.write().unwrap_err()), ("FIELD", 4, 12, 252, lines.map(str::to_string).to_vec()));
    draft.remove(8).unwrap();
    assert!(draft.write().is_ok());
}

#[test]
fn refusals_of_links() {
    // 01, 10 (I), 20, 25, 50, 52, 54, 50, 52, 70, ...
    let file = sample("sound-3-check-with-views.x9");
    let mut draft = Draft::of(&file).unwrap();
    let data = draft.of_type(52)[0];
    draft.set(data, 5, "77").unwrap();
    let refusal = draft.write().unwrap_err();
    let sequence = draft.text(4, 7).unwrap();
    let (name, record, field, offset, lines) = told(&refusal);
    assert_eq!((name, record, field), ("LINK", data, 5));
    let expected = [
        format!(
            "record {data} of the draft, Image View Data Record (type 52), at offset {offset} of the file being made"
        ),
        format!("field 5, ECE Institution Item Sequence Number, at offset {}", offset + 4 + 21),
        "given \"77             \"".to_string(),
        format!("field 7, ECE Institution Item Sequence Number, of record 4 is \"{sequence}\""),
    ];
    assert_eq!(lines, expected);

    // Without its views, in a letter of type I.
    let mut draft = Draft::of(&file).unwrap();
    (0..5).for_each(|_| draft.remove(5).unwrap());
    let (name, record, field, _, lines) = told(&draft.write().unwrap_err());
    assert_eq!((name, record, field), ("LINK", 5, 1));
    let expected = [
        "record 5 of the draft, Bundle Control Record (type 70), at offset 336 of the file being made",
        "field 8, Cash Letter Record Type Indicator, of record 2 is \"I\", and the item of record 4 has no view",
    ];
    assert_eq!(lines, expected);

    // The same behind an item of which an addendum was taken out: what its count said in the file is not spoken of.
    let checks = sample("sound-2-checks.x9");
    let mut draft = Draft::of(&checks).unwrap();
    draft.set(2, 8, "I").unwrap();
    draft.remove(5).unwrap();
    let (name, record, field, _, lines) = told(&draft.write().unwrap_err());
    assert_eq!((name, record, field), ("LINK", 8, 1));
    let says = "field 8, Cash Letter Record Type Indicator, of record 2 is \"I\", and the item of record 4 has no view";
    assert_eq!(lines[1..], [says]);

    // A tenth 26: its number has one digit.
    let file = sample("sound-2-checks.x9");
    let mut draft = Draft::of(&file).unwrap();
    let addendum = Record::new(26).unwrap();
    (0..9).for_each(|_| draft.insert(6, &addendum).unwrap());
    let (name, record, field, _, lines) = told(&draft.write().unwrap_err());
    assert_eq!((name, record, field), ("LINK", 14, 2));
    assert_eq!(lines[2], "the next number in this item is 10, which the field cannot hold");
}

#[test]
fn refusals_of_totals() {
    // 101 checks of 99,999,999.99: 1,009,999,999,899 cents have 13 digits.
    let file = sample("sound-2-checks.x9");
    let mut draft = Draft::of(&file).unwrap();
    draft.set(4, 6, 9_999_999_999).unwrap();
    draft.set(9, 6, 9_999_999_999).unwrap();
    let mut check = Record::new(25).unwrap();
    check.set(4, "123456780").unwrap();
    check.set(6, 9_999_999_999).unwrap();
    (0..99).for_each(|_| draft.insert(10, &check).unwrap());
    let refusal = draft.write().unwrap_err();
    let (name, record, field, offset, lines) = told(&refusal);
    assert_eq!((name, record, field), ("TOTAL", 109, 3));
    let expected = [
        format!("record 109 of the draft, Bundle Control Record (type 70), at offset {offset} of the file being made"),
        format!("field 3, Bundle Debit Total Amount, at offset {}", offset + 4 + 6),
        "cents of the debit items in the bundle: 1009999999899".to_string(),
        "the field holds 12 digits".to_string(),
    ];
    assert_eq!(lines, expected);
    // A hundred of them come to 999,999,999,900.
    draft.remove(10).unwrap();
    assert_eq!(read(&draft.write().unwrap()).unwrap().totals().debit, 999_999_999_900);
}

/// 27 views with pictures of 9,999,999 bytes pass the limit. They are lent: the draft's text has the only copies.
#[test]
fn a_file_past_the_limit() {
    let file = sample("sound-3-check-with-views.x9");
    let mut draft = Draft::of(&file).unwrap();
    let (detail, data) = (draft.of_type(50)[0], draft.of_type(52)[0]);
    let values = by_values(&draft);
    let mut view = Record::new(50).unwrap();
    let mut pictured = Record::new(52).unwrap();
    for (record, number) in [(&mut view, detail), (&mut pictured, data)] {
        for field in
            record.kind().fields.iter().filter(|field| !record.kind().works_out(field.number)).collect::<Vec<_>>()
        {
            match values.text(number, field.number) {
                Some(text) => record.set(field.number, &text).unwrap(),
                None => record.lend(field.number, &[]).unwrap(),
            }
        }
    }
    let picture = vec![0x5A; 9_999_999];
    pictured.lend(27, &picture).unwrap();
    for _ in 0..27 {
        draft.insert(detail, &pictured).unwrap();
        draft.insert(detail, &view).unwrap();
    }
    let refusal = draft.write().unwrap_err();
    let lines = vec![format!("the file would have {} bytes", draft.size())];
    assert_eq!(told(&refusal), ("SIZE", 0, 0, 0, lines));
    draft.remove(detail).unwrap();
    draft.remove(detail).unwrap();
    assert_eq!(draft.write().unwrap().len() as u64, draft.size());
}

/// Whatever is done to a draft, it is written as a file that is accepted and has its values, or refused at a record that it has or should have.
#[test]
fn drafts_changed_by_chance() {
    let (mut written, mut refused, mut unfit) = (0, 0, 0);
    for (index, file) in generated(400).enumerate() {
        let mut random = Random::for_file(44, index as u64);
        let mut draft = Draft::of(&file).unwrap();
        for _ in 0..random.below(4) {
            unfit += u64::from(change(&mut draft, &mut random).is_err());
        }
        match draft.write() {
            Ok(bytes) => {
                assert_eq!(by_values(&draft).write().as_deref(), Ok(bytes.as_slice()));
                assert_eq!(Draft::of(&bytes).unwrap().write().as_deref(), Ok(bytes.as_slice()));
                written += 1;
            }
            Err(refusal) => {
                assert!((1..=draft.records() + 1).contains(&refusal.record()), "{refusal}");
                assert!(matches!(refusal.number(), Number::PLACE | Number::FIELD | Number::LINK | Number::TOTAL));
                assert!(refusal.field() == 0 || refusal.named_field().is_some(), "{refusal}");
                assert!(format!("{refusal:#}").lines().count() > 1);
                refused += 1;
            }
        }
    }
    assert!(written > 100 && refused > 50 && unfit > 20, "{written} {refused} {unfit}");
}

fn change(draft: &mut Draft<'_>, random: &mut Random) -> Result<(), x9180::Misfit> {
    let record = random.below(draft.records() as usize + 2) as u64;
    let carried: Vec<&Kind> = KINDS.iter().filter(|kind| kind.is_carried()).collect();
    match random.below(4) {
        0 => draft.remove(record),
        1 => draft.insert(record, &Record::new(random.pick(&carried).number)?),
        2 => draft.set_bytes(record, 27, &vec![0; random.below(300)]),
        _ => {
            let fields = draft.kind(record).map_or(1, |kind| kind.fields.len());
            let text = random.pick(&["", "0", "1", "A", "01", "20240116", "123456780", "~", "\u{e9}", "12 3"]);
            draft.set(record, random.below(fields + 1) as u64, text)
        }
    }
}
