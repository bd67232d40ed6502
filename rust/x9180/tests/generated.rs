//! Files of the independent generator: the levels of accepted ones, the words of refused ones.

use std::collections::BTreeMap;

use peer_reader::copy::to_ebcdic;
use peer_reader::random::Random;
use peer_reader::stream::{file, shaped};
use x9180::{
    picture, read, record, Bundle, CharacterSet, Content, Item, ItemKind, Letter, Number, Refusal, Row, Totals,
};

/// In every accepted file, of either set, the levels hold each row once, in order, and their sums are those that the library added up and
/// that the control records state.
#[test]
fn levels_hold_every_row() {
    let (mut accepted, mut seen) = (0, Seen::default());
    for index in (0..8_000).filter(|index| index / 2 % 5_000 != 2_500) {
        let ascii = file(9, index / 2).bytes;
        let file = if index % 2 == 0 { ascii } else { to_ebcdic(&ascii) };
        let Ok(reading) = read(&file) else { continue };
        let mut walk = Walk { file: &file, rows: vec![reading.rows()[0]], sums: Totals::default(), seen };
        for letter in reading.letters() {
            walk.letter(&letter);
            assert_eq!(reading.letter(letter.ordinal()).unwrap().rows(), letter.rows());
        }
        walk.rows.extend(reading.control());
        walk.sums.records = walk.rows.len() as u64;
        assert_eq!(walk.rows, reading.rows(), "file {index}");
        assert_eq!(walk.sums, reading.totals(), "file {index}");
        seen = walk.seen;
        accepted += 1;
    }
    assert!(accepted > 1_600 && seen.pictures > 1_600, "{accepted} files, {seen:?}");
    assert!(seen.credits_in_letters > 200 && seen.credits_in_bundles > 200 && seen.debit_adjustments > 40, "{seen:?}");
}

#[derive(Clone, Copy, Debug, Default)]
struct Seen {
    pictures: u64,
    credits_in_letters: u64,
    credits_in_bundles: u64,
    debit_adjustments: u64,
}

/// Goes through the levels, and writes down the rows and adds up the amounts on the way.
struct Walk<'f> {
    file: &'f [u8],
    rows: Vec<Row>,
    sums: Totals,
    seen: Seen,
}

impl Walk<'_> {
    fn letter(&mut self, letter: &Letter<'_>) {
        self.sums.letters += 1;
        self.rows.push(letter.rows()[0]);
        for content in letter.contents() {
            match content {
                Content::Bundle(bundle) => {
                    self.bundle(&bundle);
                    assert_eq!(letter.bundle(bundle.ordinal()).unwrap().rows(), bundle.rows());
                }
                Content::Credit(credit) => {
                    self.seen.credits_in_letters += 1;
                    assert_eq!(credit.kind(), ItemKind::Credit);
                    self.item(&credit);
                    assert!(credit.rows().iter().all(|row| (row.bundle, row.item) == (0, 0)));
                    assert_eq!(letter.credit(credit.ordinal()).unwrap().rows(), credit.rows());
                }
            }
        }
        let control = letter.rows().last().unwrap();
        self.rows.push(*control);
        let totals = letter.totals();
        assert_eq!(totals.records, letter.rows().len() as u64);
        // Clause 34: fields 2, 3, 4, 5, 8 and 9.
        let debits = [totals.bundles, totals.debit_items(), totals.debit];
        let stated = [2, 3, 4, 5, 8, 9].map(|field| self.stated(control, field));
        assert_eq!(stated, [debits.as_slice(), &[totals.views, totals.credit_items, totals.credit]].concat()[..]);
    }

    fn bundle(&mut self, bundle: &Bundle<'_>) {
        self.sums.bundles += 1;
        self.rows.push(bundle.rows()[0]);
        for item in bundle.items() {
            self.seen.credits_in_bundles += u64::from(item.kind() == ItemKind::Credit);
            self.item(&item);
            assert_eq!(bundle.item(item.ordinal()).unwrap().rows(), item.rows());
        }
        let control = bundle.rows().last().unwrap();
        self.rows.push(*control);
        let totals = bundle.totals();
        // Clause 31: fields 2, 3, 5, 6 and 7.
        let stated = [2, 3, 5, 6, 7].map(|field| self.stated(control, field));
        assert_eq!(stated, [totals.debit_items(), totals.debit, totals.views, totals.credit_items, totals.credit]);
    }

    fn item(&mut self, item: &Item<'_>) {
        let first = item.rows()[0];
        let is_credit = first.record_type == 61 && first.text(self.file, 2).unwrap() != "9";
        assert_eq!(item.is_debit(), !is_credit);
        self.seen.debit_adjustments += u64::from(first.record_type == 61 && !is_credit);
        self.sums.items += 1;
        if is_credit {
            self.sums.credit_items += 1;
            self.sums.credit += item.amount();
        } else {
            self.sums.debit += item.amount();
        }
        self.rows.push(first);
        self.rows.extend(item.addenda());
        for view in item.views() {
            self.sums.views += 1;
            self.rows.extend(view.rows());
            let found = peer_reader::picture::picture(self.file, view.offset());
            let part = &self.file[found.start as usize..][..found.length as usize];
            assert_eq!(picture(self.file, view.offset()).unwrap(), part);
            self.seen.pictures += 1;
        }
    }

    /// The number that a control field states.
    fn stated(&self, control: &Row, field: u64) -> u64 {
        control.text(self.file, field).unwrap().parse().unwrap()
    }
}

/// Every link and every total that can be refused is told with what it disagrees with; every refused field with what is asked, and a wrong check
/// digit with the right one.
#[test]
fn the_last_line_says_why() {
    let (mut told, mut check_digits) = ([0; 3], 0);
    for (place, (shape, number)) in
        [("link", Number::LINK), ("total", Number::TOTAL), ("field", Number::FIELD)].iter().enumerate()
    {
        for turn in 0..600 {
            let file = shaped(&mut Random::new(turn), shape, turn as usize).bytes;
            let Err(refusal) = read(&file) else { continue };
            if refusal.number() != *number {
                continue;
            }
            let words = format!("{refusal:#}");
            let lines: Vec<&str> = words.lines().collect();
            let of_check_digit = lines[lines.len() - 1].starts_with("the check digit is wrong: ");
            assert_eq!(lines.len(), 5 + usize::from(of_check_digit), "{words}");
            check_digits += u64::from(of_check_digit);
            let name = refusal.named_field().unwrap().name;
            assert!(
                lines[1].starts_with(&format!("record {}, {}, at ", refusal.record(), refusal.kind().unwrap())),
                "{words}"
            );
            assert!(lines[2].starts_with(&format!("field {}, {name}, at offset ", refusal.field())), "{words}");
            assert!(lines[3].starts_with("found "), "{words}");
            told[place] += 1;
        }
    }
    assert!(told.iter().all(|told| *told > 300), "{told:?}");
    assert!(check_digits > 0);
}

/// The numbers of a refusal.
fn numbers(refusal: &Refusal) -> (Number, u64, u64, u64) {
    (refusal.number(), refusal.record(), refusal.field(), refusal.offset())
}

/// Request 7: with the bytes that decide, a file is refused with the same numbers, whatever follows them. With one byte less it is not, but
/// for a length that leads past the limit.
#[test]
fn the_bytes_that_decide() {
    let mut random = Random::new(7);
    let mut decided: BTreeMap<Number, u64> = BTreeMap::new();
    let sound = file(7, 0).bytes;
    assert!(read(&sound).is_ok());
    for index in (0..3_000).filter(|index| index / 2 % 5_000 != 2_500) {
        let ascii = file(7, index / 2).bytes;
        let file = if index % 2 == 0 { ascii } else { to_ebcdic(&ascii) };
        let Err(refusal) = read(&file) else { continue };
        let Some(end) = refusal.decided_by().map(|end| end as usize) else {
            assert!(matches!(refusal.number(), Number::CUT | Number::OPEN | Number::SIZE), "file {index}");
            continue;
        };
        let noise: Vec<u8> = (0..random.between(1, 300)).map(|_| random.byte()).collect();
        for tail in [&[][..], &noise, &sound, &[0; 5_000]] {
            let other = read(&[&file[..end], tail].concat()).unwrap_err();
            assert_eq!(numbers(&other), numbers(&refusal), "file {index} with {} bytes behind {end}", tail.len());
        }
        let lacking = read(&file[..end - 1]).map_err(|lacking| numbers(&lacking));
        assert!(lacking != Err(numbers(&refusal)) || refusal.number() == Number::CUT, "file {index}");
        assert!(refusal.more_bytes().unwrap().starts_with("no bytes that follow can mend it: "), "file {index}");
        *decided.entry(refusal.number()).or_default() += 1;
    }
    let seen: Vec<&str> = decided.keys().map(|number| number.name()).collect();
    assert_eq!(seen, ["CUT", "LENGTH", "TYPE", "PLACE", "FIELD", "LINK", "TOTAL", "AFTER"], "{decided:?}");
}

/// Of a picture or a record alone nothing of the kind is said.
#[test]
fn records_alone_have_no_rest() {
    for refusal in [picture(&[0, 0, 0, 2, b'5', b'2'], 0).unwrap_err(), record(CharacterSet::Ascii, b"52").unwrap_err()]
    {
        assert_eq!((refusal.number(), refusal.decided_by(), refusal.more_bytes()), (Number::LENGTH, None, None));
    }
}
