//! Files made out from nothing, by name: beside those of the independent generator, byte for byte, and what is told where a value does not fit.

use peer_reader::pictures::tiff;
use x9180::make::*;
use x9180::{read, Date, Number, Time};

const BANK: &str = "123456780";
const DAY_15: Date = Date::new(2024, 1, 15);
const DAY_16: Date = Date::new(2024, 1, 16);

fn sample(name: &str) -> Vec<u8> {
    std::fs::read(std::path::Path::new(env!("CARGO_MANIFEST_DIR")).join("../../samples").join(name)).unwrap()
}

fn file<'p>() -> File<'p> {
    File::new(FileType::Test, BANK, BANK, DAY_16, Time::new(23, 59))
}

fn letter<'p>(institution: &str, date: Date, id: &str) -> Letter<'p> {
    let contents = Contents::Images;
    Letter::new("01", BANK, institution, date, date, Time::new(0, 0), contents).cash_letter_id(id)
}

fn bundle<'p>(date: Date, sequence: &str) -> Bundle<'p> {
    Bundle::new("01", BANK, BANK, date).cycle_number("AB").bundle_sequence_number(sequence)
}

/// The pictures of a file, each under the ordinals that it shows.
struct Album(Vec<(Vec<usize>, Vec<u8>)>);

impl Album {
    fn of(ordinals: &[&[usize]]) -> Album {
        let views = ordinals.iter().flat_map(|item| [1, 2].map(|view| [item, [view].as_slice()].concat()));
        Album(views.map(|ordinals| (ordinals.clone(), tiff(&ordinals))).collect())
    }

    /// The front or the back of an item.
    fn view(&self, side: Side, date: Date, item: &[usize]) -> View<'_> {
        let number = if side == Side::Front { 1 } else { 2 };
        let ordinals = [item, &[number]].concat();
        let (_, picture) = self.0.iter().find(|(shown, _)| *shown == ordinals).unwrap();
        View::new(side, BANK, date, picture)
    }
}

/// `peer/reader/src/pictures.rs`, by name.
#[test]
fn the_sample_with_checks_and_a_return() {
    let items: [&[usize]; 4] = [&[1, 1, 1], &[1, 1, 2], &[1, 2, 1], &[2, 1, 1]];
    let album = Album::of(&items);
    let view = |side, date, item: &[usize]| album.view(side, date, item);

    let first = Check::new("111111118", 12_550, "000000000000101")
        .micr_valid_indicator("1")
        .addendum_c(
            CheckAddendumC::new()
                .endorsing_bank_routing_number("333333334")
                .endorsing_bank_endorsement_date(Date::new(2024, 1, 13))
                .endorsing_bank_item_sequence_number("000000000000902"),
        )
        .addendum_a(
            CheckAddendumA::new()
                .return_location_routing_number("222222226")
                .bofd_business_endorsement_date(Date::new(2024, 1, 12))
                .bofd_item_sequence_number("000000000000901"),
        )
        .view(view(Side::Front, DAY_15, items[0]))
        .view(view(Side::Back, DAY_15, items[0]).analysis(Analysis::new("0", "1", "2")));
    let second = Check::new("222222226", 4_000, "000000000000102")
        .micr_valid_indicator("2")
        .view(view(Side::Front, DAY_15, items[1]))
        .view(view(Side::Back, DAY_15, items[1]));
    let third = Check::new("333333334", 7, "000000000000103")
        .micr_valid_indicator("1")
        .view(view(Side::Front, DAY_15, items[2]))
        .view(view(Side::Back, DAY_15, items[2]));
    let returned = Return::new("111111118", 31_000, "000000000000201", ReturnAddendumB::new("A"))
        .addendum_a(
            ReturnAddendumA::new()
                .return_location_routing_number("222222226")
                .bofd_business_endorsement_date("20240112")
                .bofd_item_sequence_number("000000000000903"),
        )
        .addendum_d(
            ReturnAddendumD::new()
                .endorsing_bank_routing_number("333333334")
                .endorsing_bank_endorsement_date(Date::new(2024, 1, 14))
                .endorsing_bank_item_sequence_number("000000000000904"),
        )
        .view(view(Side::Front, DAY_16, items[3]))
        .view(view(Side::Back, DAY_16, items[3]));
    let of_checks = letter(BANK, DAY_15, "LETTER01")
        .bundle(bundle(DAY_15, "0001").item(first).item(second))
        .bundle(bundle(DAY_15, "0002").item(third).blank_micr_total());
    let of_returns = letter(BANK, DAY_16, "LETTER02").bundle(bundle(DAY_16, "0001").item(returned).blank_micr_total());

    let made = file().letter(of_checks).letter(of_returns).write().unwrap();
    assert_eq!(made, sample("two-letters-with-pictures.x9"));
}

/// `icl/tests/common/pictured_credits.rs`, by name: credits in bundles, whose views repeat the bundle's header, and directly in cash letters, whose
/// views repeat the letter's.
#[test]
fn the_sample_with_credits() {
    let items: [&[usize]; 9] =
        [&[1, 1], &[1, 1, 1], &[1, 1, 2], &[1, 1, 3], &[1, 2, 1], &[1, 3], &[2, 1, 1], &[2, 1, 2], &[2, 1]];
    let album = Album::of(&items);
    let (of_letters, of_bundles) = (DAY_16, DAY_15);
    // A cash letter's header has no cycle number; that of a view directly in it is as it is given.
    let in_letter = |side, item: &[usize]| album.view(side, of_letters, item).cycle_number("AB");
    let front = |item: &[usize]| album.view(Side::Front, of_bundles, item);
    let back = |item: &[usize]| album.view(Side::Back, of_bundles, item);
    let credit = |usage, cents, sequence| {
        Credit::new(BANK, cents, sequence).record_usage_indicator(usage).source_of_work_code("09")
    };
    let check = |cents, sequence, item: &[usize], micr| {
        Check::new(BANK, cents, sequence).micr_valid_indicator(micr).view(front(item)).view(back(item))
    };

    let bundle_1 = bundle(of_bundles, "0001")
        .item(credit("7", 16_550, "000000000000302").view(front(items[1])))
        .item(check(12_550, "000000000000101", items[2], "1"))
        .item(check(4_000, "000000000000102", items[3], "2"))
        .item(credit("9", 250, "000000000000303"));
    let bundle_2 = bundle(of_bundles, "0002").item(check(7, "000000000000103", items[4], "")).blank_micr_total();
    let letter_1 = letter("222222226", of_letters, "LOCKBOX1")
        .credit(
            credit("1", 16_557, "000000000000301")
                .view(in_letter(Side::Front, items[0]))
                .view(in_letter(Side::Back, items[0])),
        )
        .bundle(bundle_1)
        .credit(credit("8", 250, "000000000000304"))
        .bundle(bundle_2)
        .credit(credit("7", 7, "000000000000305").view(in_letter(Side::Front, items[5])));
    let returned = Return::new(BANK, 31_000, "000000000000201", ReturnAddendumB::new("A"))
        .view(front(items[6]))
        .view(back(items[6]));
    let in_bundle = credit("6", 31_000, "000000000000306").view(front(items[7]));
    let letter_2 = letter("222222226", of_letters, "LOCKBOX2")
        .bundle(bundle(of_bundles, "0001").item(returned).item(in_bundle).blank_micr_total())
        .credit(credit("7", 100_000, "000000000000307").view(in_letter(Side::Front, items[8])));

    let made = file().letter(letter_1).letter(letter_2).write().unwrap();
    assert_eq!(made, sample("credits-with-pictures.x9"));
}

/// A check with a view in which much is told. What is made has the values that were given, where they belong.
#[test]
fn values_come_to_stand_where_they_belong() {
    let view = View::new(Side::Back, BANK, DAY_16, b"picture")
        .image_view_format_indicator("21")
        .digital_signature_indicator("1")
        .digital_signature_hash_function_method("2")
        .start_of_protected_data(12)
        .length_of_protected_data(345)
        .image_capture_time(Time::new(1, 2).seconds(3))
        .security_authenticator_name("AUTHENTICATOR")
        .security_key_name("KEY 1")
        .clipping_origin("3")
        .clipping_coordinate_h2(20)
        .ancillary_data_indicator("89")
        .image_reference_key("REFERENCE ")
        .digital_signature(b"\x00\xFF")
        .digital_certificate_serial_number("7")
        .digital_certificate(b"\x01")
        .ancillary_data(b"\x02\x03")
        .analysis(Analysis::new("2", "1", "0").too_dark("2").user_field("SEEN"));
    let check = Check::new(" 12345678", 1, "1")
        .auxiliary_on_us("12-3")
        .on_us("4567/")
        .bofd_indicator("Y")
        .addendum_b(
            CheckAddendumB::new()
                .item_description("A CHECK")
                .image_capture_date(DAY_15)
                .image_archive_locator("BOX 7")
                .user_field("LAST "),
        )
        .view(view);
    let bundle = Bundle::new("01", BANK, BANK, DAY_16)
        .bundle_creation_date(DAY_15)
        .bundle_creation_time(Time::new(9, 30))
        .control_user_field("CONTROL")
        .user_field("HEADER")
        .item(check);
    let letter = Letter::new("01", BANK, "12345", DAY_16, DAY_16, Time::new(9, 31), Contents::ImagesSentAfter)
        .ece_institution_name("SMALL BANK")
        .settlement_date(Date::new(2024, 1, 18))
        .bundle(bundle);
    let made = File::new(FileType::Production, "12345-678", BANK, DAY_16, Time::new(9, 32))
        .standard_level("03")
        .resend_indicator("Y")
        .immediate_origin_contact_name("OPERATIONS")
        .immediate_origin_contact_phone_number("5551234567")
        .letter(letter)
        .write()
        .unwrap();

    let reading = read(&made).unwrap();
    let types: Vec<u64> = reading.rows().iter().map(|row| row.record_type).collect();
    assert_eq!(types, [1, 10, 20, 25, 27, 50, 52, 54, 70, 90, 99]);
    let expected: [(usize, u64, &str); 52] = [
        (1, 2, "03"),
        (1, 3, "P"),
        (1, 4, "12345-678"),
        (1, 5, BANK),
        (1, 6, "20240116"),
        (1, 7, "0932"),
        (1, 8, "Y"),
        (2, 4, "12345    "),
        (2, 7, "0931"),
        (2, 8, "F"),
        (3, 6, "20240115"),
        (3, 11, "0930"),
        (3, 12, "HEADER"),
        (4, 2, "           12-3"),
        (4, 4, " 12345678"),
        (4, 5, "               4567/"),
        (4, 6, "0000000001"),
        (4, 7, "1              "),
        (4, 11, "Y"),
        (4, 12, "01"),
        (5, 2, "A CHECK             "),
        (5, 3, "20240115"),
        (5, 13, "BOX 7"),
        (5, 18, "LAST "),
        (6, 2, "1"),
        (6, 5, "21"),
        (6, 8, "1"),
        (6, 10, "1"),
        (6, 11, "2 "),
        (6, 17, "0000012"),
        (6, 18, "0000345"),
        (6, 21, "010203"),
        (7, 2, BANK),
        (7, 3, "20240116"),
        (7, 4, "  "),
        (7, 5, "1              "),
        (7, 7, "AUTHENTICATOR   "),
        (7, 9, "3"),
        (7, 10, "0000"),
        (7, 11, "0020"),
        (7, 14, "89"),
        (7, 22, "REFERENCE "),
        (7, 25, "7"),
        (8, 2, "2"),
        (8, 3, "1"),
        (8, 9, "2"),
        (8, 46, "SEEN                "),
        (9, 8, "CONTROL  "),
        (10, 6, "SMALL BANK      "),
        (10, 7, "20240118"),
        (11, 6, "OPERATIONS    "),
        (11, 7, "5551234567"),
    ];
    for (record, field, text) in expected {
        let found = reading.rows()[record - 1].text(&made, field);
        assert_eq!(found.as_deref(), Some(text), "record {record} field {field}");
    }
    let data = reading.rows()[6];
    let parts = [23, 26, 27, 28].map(|field| data.field(&made, field).unwrap());
    assert_eq!(parts, [b"\x00\xFF".as_slice(), b"\x01", b"picture", b"\x02\x03"]);
}

/// Fields 2 to 5 of a 52 are those of the header and the item, unless they are given.
#[test]
fn a_view_repeats_what_stands_over_it_unless_told_otherwise() {
    let view = || View::new(Side::Front, BANK, DAY_16, b"p");
    let made = |view: View<'static>| {
        let bundle = Bundle::new("01", BANK, "77", DAY_15).cycle_number("C").item(Check::new(BANK, 1, "9").view(view));
        file().letter(letter(BANK, DAY_16, "").bundle(bundle)).draft().unwrap()
    };
    let key = |view| {
        let draft = made(view);
        [2, 3, 4, 5].map(|field| draft.text(6, field).unwrap())
    };
    assert_eq!(key(view()), ["77       ", "20240115", "C ", "9              "]);
    let told = |view: View<'static>| view.ece_institution_routing_number(BANK).bundle_business_date(DAY_16);
    let told = |view| told(view).cycle_number("D").ece_institution_item_sequence_number("8");
    assert_eq!(key(told(view())), [BANK, "20240116", "D ", "8              "]);
    assert!(made(view()).write().is_ok());
    // The library compares them.
    let refusal = made(told(view())).write().unwrap_err();
    assert_eq!((refusal.number(), refusal.record(), refusal.field()), (Number::LINK, 6, 2));
}

/// The first misfit in the order of the records, whatever the order in which they were given.
#[test]
fn the_first_misfit_is_told() {
    let check = Check::new(BANK, 12_345_678_901, "1").on_us("A");
    let bundle =
        Bundle::new("01", BANK, BANK, Date::new(2024, 2, 30)).item(check).control_user_field("TOO LONG FOR IT");
    let letter = letter(BANK, DAY_16, "").bundle(bundle);
    let unmade = file().letter(letter.clone()).write().unwrap_err();
    let NotMade::Misfit(misfit) = &unmade else { panic!("{unmade}") };
    assert_eq!((misfit.record(), misfit.field(), misfit.given()), (3, 5, Some("2024-02-30")));
    assert_eq!(
        format!("{unmade:#}"),
        "record 3 of the draft, Bundle Header Record (type 20)\nfield 5, Bundle Business Date\ngiven 2024-02-30\n\
         asked: a date of the calendar, in the years 1993 to 9999"
    );
    let unmade = file().user_field("FIVE!").letter(letter).write().unwrap_err();
    assert_eq!(
        unmade.to_string(),
        "record 1 of the draft, File Header Record (type 01); field 13, User Field; given \"FIVE!\"; asked: printable characters, at \
         most 4 of them"
    );
    let check = Check::new(BANK, 12_345_678_901, "1").on_us("A");
    let unmade = file().letter(self::letter(BANK, DAY_16, "").bundle(bundle_of(check))).write().unwrap_err();
    assert_eq!(
        unmade.to_string(),
        "record 4 of the draft, Check Detail Record (type 25); field 6, Item Amount; given 12345678901; asked: digits, at most 10 of them"
    );
    let picture = vec![0; 10_000_000];
    let check = Check::new(BANK, 1, "1").view(View::new(Side::Front, BANK, DAY_16, &picture));
    let unmade = file().letter(self::letter(BANK, DAY_16, "").bundle(bundle_of(check))).write().unwrap_err();
    assert_eq!(
        unmade.to_string(),
        "record 6 of the draft, Image View Data Record (type 52); field 27, Image Data; given 10000000 bytes; asked: at most 9999999 bytes"
    );
}

fn bundle_of<'p>(item: impl Into<Item<'p>>) -> Bundle<'p> {
    Bundle::new("01", BANK, BANK, DAY_16).item(item)
}

/// What fits is judged by the library.
#[test]
fn what_the_library_refuses() {
    let letter = Letter::new("01", BANK, BANK, DAY_16, DAY_16, Time::new(0, 0), Contents::Electronic);
    let check = Check::new("123456781", 1, "1");
    let unmade = file().letter(letter.clone().bundle(bundle_of(check))).write().unwrap_err();
    let NotMade::Refused(refusal) = &unmade else { panic!("{unmade}") };
    assert_eq!((refusal.number(), refusal.record(), refusal.field(), refusal.offset()), (Number::FIELD, 4, 4, 252));
    assert!(unmade.to_string().ends_with("the check digit is wrong: it is 1 and should be 0"), "{unmade}");

    let unmade = file().letter(letter.clone()).write().unwrap_err();
    assert!(unmade.to_string().ends_with(
        "field 8, Cash Letter Record Type Indicator, of record 2 is \"E\": a bundle at least has to come before this record"
    ));
    let viewed = Check::new(BANK, 1, "1").view(View::new(Side::Front, BANK, DAY_16, b"p"));
    let unmade = file().letter(letter.bundle(bundle_of(viewed))).write().unwrap_err();
    assert!(unmade.to_string().ends_with("of record 2 is \"E\": no view may come"), "{unmade}");
    let unmade = file().write().unwrap_err();
    assert!(unmade.to_string().starts_with("PLACE: a record of this type may not stand here; record 2 of the draft, "));
}
