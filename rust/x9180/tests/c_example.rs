//! The C examples, compiled and run: the reader on the samples with pictures, in ASCII and EBCDIC, the salvage of a torn one, and the day book, every line
//! worked out by hand; the writer beside the makers of this package.

use std::path::{Path, PathBuf};
use std::process::Command;

use x9180::make::{Bundle, Check, Contents, File, FileType, Letter, Side, View};
use x9180::{Date, Time};

fn root() -> PathBuf {
    Path::new(env!("CARGO_MANIFEST_DIR")).join("../..")
}

/// Compiles an example against the library that this package is linked with.
fn compiled(folder: &Path, name: &str) -> PathBuf {
    let library = std::env::var_os("X9180_LIB_DIR").map_or_else(|| root().join("target/staticlib"), PathBuf::from);
    let program = folder.join(name);
    let status = Command::new(std::env::var("CC").unwrap_or("cc".to_string()))
        .args(["-std=c99", "-Wall", "-Wextra", "-Werror", "-pedantic", "-I"])
        .args([root().join("include"), root().join(format!("examples/{name}.c")), library.join("libabi.a")])
        .arg("-o")
        .arg(&program)
        .status();
    assert!(status.unwrap().success());
    program
}

/// A picture begins 143 bytes behind the place of its 52, which `icl/tests/pictures.rs` has with the picture's length.
#[test]
fn prints_the_place_of_every_picture() {
    let folder = std::env::temp_dir().join(format!("x9180-example-{}", std::process::id()));
    std::fs::create_dir(&folder).unwrap();
    let program = compiled(&folder, "read");
    let run = |file: &str| {
        let output = Command::new(&program).arg(root().join(file)).output().unwrap();
        (output.status.code(), String::from_utf8(output.stdout).unwrap())
    };
    let credits = run("samples/credits-with-pictures.x9");
    let checks = run("samples/two-letters-with-pictures.x9");
    let refused = run("peer/samples/damaged-24-credit-as-debit.x9");
    let checks_in_ebcdic = run("samples/ebcdic-with-pictures.x9");
    let refused_in_ebcdic = run("peer/samples/ebcdic/damaged-8-micr-total.x9");
    std::fs::remove_dir_all(&folder).unwrap();

    // Credits: 33,364 cents in letter 1 and 131,000 in letter 2.
    let lines = "\
accepted records 52 letters 2 bundles 3 items 11 views 14 debit 47807
credits 6 of 164364 cents
letter 1 credit 1: picture of 170 bytes at 483
letter 1 credit 1: picture of 178 bytes at 880
letter 1 bundle 1 item 1: picture of 179 bytes at 1457
letter 1 bundle 1 item 2: picture of 188 bytes at 1947
letter 1 bundle 1 item 2: picture of 196 bytes at 2362
letter 1 bundle 1 item 3: picture of 196 bytes at 2869
letter 1 bundle 1 item 3: picture of 204 bytes at 3292
letter 1 bundle 2 item 1: picture of 188 bytes at 4151
letter 1 bundle 2 item 1: picture of 196 bytes at 4566
letter 1 credit 3: picture of 187 bytes at 5161
letter 2 bundle 1 item 1: picture of 188 bytes at 6000
letter 2 bundle 1 item 1: picture of 196 bytes at 6415
letter 2 bundle 1 item 2: picture of 196 bytes at 6926
letter 2 credit 1: picture of 178 bytes at 7521
";
    assert_eq!(credits, (Some(0), lines.to_string()));
    // Without credits nothing is said of them.
    let start = "accepted records 38 letters 2 bundles 3 items 4 views 8 debit 47557\n\
                 letter 1 bundle 1 item 1: picture of 179 bytes at 766\n";
    assert!(checks.0 == Some(0) && checks.1.starts_with(start) && checks.1.lines().count() == 9, "{}", checks.1);
    assert_eq!(refused, (Some(1), "refused 9 record 10 field 3 offset 764\n".to_string()));
    // It prints no characters of a file, so that the set makes no difference (request 5).
    assert_eq!(checks_in_ebcdic, checks);
    assert_eq!(refused_in_ebcdic, (Some(1), "refused 9 record 7 field 4 offset 563\n".to_string()));
}

/// Two samples in a book that two owners share, and an entry withdrawn. The second file is refused where it is damaged, and the first stays entered.
#[test]
fn keeps_a_day_book() {
    let folder = std::env::temp_dir().join(format!("x9180-example-book-{}", std::process::id()));
    std::fs::create_dir(&folder).unwrap();
    let program = compiled(&folder, "book");
    let run = |files: [&str; 2]| {
        let output = Command::new(&program).args(files.map(|file| root().join(file))).output().unwrap();
        (output.status.code(), String::from_utf8(output.stdout).unwrap())
    };
    let pictured = "samples/two-letters-with-pictures.x9";
    let both = run([pictured, "samples/credits-with-pictures.x9"]);
    let one = run([pictured, "peer/samples/damaged-24-credit-as-debit.x9"]);
    let none = run(["no such file", pictured]);
    std::fs::remove_dir_all(&folder).unwrap();

    // The letters of the samples as in `tests/book.rs`; 16557 + 31000 debit cents, 16807 + 31000, and 33364 + 131000 credit cents,
    // which are 116557 more.
    let entered = "owner 1: 2 letters entered, from entry 1 on\n";
    let of_one = "owner 1: entries 2 bundles 3 debits 4 credits 0 views 8 debit 47557 credit 0\n\
                  owner 1: net -47557\n\
                  owner 1: entry 2 bundles 1 debits 1 credits 0 views 2 debit 31000 credit 0\n";
    let of_two = "owner 2: entries 2 bundles 3 debits 5 credits 6 views 14 debit 47807 credit 164364\n\
                  owner 2: net 116557\n\
                  owner 2: entry 2 bundles 1 debits 1 credits 2 views 4 debit 31000 credit 131000\n";
    let nothing = |owner| {
        format!(
            "owner {owner}: entries 0 bundles 0 debits 0 credits 0 views 0 debit 0 credit 0\nowner {owner}: net 0\n"
        )
    };
    // Without its first letter owner 1 has the second alone. NOENTRY is 15 and DUPLICATE 12; the four rows close up to three.
    let withdrawn = "withdrawing entry 1 of owner 1: 0\nlooking for it: 15\nrefused 12 record 0 field 0 offset 0\n\
                     owner 1: entries 1 bundles 1 debits 1 credits 0 views 2 debit 31000 credit 0\n\
                     owner 1: net -31000\n\
                     owner 1: entry 2 bundles 1 debits 1 credits 0 views 2 debit 31000 credit 0\n\
                     tidying up: 0, rows claimed 3, before 4\n";
    assert_eq!(both, (Some(0), [entered, &entered.replace("owner 1", "owner 2"), of_one, of_two, withdrawn].concat()));
    let refused = "refused 9 record 10 field 3 offset 764\n";
    assert_eq!(one, (Some(1), [entered, refused, of_one, &nothing(2)].concat()));
    assert_eq!(none, (Some(2), [nothing(1), nothing(2)].concat()));
}

/// The sample of two letters, cut in the second bundle of the first letter, cut in the second letter, and cut before any bundle is whole. What became of the
/// records, and the bytes, are worked out in `tests/salvage.rs` and `icl/tests/salvage.rs`.
#[test]
fn salvages_a_torn_file() {
    let folder = std::env::temp_dir().join(format!("x9180-example-salvage-{}", std::process::id()));
    std::fs::create_dir(&folder).unwrap();
    let program = compiled(&folder, "salvage");
    let sample = std::fs::read(root().join("samples/two-letters-with-pictures.x9")).unwrap();
    let run = |end: usize| {
        let (torn, left) = (folder.join("torn.x9"), folder.join(format!("left-{end}.x9")));
        std::fs::write(&torn, &sample[..end]).unwrap();
        let output = Command::new(&program).args([&torn, &left]).output().unwrap();
        (output.status.code(), String::from_utf8(output.stdout).unwrap(), std::fs::read(&left).ok())
    };
    let (in_bundle, in_letter, too_early) = (run(2_900), run(4_000), run(2_400));
    std::fs::remove_dir_all(&folder).unwrap();

    let lines = "walked 20 records: 17 kept, 0 made new, 3 dropped\n\
                 offset 2450 type 20 dropped, fault 6\n\
                 offset 2534 type 25 dropped, fault 6\n\
                 offset 2618 type 50 dropped, fault 6\n\
                 written: 19 records, 2623 bytes\n\
                 accepted records 19 letters 1 bundles 1 items 2 views 4 debit 16550\n";
    assert_eq!((in_bundle.0, in_bundle.1.as_str()), (Some(0), lines));
    assert_eq!(in_bundle.2.map(|left| left[..2_450] == sample[..2_450]), Some(true));
    let lines = "walked 29 records: 24 kept, 1 made new, 4 dropped\n\
                 offset 3629 type 10 dropped, fault 6\n\
                 offset 3713 type 20 dropped, fault 6\n\
                 offset 3797 type 31 dropped, fault 6\n\
                 offset 3881 type 32 dropped, fault 6\n\
                 written: 26 records, 3713 bytes\n\
                 accepted records 26 letters 1 bundles 2 items 3 views 6 debit 16557\n";
    assert_eq!((in_letter.0, in_letter.1.as_str()), (Some(0), lines));
    assert_eq!(too_early, (Some(1), "refused 17 record 0 field 0 offset 0\n".to_string(), None));
}

/// The same letter by name: a check of 123.45 with a picture of either side.
fn letter() -> Vec<u8> {
    let (bank, today, now) = ("123456780", Date::new(2024, 1, 16), Time::new(10, 30));
    let check = Check::new(bank, 12_345, "000000000000001")
        .micr_valid_indicator("1")
        .bofd_indicator("Y")
        .view(View::new(Side::Front, bank, today, b"the picture of its front"))
        .view(View::new(Side::Back, bank, today, b"the picture of its back"));
    let bundle = Bundle::new("01", bank, bank, today).bundle_id("B1").cycle_number("01").item(check);
    let letter = Letter::new("01", bank, bank, today, today, now, Contents::Images)
        .cash_letter_id("L1")
        .ece_institution_name("SMALL BANK")
        .settlement_date(today)
        .bundle(bundle);
    let file = File::new(FileType::Test, bank, bank, today, now)
        .immediate_destination_name("RECEIVING BANK")
        .immediate_origin_name("SMALL BANK")
        .immediate_origin_contact_name("OPERATIONS")
        .letter(letter);
    file.write().unwrap()
}

#[test]
fn makes_out_the_letter_that_is_made_by_name() {
    let folder = std::env::temp_dir().join(format!("x9180-example-write-{}", std::process::id()));
    std::fs::create_dir(&folder).unwrap();
    let out = folder.join("made.x9");
    let output = Command::new(compiled(&folder, "write")).arg(&out).output().unwrap();
    let written = std::fs::read(&out).unwrap();
    std::fs::remove_dir_all(&folder).unwrap();

    // 01, 10, 20, 25, two 50s, 70 and 99 take 84 bytes each, the 90 takes 89, a 52 takes 143 and its picture: 8 x 84 + 89 + 2 x 143 + 24 + 23.
    let lines = "made out: 11 records, 1094 bytes\n\
                 accepted records 11 letters 1 bundles 1 items 1 views 2 debit 12345\n";
    assert_eq!((output.status.code(), String::from_utf8(output.stdout).unwrap().as_str()), (Some(0), lines));
    assert_eq!(written, letter());
}
