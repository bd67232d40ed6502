//! The largest files. Once in every run: exactly the slow reader's limit, one byte more, and none. Once in a whole run: exactly the limit of the first reader, one byte more, and 61s
//! whose sums pass 64 bits.

use peer_reader::brim::{letter_past, letter_past_64_bits, Stated};
use peer_reader::charset::EBCDIC_CARRIED;
use peer_reader::copy::to_ebcdic;
use peer_reader::descent::LARGEST;
use peer_reader::make::{encode, sound, Wish};
use peer_reader::random::Random;
use peer_reader::stream::set_image;
use peer_reader::tally::Tally;

use proved::run::{Found, Options};

use crate::check::{check, Counts};
use crate::report;
use crate::slow::{at_the_limit, Slowly};

/// Puts the files at the slow reader's limit to both sides, in both sets.
pub fn check_slow_limit(options: &Options, tally: &mut Tally, counts: &mut Counts, found: &Found) {
    let mut random = Random::new(65);
    for (name, file) in at_the_limit() {
        let versions = [Some(file.clone()), EBCDIC_CARRIED.then(|| to_ebcdic(&file))];
        for file in versions.into_iter().flatten() {
            if let Err(difference) = check(&file, Slowly::InEach, &mut random, tally, counts) {
                report(options, &format!("slow-{name}"), "large", &file, &difference, found);
            }
        }
    }
}

/// Puts all of them to both sides.
pub fn check_largest(options: &Options, tally: &mut Tally, counts: &mut Counts, found: &Found) {
    let mut random = Random::new(27);
    let mut put = |name: &str, file: &[u8], random: &mut Random| {
        if let Err(difference) = check(file, Slowly::Once, random, tally, counts) {
            report(options, name, "large", file, &difference, found);
        }
    };
    let mut file = largest(&mut random);
    put("largest", &file, &mut random);
    if EBCDIC_CARRIED {
        let mut version = to_ebcdic(&file);
        put("largest-ebcdic", &version, &mut random);
        version.push(b' ');
        put("one-more-ebcdic", &version, &mut random);
    }
    file.push(b' ');
    put("one-more", &file, &mut random);
    for (name, debit, how) in PAST_64_BITS {
        let file = letter_past_64_bits(&mut random, debit, how);
        put(name, &file, &mut random);
    }
    let file = letter_past(&mut random, false, Stated::Wrapped, TIMES);
    put("credits-past-64-bits-three-times", &file, &mut random);
}

/// A cash letter's sum past 64 bits, stated as a reader would have it that cuts it, or stops it. Those that wrap are in the stream.
const PAST_64_BITS: [(&str, bool, Stated); 2] =
    [("credits-cut", false, Stated::Cut), ("debits-nines", true, Stated::Nines)];

/// So many times 2^64: 3 x 184,467.44 records of 88 bytes, 48.7 million bytes.
const TIMES: u128 = 3;

/// A sound file of exactly the limit: images of 9,999,999 bytes, the last one as long as still fits.
fn largest(random: &mut Random) -> Vec<u8> {
    let wish = Wish {
        letters: (1, 1),
        bundles: (1, 1),
        items: (27, 27),
        addenda: (0, 0),
        views: (1, 1),
        extras: 0,
        contents: b"I",
        kinds: &[25],
        image: 0,
        ..Wish::no_credits()
    };
    let mut records = sound(random, &wish);
    let mut left = LARGEST as usize - encode(&records).len();
    for data in records.iter_mut().filter(|record| record.code == 52) {
        let length = left.min(9_999_999);
        set_image(data, length, b'5');
        left -= length;
    }
    assert_eq!(left, 0, "the images fill the file");
    encode(&records)
}
