//! The judge and the second opinion on generated images, the coverage of a run, and the sample pictures.

use peer_reader::pictures::tiff;
use peer_reader::{descent, picture};
use peer_tiff::faults::opinion;
use peer_tiff::generate::image;
use peer_tiff::judge::judge;
use peer_tiff::points::{demanded, note, Tally};

#[test]
fn both_opinions_agree_on_generated_images_and_every_point_is_met() {
    let mut tally = Tally::default();
    for index in 0..50_000 {
        let made = image(18, index);
        let verdict = note(&mut tally, &made.bytes);
        let answer = (verdict.number, u64::from(verdict.tag));
        assert_eq!(judge(&made.bytes), answer);
        assert_eq!(opinion(&made.bytes), answer, "image {index}, {}", made.shape);
    }
    assert_eq!(tally.missing(), []);
}

#[test]
fn points_are_demanded_once() {
    let mut points = demanded();
    let all = points.len();
    points.sort();
    points.dedup();
    assert_eq!(points.len(), all);
}

#[test]
fn shapes_that_are_to_be_sound_are() {
    for index in 0..5_000 {
        let made = image(7, index);
        if ["sound", "crossing", "unknown type", "next", "overlap"].contains(&made.shape) {
            assert_eq!(judge(&made.bytes), (0, 0), "image {index}, {}", made.shape);
        }
    }
}

/// Every beginning of a sound image, and every byte value at every place of one.
#[test]
fn both_opinions_agree_on_a_sweep() {
    let sound = tiff(&[1, 2, 3]);
    assert_eq!(judge(&sound), (0, 0));
    for length in 0..=sound.len() {
        assert_eq!(judge(&sound[..length]), opinion(&sound[..length]), "length {length}");
        assert_eq!(judge(&sound[..length]).0 == 0, length == sound.len());
    }
    for place in 0..sound.len() {
        let mut image = sound.clone();
        for byte in 0..=255 {
            image[place] = byte;
            assert_eq!(judge(&image), opinion(&image), "byte {byte} at {place}");
        }
    }
}

/// The images of a file's 52s.
fn pictures(file: &[u8]) -> Vec<Vec<u8>> {
    let mut found = Vec::new();
    for row in descent::read(file).rows {
        let picture = picture::picture(file, row[1]);
        let (start, length) = (picture.start as usize, picture.length as usize);
        found.extend((row[0] == 52).then(|| file[start..start + length].to_vec()));
    }
    found
}

/// Eight pictures, the same in EBCDIC, and fourteen.
#[test]
fn the_sample_pictures_are_accepted() {
    let samples = concat!(env!("CARGO_MANIFEST_DIR"), "/../../samples/");
    let files = [("two-letters-with-pictures.x9", 8), ("ebcdic-with-pictures.x9", 8), ("credits-with-pictures.x9", 14)];
    for (name, views) in files {
        let file = std::fs::read(format!("{samples}{name}")).expect("the sample is there");
        let pictures = pictures(&file);
        assert_eq!(pictures.len(), views, "{name}");
        for image in pictures {
            assert_eq!((judge(&image), opinion(&image)), ((0, 0), (0, 0)), "{name}");
        }
    }
}
