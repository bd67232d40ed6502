//! The names of the files that a view's pictures and other bytes are written to. They sort in the order of the file, whatever the counts.

use std::path::PathBuf;

use x9180::{Reading, Row, View};

use crate::places::{self, PlacedView};

/// How many digits the ordinals of a file take: three for cash letters and bundles, four for items and credits, two for views, and more
/// where the file has more of them.
#[derive(Clone, Copy)]
pub struct Digits {
    letter: usize,
    bundle: usize,
    item: usize,
    credit: usize,
    view: usize,
}

impl Digits {
    pub fn of(reading: &Reading) -> Digits {
        let most = |ordinal: fn(&Row) -> u64| reading.rows().iter().map(ordinal).max().unwrap_or(0);
        let credits = reading.letters().map(|letter| letter.credits().count() as u64).max().unwrap_or(0);
        let mut views = Longest::default();
        reading.rows().iter().for_each(|row| views.go_on(row));
        Digits {
            letter: digits(most(|row| row.letter), 3),
            bundle: digits(most(|row| row.bundle), 3),
            item: digits(most(|row| row.item), 4),
            credit: digits(credits, 4),
            view: digits(views.most, 2),
        }
    }
}

/// How many digits a number takes, or at least as many as are wanted.
fn digits(number: u64, least: usize) -> usize {
    number.checked_ilog10().map_or(1, |log| log as usize + 1).max(least)
}

/// The most views that follow one item.
#[derive(Default)]
struct Longest {
    most: u64,
    now: u64,
}

impl Longest {
    fn go_on(&mut self, row: &Row) {
        match row.record_type {
            50 => self.now += 1,
            _ if row.is_item() => self.now = 0,
            _ => {}
        }
        self.most = self.most.max(self.now);
    }
}

/// A view of a file, by the ordinals that name its files.
pub struct NamedView {
    /// The folders of its cash letter and bundle, and the rest of its ordinals.
    parts: Vec<String>,
    /// The ending of its picture.
    ending: &'static str,
    /// The offset of its Image View Data Record.
    pub offset: u64,
}

impl NamedView {
    pub fn of(placed: &PlacedView<'_>, digits: &Digits, bytes: &[u8]) -> NamedView {
        let PlacedView { letter, bundle, item, view } = placed;
        let (letter, ordinal) = (format!("letter-{letter:0width$}", width = digits.letter), view.ordinal());
        let view_digits = digits.view;
        let parts = match bundle {
            Some(bundle) => vec![
                letter,
                format!("bundle-{bundle:0width$}", width = digits.bundle),
                format!("item-{item:0width$}_view-{ordinal:0view_digits$}", width = digits.item),
            ],
            None => {
                vec![letter, format!("credit-{item:0width$}_view-{ordinal:0view_digits$}", width = digits.credit)]
            }
        };
        NamedView { parts, ending: ending(view, bytes), offset: view.offset() }
    }

    /// Where its picture is put, in a folder for its cash letter and bundle: `letter-001/bundle-001/item-0001_view-01.tif`.
    pub fn path(&self) -> PathBuf {
        format!("{}.{}", self.parts.join("/"), self.ending).into()
    }

    /// The name of its picture where all stand in one folder: `letter-001_bundle-001_item-0001_view-01.tif`.
    fn picture(&self) -> String {
        format!("{}.{}", self.parts.join("_"), self.ending)
    }

    /// The name for a Binary field of its Image View Data Record, where all stand in one folder.
    pub fn of_field(&self, field: u64) -> String {
        let ordinals = self.parts.join("_");
        match field {
            23 => format!("{ordinals}.signature"),
            26 => format!("{ordinals}.certificate"),
            28 => format!("{ordinals}.ancillary"),
            _ => self.picture(),
        }
    }
}

/// Every view of a file, in the order of the file, so that the offsets rise.
pub fn of_views(reading: &Reading, bytes: &[u8]) -> Vec<NamedView> {
    let digits = Digits::of(reading);
    places::of_views(reading).iter().map(|placed| NamedView::of(placed, &digits, bytes)).collect()
}

/// The ending that clause 21.5 gives for the view's format.
fn ending(view: &View<'_>, bytes: &[u8]) -> &'static str {
    match view.detail().and_then(|row| row.text(bytes, 5)).as_deref() {
        Some("00" | "23" | "24") => "tif",
        Some("21") => "jpg",
        Some("22") => "png",
        Some("25") => "jp2",
        Some("26") => "ica",
        _ => "img",
    }
}

#[cfg(test)]
mod tests {
    use super::*;

    #[test]
    fn as_many_digits_as_are_needed() {
        assert_eq!([0, 1, 999, 1_000, 123_456].map(|number| digits(number, 3)), [3, 3, 3, 4, 6]);
    }
}
