//! Every view of a file with its place: the ordinals that lead to it, as its files are named by them and as `icl tree` tells them.

use x9180::{Content, Item, Reading, View};

/// A view and the ordinals that lead to it.
pub struct PlacedView<'r> {
    pub letter: u64,
    /// `None` for the view of a credit directly in its cash letter.
    pub bundle: Option<u64>,
    /// Of its item in the bundle, or of its credit among those directly in the cash letter.
    pub item: u64,
    pub view: View<'r>,
}

impl PlacedView<'_> {
    /// How it is told: `cash letter 1, bundle 1, item 1, view 1, at offset 623`.
    pub fn told(&self) -> String {
        let PlacedView { letter, bundle, item, view } = self;
        let item = match bundle {
            Some(bundle) => format!("bundle {bundle}, item {item}"),
            None => format!("credit record {item}"),
        };
        format!("cash letter {letter}, {item}, view {}, at offset {}", view.ordinal(), view.offset())
    }
}

/// Every view of a file, in the order of the file, so that the offsets rise.
pub fn of_views(reading: &Reading) -> Vec<PlacedView<'_>> {
    let mut views = Vec::new();
    for letter in reading.letters() {
        for content in letter.contents() {
            match content {
                Content::Bundle(bundle) => {
                    let ordinal = Some(bundle.ordinal());
                    bundle.items().for_each(|item| views.extend(of_item(letter.ordinal(), ordinal, &item)));
                }
                // Outside every bundle: counted among those directly in the cash letter.
                Content::Credit(credit) => views.extend(of_item(letter.ordinal(), None, &credit)),
            }
        }
    }
    views
}

/// The views of one item, given the ordinals of its cash letter and bundle.
pub fn of_item<'r>(letter: u64, bundle: Option<u64>, item: &Item<'r>) -> impl Iterator<Item = PlacedView<'r>> {
    let ordinal = item.ordinal();
    item.views().map(move |view| PlacedView { letter, bundle, item: ordinal, view })
}
