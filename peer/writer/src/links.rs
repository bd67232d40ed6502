//! LINK (document 01, "LINK faults", request 2 with reading 28): what a record's values and place ask of earlier ones. Counts and record
//! numbers are worked out, so that only one too long for its field is left of their rules.

use peer_reader::judge::all_blank;

use crate::draft::Row;
use crate::state::State;

/// The lowest field that breaks a link, and why.
pub type Broken = Option<(u8, &'static str)>;

/// Judges a record that has passed FIELD.
pub fn broken(state: &State, row: &Row) -> Broken {
    match row.layout.code {
        20 if state.content == b'N' => Some((1, "bundle under N")),
        25 | 31 | 61 | 70 if state.item_views == Some(0) => no_view(state.content),
        50 if state.content == b'E' => Some((1, "view under E")),
        52 => view_data(state, row),
        90 if state.bundles_in_letter() == 0 => no_bundle(state.content),
        _ => None,
    }
}

/// Annex B: I and F want a view of each item.
fn no_view(content: u8) -> Broken {
    match content {
        b'I' => Some((1, "no view under I")),
        b'F' => Some((1, "no view under F")),
        _ => None,
    }
}

/// Annex B: E, I and F want a bundle.
fn no_bundle(content: u8) -> Broken {
    match content {
        b'E' => Some((1, "no bundle under E")),
        b'I' => Some((1, "no bundle under I")),
        b'F' => Some((1, "no bundle under F")),
        _ => None,
    }
}

/// Clause 22: a 52 repeats its header and its item byte by byte; field 4 is compared in a bundle only. Under a signature the two names are not blank.
fn view_data(state: &State, row: &Row) -> Broken {
    let [letter_routing, letter_date] = state.letter_key;
    let [bundle_routing, bundle_date, cycle] = state.bundle_key;
    let (routing, date, cycle) = match state.order.in_bundle() {
        true => (bundle_routing, bundle_date, Some(cycle)),
        false => (letter_routing, letter_date, None),
    };
    let unlike = |number: u8, expected: &[u8]| row.value(number) != expected;
    let blank = |number: u8| state.signed && all_blank(row.characters(number));
    let rules = [
        (2, unlike(2, routing), "routing number"),
        (3, unlike(3, date), "business date"),
        (4, cycle.is_some_and(|cycle| unlike(4, cycle)), "cycle number"),
        (5, unlike(5, state.sequence), "sequence number"),
        (7, blank(7), "authenticator name"),
        (8, blank(8), "key name"),
    ];
    rules.into_iter().find(|(_, broken, _)| *broken).map(|(number, _, why)| (number, why))
}
