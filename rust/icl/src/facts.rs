//! What an item's own records tell that people ask for: its kind, sequence number, routing number and account, as they stand in the file.

use x9180::{Item, ItemKind, Row, View};

/// The fields of an item's first record, by what they tell: clauses 10 and 14 give a check and a return the same numbers, clause 26 a credit others.
pub struct FieldNumbers {
    pub amount: u64,
    pub sequence: u64,
    pub routing: u64,
    pub account: u64,
}

pub fn field_numbers(kind: ItemKind) -> FieldNumbers {
    match kind {
        ItemKind::Check | ItemKind::Return => FieldNumbers { amount: 6, sequence: 7, routing: 4, account: 5 },
        ItemKind::Credit => FieldNumbers { amount: 7, sequence: 8, routing: 5, account: 6 },
    }
}

/// The Deposit Account Number at BOFD of an addendum (clauses 11.6, 13.12, 15.6 and 18.12).
pub fn deposit_account(addendum: &Row) -> Option<u64> {
    match addendum.record_type {
        26 | 32 => Some(6),
        28 | 35 => Some(12),
        _ => None,
    }
}

/// The item's kind; a Credit/Reconciliation Record that makes a debit by the standard's own word for it.
pub fn kind_told(item: &Item<'_>) -> &'static str {
    match (item.kind(), item.is_debit()) {
        (ItemKind::Check, _) => "check",
        (ItemKind::Return, _) => "return",
        (ItemKind::Credit, false) => "credit",
        (ItemKind::Credit, true) => "debit adjustment",
    }
}

/// A field of the item's first record.
pub fn text(item: &Item<'_>, file: &[u8], field: u64) -> String {
    item.rows().first().and_then(|row| row.text(file, field)).unwrap_or_default()
}

/// Which side of its document a view shows.
pub fn side(view: &View<'_>, file: &[u8]) -> Option<&'static str> {
    match view.detail().and_then(|row| row.text(file, 8)).as_deref() {
        Some("0") => Some("front"),
        Some("1") => Some("back"),
        _ => None,
    }
}
