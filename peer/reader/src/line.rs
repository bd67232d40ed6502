//! The line that the program prints (document 01, "Lines printed").

use crate::descent::{read_into, Number};

/// The program takes at most this many bytes.
pub const PROGRAM_LIMIT: usize = 65_536;

/// The rows of the table the program lends.
pub const PROGRAM_ROWS: usize = 1_000;

/// The line for one file.
pub fn line(file: &[u8]) -> String {
    if file.len() > PROGRAM_LIMIT {
        return "too long for this program".to_string();
    }
    let mut table = vec![0; PROGRAM_ROWS * 7];
    let answer = read_into(file, &mut table);
    let t = answer.totals;
    if answer.number == Number::Accepted {
        return format!(
            "accepted records {} letters {} bundles {} items {} views {} debit {}",
            t.records, t.letters, t.bundles, t.items, t.views, t.debit_cents
        );
    }
    let (record, field, offset) = (answer.record, answer.field, answer.offset);
    format!("refused {} record {record} field {field} offset {offset}", answer.number as u64)
}
