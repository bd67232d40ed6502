//! What the library answers of a file, as it is told: the line of the scope document, and the plain words that explain it.

use x9180::{Reading, Refusal, Totals};

use crate::screen::{coloured, Colour};
use crate::words::{counted, sums};

/// The line for a file, and the plain words that explain it.
pub fn told(result: &Result<Reading, Refusal>) -> (String, String) {
    match result {
        Ok(reading) => (coloured(&reading.line(), Colour::Green), accepted(&reading.totals())),
        Err(refusal) => (coloured(&refusal.line(), Colour::Red), refused(refusal)),
    }
}

/// The fault, and whether bytes that follow could mend the file.
fn refused(refusal: &Refusal) -> String {
    let more_bytes = refusal.more_bytes().map_or_else(String::new, |words| format!("\n{words}"));
    format!("{refusal:#}{more_bytes}")
}

fn accepted(totals: &Totals) -> String {
    let parts = [
        counted(totals.records, "record"),
        counted(totals.letters, "cash letter"),
        counted(totals.bundles, "bundle"),
        sums(totals),
    ];
    format!("ACCEPTED: all rules hold\n{}", parts.join(", "))
}
