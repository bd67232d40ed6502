//! Memory for the rows that the library fills. Imports no module.

/// Makes room for so many rows; false where the memory cannot be had.
pub(crate) fn room<Row: Clone + Default>(rows: &mut Vec<Row>, needed: u64) -> bool {
    let Ok(needed) = usize::try_from(needed) else { return false };
    let had = rows.try_reserve_exact(needed).is_ok();
    if had {
        rows.resize(needed, Row::default());
    }
    had
}
