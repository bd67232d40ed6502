//! Whose an entry of a day book is. Imports no module.

/// An owner of entries: one of the two bureaus that share a day book (request 8).
///
/// The number is lent to the library as it stands. There are two owners; a call with any other number is refused as `NOENTRY`.
///
/// ```
/// use x9180::book::{Owner, Refused};
/// use x9180::Book;
///
/// # fn main() -> Result<(), Box<dyn std::error::Error>> {
/// let book = Book::with_rows(1)?;
/// assert_eq!(book.totals(Owner::TWO)?.entries, 0);
/// assert_eq!(book.totals(Owner(3)), Err(Refused::NoOwner(Owner(3))));
/// # Ok(())
/// # }
/// ```
#[derive(Clone, Copy, Debug, PartialEq, Eq, PartialOrd, Ord, Hash)]
pub struct Owner(pub u64);

impl Owner {
    /// The first bureau.
    pub const ONE: Owner = Owner(1);
    /// The second bureau.
    pub const TWO: Owner = Owner(2);
    /// Both of them.
    pub const BOTH: [Owner; 2] = [Owner::ONE, Owner::TWO];
}

impl std::fmt::Display for Owner {
    /// `owner 1`
    fn fmt(&self, f: &mut std::fmt::Formatter<'_>) -> std::fmt::Result {
        write!(f, "owner {}", self.0)
    }
}
