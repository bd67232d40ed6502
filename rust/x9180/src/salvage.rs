//! What is left of a torn file (request 11): the file that the proved library made of it, and what became of each of its records.

use crate::explain_salvage::{self, Why};
use crate::ffi;
use crate::listed::Listed;
use crate::more_bytes::LIMIT;
use crate::reading::Totals;
use crate::refusal::{Number, Refusal};
use crate::room::room;
use crate::torn::{self, Part};
use crate::walked::walked;

/// A torn file salvaged: the new file, and the list of what became of the records of the torn one.
#[derive(Clone, Debug, PartialEq, Eq)]
pub struct Salvage {
    file: Vec<u8>,
    totals: Totals,
    list: Vec<Listed>,
}

/// The bytes of a new Cash Letter Control Record, and of a new File Control Record, with their lengths (clauses 34 and 35).
const LETTER_CONTROL: usize = 4 + 85;
const FILE_CONTROL: usize = 4 + 80;

impl Salvage {
    /// Has the library salvage a file.
    pub(crate) fn of(file: &[u8]) -> Result<Salvage, Refusal> {
        let (mut out, mut list) = lent(file);
        let [number, record, field, offset, totals @ ..] = ffi::salvage(file, &mut out, &mut list);
        match Number(number) {
            Number::ACCEPTED => {
                out.truncate(usize::try_from(offset).unwrap_or(usize::MAX));
                // Zeros were lent, and no row but the first has offset 0.
                list.truncate(1 + list.iter().skip(1).take_while(|listed| listed.offset != 0).count());
                Ok(Salvage { file: out, totals: Totals::of_answer(totals), list })
            }
            refused => Err(explain_salvage::refused(file, refused, record, field, offset)),
        }
    }

    /// The new file, in ASCII. [`read`](crate::read) accepts it.
    pub fn file(&self) -> &[u8] {
        &self.file
    }

    /// The new file, and nothing else.
    pub fn into_file(self) -> Vec<u8> {
        self.file
    }

    /// The totals of the new file, as added up from its records.
    pub fn totals(&self) -> Totals {
        self.totals
    }

    /// A row for each record of the torn file that was walked, in the order of the file.
    pub fn list(&self) -> &[Listed] {
        &self.list
    }

    /// The torn file by its parts, in their order: cash letter headers, bundles, credits, controls, and what is none of these. All records of a part became
    /// the same, and every record that was walked is in one part.
    ///
    /// ```
    /// use x9180::Sort;
    ///
    /// # fn main() -> Result<(), Box<dyn std::error::Error>> {
    /// let file = std::fs::read("../../samples/two-letters-with-pictures.x9")?;
    /// let torn = &file[..2_900]; // in the second bundle
    /// let sorts: Vec<Sort> = x9180::salvage(torn)?.parts().iter().map(|part| part.sort).collect();
    /// assert_eq!(sorts, [Sort::FileHeader, Sort::Header, Sort::Bundle, Sort::OpenBundle]);
    /// # Ok(())
    /// # }
    /// ```
    pub fn parts(&self) -> Vec<Part> {
        torn::parts(&self.list)
    }

    /// Why a part was dropped, in plain words; `None` where it was not. `file` is the torn file. The words are not proved: for a bundle or a credit they
    /// are those of the library's own reading of it behind the file header and its cash letter header.
    ///
    /// ```
    /// use x9180::{Sort, Why};
    ///
    /// # fn main() -> Result<(), Box<dyn std::error::Error>> {
    /// let mut file = std::fs::read("../../samples/two-letters-with-pictures.x9")?;
    /// file[2_534 + 4 + 26] = b'9'; // the check digit of a check in the second bundle, 4 before
    /// let salvage = x9180::salvage(&file)?;
    /// let parts = salvage.parts();
    /// let bundle = parts.iter().filter(|part| part.sort == Sort::Bundle).nth(1).ok_or("no second bundle")?;
    /// let Some(Why::Fault(fault)) = salvage.why(&file, bundle) else { panic!("it was dropped for a fault") };
    /// assert_eq!((fault.number(), fault.record(), fault.field(), fault.offset()), (x9180::Number::FIELD, 19, 4, 2_534));
    /// # Ok(())
    /// # }
    /// ```
    pub fn why(&self, file: &[u8], part: &Part) -> Option<Why> {
        explain_salvage::why(file, &self.list, part)
    }
}

/// Room for the new file and for the list. What is kept lies in the torn file; behind each header a control may be new, and one behind all. A file past
/// the limit is refused whatever the buffer.
fn lent(file: &[u8]) -> (Vec<u8>, Vec<Listed>) {
    let (mut rows, mut headers) = (0, 0);
    if file.len() <= LIMIT {
        walked(file).for_each(|record| (rows, headers) = (rows + 1, headers + usize::from(record.record_type == 10)));
    }
    let bytes = (file.len() + LETTER_CONTROL * headers + FILE_CONTROL).min(LIMIT);
    let (mut out, mut list) = (Vec::new(), Vec::new());
    // Where the memory cannot be had, nothing is lent, and the library answers with what is needed.
    if rows > 0 {
        let _ = room(&mut out, bytes as u64) && room(&mut list, rows);
    }
    (out, list)
}
