//! The calls of include/x9180.h. All unsafe code of the crate stands here. It imports the rows that the library fills and reads, and no other
//! module.

use crate::draft_row::DraftRow;
use crate::listed::Listed;
use crate::row::Row;

extern "C" {
    fn x9_read(file: *const u8, file_len: usize, table: *mut u64, table_len: usize, answer: *mut u64) -> u64;
    fn x9_read_slowly(file: *const u8, file_len: usize, table: *mut u64, table_len: usize, answer: *mut u64) -> u64;
    fn x9_picture(file: *const u8, file_len: usize, offset: u64, place: *mut u64) -> u64;
    fn x9_record_in(body: *const u8, body_len: usize, set: u64, answer: *mut u64) -> u64;
    fn x9_write(
        text: *const u8,
        text_len: usize,
        draft: *const u64,
        draft_len: usize,
        out: *mut u8,
        out_len: usize,
        answer: *mut u64,
    ) -> u64;
    fn x9_draft(file: *const u8, file_len: usize, draft: *mut u64, draft_len: usize, answer: *mut u64) -> u64;
    fn x9_salvage(
        file: *const u8,
        file_len: usize,
        out: *mut u8,
        out_len: usize,
        list: *mut u64,
        list_len: usize,
        answer: *mut u64,
    ) -> u64;
    fn x9_tiff(image: *const u8, image_len: usize, answer: *mut u64) -> u64;
    fn x9_book_enter(
        file: *const u8,
        file_len: usize,
        file_number: u64,
        owner: u64,
        table: *mut u64,
        table_len: usize,
        book: *mut u64,
        book_len: usize,
        taken: *mut u64,
        taken_len: usize,
        answer: *mut u64,
    ) -> u64;
    fn x9_book_withdraw(
        book: *mut u64,
        book_len: usize,
        taken: *const u64,
        taken_len: usize,
        owner: u64,
        entry_number: u64,
    ) -> u64;
    fn x9_book_tidy(book: *mut u64, book_len: usize, taken: *const u64, taken_len: usize) -> u64;
    fn x9_book_find(book: *const u64, book_len: usize, owner: u64, entry_number: u64, found: *mut u64) -> u64;
    fn x9_book_totals(book: *const u64, book_len: usize, owner: u64, totals: *mut u64) -> u64;
}

/// Reads a file into rows and gives the twelve numbers of the answer.
pub(crate) fn read(file: &[u8], rows: &mut [Row]) -> [u64; 12] {
    let mut answer = [0; 12];
    let numbers = rows.len() * Row::NUMBERS;
    // SAFETY: the file's pointer goes with its own length. A row is `repr(C)` and seven u64 long, so the rows are that many numbers
    // at one pointer, which the exclusive borrow keeps apart from the file. The answer has the twelve numbers that the call fills. No
    // pointer of a slice is null, and the call keeps none.
    unsafe { x9_read(file.as_ptr(), file.len(), rows.as_mut_ptr().cast(), numbers, answer.as_mut_ptr()) };
    answer
}

/// The same by the slow reader.
pub(crate) fn read_slowly(file: &[u8], rows: &mut [Row]) -> [u64; 12] {
    let mut answer = [0; 12];
    let numbers = rows.len() * Row::NUMBERS;
    // SAFETY: as in `read`.
    unsafe { x9_read_slowly(file.as_ptr(), file.len(), rows.as_mut_ptr().cast(), numbers, answer.as_mut_ptr()) };
    answer
}

/// Finds the picture at an offset and gives the four numbers of its place.
pub(crate) fn picture(file: &[u8], offset: u64) -> [u64; 4] {
    let mut place = [0; 4];
    // SAFETY: the file's pointer goes with its own length, and the place has the four numbers that the call fills.
    unsafe { x9_picture(file.as_ptr(), file.len(), offset, place.as_mut_ptr()) };
    place
}

/// Judges a record's body in the set of this number and gives the two numbers of the answer.
pub(crate) fn record(body: &[u8], set: u64) -> [u64; 2] {
    let mut answer = [0; 2];
    // SAFETY: the body's pointer goes with its own length, and the answer has the two numbers that the call fills.
    unsafe { x9_record_in(body.as_ptr(), body.len(), set, answer.as_mut_ptr()) };
    answer
}

/// Writes the file of a draft, a text and its rows, and gives the twelve numbers of the answer.
pub(crate) fn write(text: &[u8], rows: &[DraftRow], out: &mut [u8]) -> [u64; 12] {
    let mut answer = [0; 12];
    let numbers = rows.len() * DraftRow::NUMBERS;
    // SAFETY: text and buffer go with their own lengths, and the exclusive borrow keeps the buffer apart from what is read. A row is `repr(C)` and
    // ten u64 long, so the rows are that many numbers at one pointer. The answer has the twelve numbers that the call fills. No pointer of a slice
    // is null, and the call keeps none.
    unsafe {
        x9_write(
            text.as_ptr(),
            text.len(),
            rows.as_ptr().cast(),
            numbers,
            out.as_mut_ptr(),
            out.len(),
            answer.as_mut_ptr(),
        )
    };
    answer
}

/// Reads a file into the rows of its draft and gives the twelve numbers of the answer.
pub(crate) fn draft(file: &[u8], rows: &mut [DraftRow]) -> [u64; 12] {
    let mut answer = [0; 12];
    let numbers = rows.len() * DraftRow::NUMBERS;
    // SAFETY: as in `read`, with rows of ten u64.
    unsafe { x9_draft(file.as_ptr(), file.len(), rows.as_mut_ptr().cast(), numbers, answer.as_mut_ptr()) };
    answer
}

/// Salvages a torn file into a buffer, lists what became of its records, and gives the twelve numbers of the answer.
pub(crate) fn salvage(file: &[u8], out: &mut [u8], list: &mut [Listed]) -> [u64; 12] {
    let mut answer = [0; 12];
    let numbers = list.len() * Listed::NUMBERS;
    // SAFETY: file and buffer go with their own lengths. A row of the list is `repr(C)` and four u64 long, so the rows are that many numbers at one pointer.
    // The exclusive borrows keep buffer and list apart from the file and from each other. The answer has the twelve numbers that the call fills. No pointer
    // of a slice is null, and the call keeps none.
    unsafe {
        x9_salvage(
            file.as_ptr(),
            file.len(),
            out.as_mut_ptr(),
            out.len(),
            list.as_mut_ptr().cast(),
            numbers,
            answer.as_mut_ptr(),
        )
    };
    answer
}

/// Judges the tags of one picture and gives the two numbers of the answer.
pub(crate) fn tiff(image: &[u8]) -> [u64; 2] {
    let mut answer = [0; 2];
    // SAFETY: the picture's pointer goes with its own length, and the answer has the two numbers that the call fills.
    unsafe { x9_tiff(image.as_ptr(), image.len(), answer.as_mut_ptr()) };
    answer
}

/// Reads a file into rows, enters its cash letters into a book and its file number into the list for the owner of this number, and gives the thirteen
/// numbers of the answer.
pub(crate) fn book_enter(
    file: &[u8],
    file_number: u64,
    owner: u64,
    rows: &mut [Row],
    book: &mut [u64],
    taken: &mut [u64],
) -> [u64; 13] {
    let mut answer = [0; 13];
    let numbers = rows.len() * Row::NUMBERS;
    // SAFETY: as in `read`; the pointers of book and list go with their own lengths, and the exclusive borrows keep them apart from the file, the rows and
    // each other. The answer has the thirteen numbers that the call fills.
    unsafe {
        x9_book_enter(
            file.as_ptr(),
            file.len(),
            file_number,
            owner,
            rows.as_mut_ptr().cast(),
            numbers,
            book.as_mut_ptr(),
            book.len(),
            taken.as_mut_ptr(),
            taken.len(),
            answer.as_mut_ptr(),
        )
    };
    answer
}

/// Withdraws an entry of an owner from a book, with the list of the file numbers taken, and gives the number of the answer.
pub(crate) fn book_withdraw(book: &mut [u64], taken: &[u64], owner: u64, entry_number: u64) -> u64 {
    // SAFETY: the pointers of book and list go with their own lengths, and the exclusive borrow keeps the book apart from the list.
    unsafe { x9_book_withdraw(book.as_mut_ptr(), book.len(), taken.as_ptr(), taken.len(), owner, entry_number) }
}

/// Closes the gaps of a book, with the list of the file numbers taken, and gives the number of the answer.
pub(crate) fn book_tidy(book: &mut [u64], taken: &[u64]) -> u64 {
    // SAFETY: as in `book_withdraw`.
    unsafe { x9_book_tidy(book.as_mut_ptr(), book.len(), taken.as_ptr(), taken.len()) }
}

/// Finds an entry of an owner in a book and gives the nine numbers of the answer.
pub(crate) fn book_find(book: &[u64], owner: u64, entry_number: u64) -> [u64; 9] {
    let mut found = [0; 9];
    // SAFETY: the book's pointer goes with its own length, and the answer has the nine numbers that the call fills.
    unsafe { x9_book_find(book.as_ptr(), book.len(), owner, entry_number, found.as_mut_ptr()) };
    found
}

/// Gives the nine numbers of the answer on the running totals of an owner.
pub(crate) fn book_totals(book: &[u64], owner: u64) -> [u64; 9] {
    let mut totals = [0; 9];
    // SAFETY: as in `book_find`.
    unsafe { x9_book_totals(book.as_ptr(), book.len(), owner, totals.as_mut_ptr()) };
    totals
}
