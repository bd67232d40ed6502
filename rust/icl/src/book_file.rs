//! The file that a day book stands in: how its bytes are made of the book, and how they are taken apart. `docs/BOOK-FILE.md` has the form, and how those
//! of older versions differ.

use x9180::Book;

/// What the first line begins with, by which a person tells the file.
const EVERY_VERSION: &[u8] = b"icl day book, version ";

/// The version of the files that are written here; the first is 1. It ends the first line.
pub const VERSION: u64 = 4;

/// The first version with a list of the file numbers taken.
const WITH_LIST: u64 = 4;

/// The bytes of the first line, while the version is of one digit.
const FIRST_LINE: usize = EVERY_VERSION.len() + 2;

/// The bytes of a number.
const NUMBER: usize = 8;

/// The most rows of a book that stands in a file.
pub const MOST_ROWS: u64 = 1_000_000;

/// The most places for file numbers of such a book.
pub const MOST_PLACES: u64 = 1_000_000;

/// The most numbers of its table, and of its list.
const MOST_NUMBERS: [usize; 2] =
    [Book::numbers_for(MOST_ROWS as usize), Book::numbers_for_places(MOST_PLACES as usize)];

/// The most bytes of such a file: first line, four counts, the numbers, the check sum.
pub const MOST_BYTES: usize = FIRST_LINE + (4 + MOST_NUMBERS[0] + MOST_NUMBERS[1] + 1) * NUMBER;

/// Why a file holds no book.
#[derive(Debug, PartialEq, Eq)]
pub enum Fault {
    /// It is damaged, or no file of a day book, or of a version that is not known here.
    Damaged(String),
    /// It is whole, and of this older version.
    Older(u64),
    /// It is whole, and of the version of today, where an older one is asked for.
    OfToday,
    /// There is not memory enough for the book.
    NoMemory,
}

/// The bytes of the file: the first line; how many numbers the book's table has and how many of them follow, and the same of its list of file numbers taken;
/// these numbers; and the check sum of all that. The zeros at the end of either, which free rows and places are, are left out.
pub fn bytes_of(book: &Book) -> Vec<u8> {
    let (table, list) = (book.numbers(), book.taken());
    let [of_table, of_list] = [table, list].map(without_zeros);
    let counts = [table.len(), of_table.len(), list.len(), of_list.len()].map(|count| count as u64);
    let mut bytes = Vec::with_capacity(FIRST_LINE + (counts.len() + of_table.len() + of_list.len() + 1) * NUMBER);
    bytes.extend_from_slice(EVERY_VERSION);
    bytes.extend(format!("{VERSION}\n").bytes());
    counts.iter().chain(of_table).chain(of_list).for_each(|number| bytes.extend(number.to_le_bytes()));
    let sum = check_sum(&bytes);
    bytes.extend(sum.to_le_bytes());
    bytes
}

/// All but the zeros at the end.
fn without_zeros(numbers: &[u64]) -> &[u64] {
    let stored = numbers.iter().rposition(|number| *number != 0).map_or(0, |last| last + 1);
    numbers.get(..stored).unwrap_or_default()
}

/// The book that stands in these bytes, for the library to judge.
pub fn book_in(bytes: &[u8]) -> Result<Book, Fault> {
    match arrays_in(bytes)? {
        (VERSION, table, list) => Ok(Book::over(table, list)),
        (older, ..) => Err(Fault::Older(older)),
    }
}

/// The version and the table of an older book.
pub fn older_in(bytes: &[u8]) -> Result<(u64, Vec<u64>), Fault> {
    match arrays_in(bytes)? {
        (VERSION, ..) => Err(Fault::OfToday),
        (older, table, _) => Ok((older, table)),
    }
}

/// The version of the file in these bytes, and the numbers of its table and its list; before there were lists, of none.
fn arrays_in(bytes: &[u8]) -> Result<(u64, Vec<u64>, Vec<u64>), Fault> {
    let (version, numbers) = first_line(bytes)?;
    if bytes.len() > MOST_BYTES {
        return Err(Fault::Damaged(format!("it is longer than {MOST_BYTES} bytes, and no day book is")));
    }
    let arrays = if version < WITH_LIST { 1 } else { 2 };
    let (counts, rest) = numbers.split_at_checked(arrays * 2 * NUMBER).ok_or_else(|| cut_off(bytes))?;
    let (stored, sum) = rest.split_last_chunk::<NUMBER>().ok_or_else(|| cut_off(bytes))?;
    let mut counts = numbers_in(counts);
    let [length, count, list_length, list_count] = std::array::from_fn(|_| counts.next().unwrap_or(0));
    let both = u128::from(count) + u128::from(list_count);
    if both * NUMBER as u128 != stored.len() as u128 {
        let words = format!("it has {} bytes, which is not what its counts ask for: {both} numbers", bytes.len());
        return Err(Fault::Damaged(words));
    }
    let (stated, found) = (u64::from_le_bytes(*sum), check_sum(bytes.get(..bytes.len() - NUMBER).unwrap_or_default()));
    if stated != found {
        let words = format!("its check sum is wrong: {stated:016x} stands there, and its bytes come to {found:016x}");
        return Err(Fault::Damaged(words));
    }
    let (of_table, of_list) = stored.split_at_checked(count as usize * NUMBER).ok_or_else(|| cut_off(bytes))?;
    let table = with_zeros(of_table, length, MOST_NUMBERS[0], "table of a day book")?;
    Ok((version, table, with_zeros(of_list, list_length, MOST_NUMBERS[1], "list of file numbers")?))
}

/// So many numbers, of which all but these first ones are zeros.
fn with_zeros(stored: &[u8], length: u64, most: usize, what: &str) -> Result<Vec<u64>, Fault> {
    let Some(length) = usize::try_from(length).ok().filter(|length| *length <= most) else {
        return Err(Fault::Damaged(format!("it tells of {length} numbers, and no {what} has more than {most}")));
    };
    if stored.len() / NUMBER > length {
        let count = stored.len() / NUMBER;
        return Err(Fault::Damaged(format!("it tells of {length} numbers of a {what}, and {count} stand in it")));
    }
    let mut numbers = Vec::new();
    numbers.try_reserve_exact(length).map_err(|_| Fault::NoMemory)?;
    numbers.extend(numbers_in(stored));
    numbers.resize(length, 0);
    Ok(numbers)
}

/// The version that the first line tells, where it is one that is read here, and what stands behind that line.
fn first_line(bytes: &[u8]) -> Result<(u64, &[u8]), Fault> {
    if bytes.is_empty() {
        return Err(Fault::Damaged("the file is empty".to_string()));
    }
    let no_first_line =
        || Fault::Damaged(format!("it does not begin with the line \"icl day book, version {VERSION}\""));
    let behind = bytes.strip_prefix(EVERY_VERSION).ok_or_else(no_first_line)?;
    let digits = behind.iter().take_while(|byte| byte.is_ascii_digit()).count();
    match behind.get(..digits).unwrap_or_default() {
        [digit @ b'1'..=b'9'] if u64::from(digit - b'0') <= VERSION => {
            let rest = behind.get(digits..).and_then(|rest| rest.strip_prefix(b"\n")).ok_or_else(no_first_line)?;
            Ok((u64::from(digit - b'0'), rest))
        }
        [] => Err(no_first_line()),
        version => {
            let version = String::from_utf8_lossy(version.get(..20).unwrap_or(version)).into_owned();
            Err(Fault::Damaged(format!(
                "it says that it is of version {version}, and this icl reads version {VERSION}"
            )))
        }
    }
}

fn cut_off(bytes: &[u8]) -> Fault {
    Fault::Damaged(format!("it ends after {} bytes, before its numbers do", bytes.len()))
}

fn numbers_in(bytes: &[u8]) -> impl Iterator<Item = u64> + '_ {
    bytes.chunks_exact(NUMBER).filter_map(|chunk| chunk.first_chunk().copied().map(u64::from_le_bytes))
}

/// CRC-64 as the XZ format has it. It tells every change of up to eight bytes in a row, and of all others all but one in 2 to the 64.
fn check_sum(bytes: &[u8]) -> u64 {
    let step = |sum: u64, byte: &u8| REMAINDERS[usize::from(sum as u8 ^ byte)] ^ (sum >> 8);
    !bytes.iter().fold(!0, step)
}

/// What each byte leaves when it is divided by the polynomial (ECMA-182, its bits turned round).
const REMAINDERS: [u64; 256] = {
    let mut remainders = [0; 256];
    let mut byte = 0;
    while byte < 256 {
        let (mut remainder, mut bit) = (byte as u64, 0);
        while bit < 8 {
            remainder = if remainder & 1 == 1 { (remainder >> 1) ^ 0xC96C_5795_D787_0F42 } else { remainder >> 1 };
            bit += 1;
        }
        remainders[byte] = remainder;
        byte += 1;
    }
    remainders
};

#[cfg(test)]
mod tests {
    use x9180::book::Owner;

    use super::*;

    fn damage(bytes: &[u8]) -> String {
        match book_in(bytes) {
            Err(Fault::Damaged(words)) => words,
            other => panic!("{other:?}"),
        }
    }

    /// A book of two rows and three places with an entry in the first of each.
    fn small() -> Book {
        let file =
            std::fs::read(concat!(env!("CARGO_MANIFEST_DIR"), "/../../peer/samples/sound-11-credits.x9")).unwrap();
        let mut book = Book::with_rows_and_places(2, 3).unwrap();
        book.enter(&file, 7, Owner::TWO).unwrap();
        book
    }

    /// The check value that is published for this check sum, CRC-64/XZ, and that of no bytes.
    #[test]
    fn check_sums() {
        assert_eq!(check_sum(b"123456789"), 0x995D_C9BB_DF19_39FA);
        assert_eq!(check_sum(b""), 0);
    }

    /// An empty book of one row and two places has 26 numbers and 5, all zeros. The check sum was worked out by another program (xz).
    #[test]
    fn the_bytes_of_an_empty_book() {
        let book = Book::with_rows_and_places(1, 2).unwrap();
        let expected = [
            b"icl day book, version 4\n".as_slice(),
            &[26, 0, 0, 0, 0, 0, 0, 0, 0, 0, 0, 0, 0, 0, 0, 0],
            &[5, 0, 0, 0, 0, 0, 0, 0, 0, 0, 0, 0, 0, 0, 0, 0],
            &0x8c55_467d_7859_9b66_u64.to_le_bytes(),
        ];
        assert_eq!(bytes_of(&book), expected.concat());
    }

    #[test]
    fn what_is_written_is_read() {
        let arrays = || {
            let between = [vec![0; 30], vec![1], vec![0; 30]].concat();
            [
                vec![],
                vec![0],
                vec![0; 500],
                vec![u64::MAX; 70],
                between,
                small().into_memory().0,
                small().into_memory().1,
            ]
        };
        let stored = |numbers: &[u64]| numbers.iter().rposition(|number| *number != 0).map_or(0, |last| last + 1);
        for table in arrays() {
            for list in arrays() {
                let bytes = bytes_of(&Book::over(table.clone(), list.clone()));
                let book = book_in(&bytes).unwrap();
                assert_eq!((book.numbers(), book.taken()), (&table[..], &list[..]));
                assert_eq!(bytes.len(), 24 + 8 * (5 + stored(&table) + stored(&list)));
            }
        }
    }

    /// Whole, but of an older version, as their check sums say too: of a table alone.
    #[test]
    fn older_books() {
        let (now, table) = (bytes_of(&small()), small().into_memory().0);
        assert_eq!(older_in(&now), Err(Fault::OfToday));
        for version in 1..VERSION {
            let line = format!("icl day book, version {version}\n");
            let numbers = [[35, 26].as_slice(), &table[..26]].concat();
            let mut older =
                [line.as_bytes(), &numbers.iter().flat_map(|number| number.to_le_bytes()).collect::<Vec<_>>()].concat();
            older.extend(check_sum(&older).to_le_bytes());
            assert_eq!(book_in(&older).unwrap_err(), Fault::Older(version));
            assert_eq!(older_in(&older), Ok((version, table.clone())));
            older[100] ^= 1;
            assert!(damage(&older).starts_with("its check sum is wrong"));
            assert!(matches!(older_in(&older), Err(Fault::Damaged(_))));
        }
    }

    /// Each byte changed to each other value, each cut, and bytes added at either end or taken out.
    #[test]
    fn every_damage_is_seen() {
        let sound = bytes_of(&small());
        assert!(book_in(&sound).is_ok());
        let mut changed = sound.clone();
        for at in 0..sound.len() {
            for byte in (0..=255).filter(|byte| *byte != sound[at]) {
                changed[at] = byte;
                damage(&changed);
            }
            changed[at] = sound[at];
            damage(&sound[..at]);
            damage(&[&sound[..at], &sound[at + 1..]].concat());
            damage(&[&sound[..at], &[0], &sound[at..]].concat());
            damage(&[&sound[..at], &vec![0; sound.len() - at]].concat());
        }
        damage(&[&sound[..], &sound].concat());
    }

    #[test]
    fn words_of_damage() {
        let sound = bytes_of(&small());
        assert_eq!(damage(b""), "the file is empty");
        let first_line = "it does not begin with the line \"icl day book, version 4\"";
        for begin in ["icl", "icl day book, version 4", "icl day book, version \n", "ICL day book, version 4\n", "\n"] {
            assert_eq!(damage(begin.as_bytes()), first_line, "{begin}");
        }
        for (line, version) in
            [("5\n", "5"), ("10\n", "10"), ("0", "0"), ("04", "04"), ("4294967296 of\n", "4294967296")]
        {
            let words = format!("it says that it is of version {version}, and this icl reads version 4");
            assert_eq!(damage(format!("icl day book, version {line}").as_bytes()), words);
        }
        assert_eq!(damage(&sound[..24]), "it ends after 24 bytes, before its numbers do");
        assert_eq!(damage(&sound[..63]), "it ends after 63 bytes, before its numbers do");
        // A head of 17 numbers and the row's 9, the count of the list and the place's 2: 24 + 8 x (5 + 29) bytes.
        assert_eq!(sound.len(), 296);
        assert_eq!(damage(&sound[..64]), "it has 64 bytes, which is not what its counts ask for: 29 numbers");
        assert_eq!(damage(&sound[..295]), "it has 295 bytes, which is not what its counts ask for: 29 numbers");
        let mut changed = sound.clone();
        changed[100] ^= 1;
        let stated = u64::from_le_bytes(*sound.last_chunk().unwrap());
        let begin = format!("its check sum is wrong: {stated:016x} stands there, and its bytes come to ");
        assert!(damage(&changed).starts_with(&begin), "{}", damage(&changed));
        // Counts that no file of ours has, with a check sum that is right.
        let table = "no table of a day book has more than 9000017";
        let list = "no list of file numbers has more than 2000001";
        for (counts, words) in [
            ([0, 1, 9, 0], "it tells of 0 numbers of a table of a day book, and 1 stand in it".to_string()),
            ([9, 0, 0, 1], "it tells of 0 numbers of a list of file numbers, and 1 stand in it".to_string()),
            ([9_000_018, 1, 9, 0], format!("it tells of 9000018 numbers, and {table}")),
            ([u64::MAX, 1, 9, 0], format!("it tells of 18446744073709551615 numbers, and {table}")),
            ([9, 0, 2_000_002, 1], format!("it tells of 2000002 numbers, and {list}")),
            (
                [9, u64::MAX, 9, 2],
                "it has 72 bytes, which is not what its counts ask for: 18446744073709551617 numbers".to_string(),
            ),
        ] {
            let [length, count, list_length, list_count] = counts;
            let numbers = [length, count, list_length, list_count, 5].map(u64::to_le_bytes).concat();
            let mut bytes = [b"icl day book, version 4\n".as_slice(), &numbers].concat();
            bytes.extend(check_sum(&bytes).to_le_bytes());
            assert_eq!(damage(&bytes), words);
        }
        let long = [b"icl day book, version 4\n".as_slice(), &vec![0; MOST_BYTES]].concat();
        assert_eq!(damage(&long), "it is longer than 88000208 bytes, and no day book is");
    }
}
