//! A second opinion on a call: the table is taken down as a plain list, the list answers, and the table is written out again from the list.
//! The letters' figures are counted another way too: over the bodies of the file's ASCII copy.

use peer_reader::books::{code_of, count, Way};
use peer_reader::copy::copy;
use peer_reader::descent::{split_record, Number, LISTED};

use crate::layout::{
    is_owner, net_of, refused, Figures, BOOK, ENTER_ANSWER, FIND_ANSWER, HEAD, OWNER, OWNERS, SIX, TOTALS_ANSWER, WIDTH,
};
use crate::list::{judge_owner, Entry, List};
use crate::paper::Paper;

/// The list that a table and a list of file numbers taken hold, or BOOK. A row of neither owner is a gap, and no entry (reading 59).
pub fn decode(book: &[u64], taken: &[u64]) -> Result<List, u64> {
    let (there, behind) = book.split_at(book.len().min(HEAD));
    let mut head = [0; HEAD];
    head[..there.len()].copy_from_slice(there);
    let [claimed, parts @ ..] = head;
    let rows: Vec<[u64; WIDTH]> = behind.chunks_exact(WIDTH).map(|row| row.try_into().expect("nine")).collect();
    let claimed = rows.get(..usize::try_from(claimed).map_err(|_| BOOK)?).ok_or(BOOK)?;
    let owned = claimed.iter().copied().filter(|row| is_owner(row[OWNER]));
    let entry =
        |[owner, number, file_number, figures @ ..]: [u64; WIDTH]| Entry { owner, number, file_number, figures };
    let (one, two) = parts.split_at(parts.len() / OWNERS.len());
    let (taken, places) = decode_taken(taken)?;
    let (entries, last, capacity) = (owned.map(entry).collect(), [one[0], two[0]], rows.len());
    let list = List { entries, last, capacity, taken, places };
    let totals = |part: &[u64], owner| part[1..=SIX].iter().map(|total| u128::from(*total)).eq(list.sums(owner));
    let net = |part: &[u64], owner| part.last().copied() == as_held(list.net(owner));
    let states = |part: &[u64], owner| totals(part, owner) && net(part, owner);
    match states(one, OWNERS[0]) && states(two, OWNERS[1]) {
        true => Ok(list),
        false => Err(BOOK),
    }
}

/// The file numbers taken, each with an owner or a number that is none, and for how many there are places; or BOOK.
fn decode_taken(taken: &[u64]) -> Result<(Vec<(u64, u64)>, usize), u64> {
    let Some((claimed, behind)) = taken.split_first() else { return Ok((Vec::new(), 0)) };
    let places: Vec<(u64, u64)> = behind.chunks_exact(2).map(|place| (place[0], place[1])).collect();
    let claimed = places.get(..usize::try_from(*claimed).map_err(|_| BOOK)?).ok_or(BOOK)?;
    Ok((claimed.to_vec(), places.len()))
}

/// A net position as a table holds it; none where no i64 holds it.
fn as_held(net: i128) -> Option<u64> {
    let net = i64::try_from(net).ok()?;
    Some(u64::from_le_bytes(net.to_le_bytes()))
}

/// The row of an entry.
fn row_of(entry: &Entry) -> [u64; WIDTH] {
    let [a, b, c, d, e, f] = entry.figures;
    [entry.owner, entry.number, entry.file_number, a, b, c, d, e, f]
}

/// The rows that a table claims, of which the gaps are none.
fn slots(book: &[u64]) -> Vec<Option<[u64; WIDTH]>> {
    let (claimed, behind) = (book.first().copied().unwrap_or(0), book.get(HEAD..).unwrap_or_default());
    let rows = behind.chunks_exact(WIDTH).take(claimed as usize).map(|row| row.try_into().expect("nine"));
    rows.map(|row: [u64; WIDTH]| Some(row).filter(|row| is_owner(row[OWNER]))).collect()
}

/// The table with this many rows claimed, the head that the list gives, and these rows from the first on; what is behind them is as before.
fn written(list: &List, claimed: usize, rows: Vec<u64>, before: &[u64]) -> Vec<u64> {
    let mut table = vec![claimed as u64];
    for owner in OWNERS {
        table.push(list.last(owner));
        table.extend(list.sums(owner).map(|sum| u64::try_from(sum).expect("a running total")));
        table.push(as_held(list.net(owner)).expect("a net position"));
    }
    table.extend(rows);
    table.truncate(before.len());
    table.extend(&before[table.len()..]);
    table
}

/// The table for a list that has grown out of what the table held: its last entries go where there is a gap, and then behind the rows claimed.
fn with_entries(list: &List, before: &[u64]) -> Vec<u64> {
    let mut slots = slots(before);
    let new = &list.entries[slots.iter().flatten().count()..];
    for entry in new {
        match slots.iter_mut().find(|slot| slot.is_none()) {
            Some(gap) => *gap = Some(row_of(entry)),
            None => slots.push(Some(row_of(entry))),
        }
    }
    written_slots(list, &slots, before)
}

/// The table with these rows claimed, of which the gaps are as they were before.
fn written_slots(list: &List, slots: &[Option<[u64; WIDTH]>], before: &[u64]) -> Vec<u64> {
    let old = |row: usize| &before[HEAD + WIDTH * row..HEAD + WIDTH * row + WIDTH];
    let rows =
        slots.iter().enumerate().flat_map(|(at, slot)| slot.map_or_else(|| old(at).to_vec(), |row| row.to_vec()));
    written(list, slots.len(), rows.collect(), before)
}

/// The list of file numbers taken, with those that came in since.
fn with_taken(list: &List, before: &[u64]) -> Vec<u64> {
    let mut taken = vec![list.taken.len() as u64];
    taken.extend(list.taken.iter().flat_map(|(owner, file_number)| [*owner, *file_number]));
    taken.extend(&before[taken.len()..]);
    taken
}

/// The letters of an accepted file, each from its 10 to its 90.
pub fn letters(file: &[u8]) -> Vec<Figures> {
    let copy = copy(file);
    let mut left = &copy[..];
    let mut bodies = Vec::new();
    while let Some(body) = split_record(left) {
        bodies.push(body);
        left = &left[4 + body.len()..];
    }
    let letter = |bodies: &[&[u8]]| {
        let counted = count(bodies.iter().copied(), Way::Right);
        let items = [counted.bundles, counted.debit_items, counted.credit_items, counted.views];
        let [bundles, debits, credits, views] = items;
        [bundles, debits, credits, views, counted.debit_cents, counted.credit_cents].map(|figure| figure as u64)
    };
    let parts = bodies.split_inclusive(|body| code_of(body) == 90);
    parts.filter(|part| part.iter().any(|body| code_of(body) == 10)).map(letter).collect()
}

pub fn enter(
    paper: &Paper,
    file_number: u64,
    owner: u64,
    rows: &mut [u64],
    book: &mut [u64],
    taken: &mut [u64],
) -> [u64; ENTER_ANSWER] {
    entered(paper, file_number, owner, rows, book, taken).unwrap_or_else(|refusal| refusal)
}

fn entered(
    paper: &Paper,
    file_number: u64,
    owner: u64,
    rows: &mut [u64],
    book: &mut [u64],
    taken: &mut [u64],
) -> Result<[u64; ENTER_ANSWER], [u64; ENTER_ANSWER]> {
    let mut list = decode(book, taken).map_err(refused)?;
    judge_owner(owner).map_err(refused)?;
    let mut filled = rows.to_vec();
    let read = paper.reading.fill(&mut filled);
    let with_first = |first: u64| {
        let mut answer = [first; ENTER_ANSWER];
        answer[..LISTED].copy_from_slice(&read.listed());
        answer
    };
    if read.number != Number::Accepted {
        return Err(with_first(0));
    }
    let first = list.enter(file_number, owner, &letters(&paper.bytes)).map_err(refused)?;
    book.copy_from_slice(&with_entries(&list, book));
    taken.copy_from_slice(&with_taken(&list, taken));
    rows.copy_from_slice(&filled);
    Ok(with_first(first))
}

pub fn withdraw(book: &mut [u64], taken: &[u64], owner: u64, entry_number: u64) -> u64 {
    let mut list = match decode(book, taken) {
        Ok(list) => list,
        Err(number) => return number,
    };
    let at = match list.withdraw(owner, entry_number) {
        Ok(at) => at,
        Err(number) => return number,
    };
    let mut slots = slots(book);
    let row = slots.iter_mut().filter(|slot| slot.is_some()).nth(at).expect("a row for each entry");
    *row = Some([0; WIDTH]);
    let left = written_slots(&list, &slots, book);
    book.copy_from_slice(&left);
    0
}

pub fn tidy(book: &mut [u64], taken: &[u64]) -> u64 {
    let list = match decode(book, taken) {
        Ok(list) => list,
        Err(number) => return number,
    };
    let mut rows: Vec<u64> = list.entries.iter().flat_map(row_of).collect();
    rows.resize(WIDTH * slots(book).len(), 0);
    let left = written(&list, list.entries.len(), rows, book);
    book.copy_from_slice(&left);
    0
}

pub fn find(book: &[u64], owner: u64, entry_number: u64) -> [u64; FIND_ANSWER] {
    match decode(book, &[]).and_then(|list| list.find(owner, entry_number)) {
        Ok(Entry { number, file_number, figures: [a, b, c, d, e, f], .. }) => {
            [0, number, file_number, a, b, c, d, e, f]
        }
        Err(number) => refused(number),
    }
}

pub fn totals(book: &[u64], owner: u64) -> [u64; TOTALS_ANSWER] {
    match decode(book, &[]).and_then(|list| list.totals(owner)) {
        Ok((entries, sums)) => {
            let [a, b, c, d, e, f] = sums.map(|sum| sum as u64);
            let net = as_held(net_of(sums)).expect("a net position");
            [0, entries as u64, a, b, c, d, e, f, net]
        }
        Err(number) => refused(number),
    }
}
