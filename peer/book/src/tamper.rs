//! Single calls on tables that need not have grown from an empty book: sound ones at the edges, and tampered ones. Where a shape has many targets,
//! the turn chooses one.

use peer_reader::random::Random;

use crate::call::{Call, History, Kind, KINDS, WITH_LIST};
use crate::files::{ample, refused_paper, rich_paper, short_tables, sound_paper, REFUSALS};
use crate::layout::{
    is_judged, is_owner, last, net, net_of, other, place_start, places_there, row_start, rows_there, total, BOOK,
    BOUND, CLAIMED, CREDIT_CENTS, DEBIT_CENTS, DUPLICATE, FIGURES, FILE_NUMBER, FULL, HEAD, NOENTRY, NUMBER, OWNER,
    OWNERS, PLACE, RANGE, ROOM, SIX, WIDTH,
};
use crate::paper::{sums, Paper};
use crate::sheet::{another, caller, junk, mixed, other_cents, stranger, Sheet};

/// Free rows behind the claimed ones, so that a file of one or two letters enters.
const SOME_FREE: (usize, usize) = (2, 5);

/// Free rows for a small file.
fn some_free(random: &mut Random) -> usize {
    random.between(SOME_FREE.0, SOME_FREE.1)
}

/// A sound book with so many rows claimed, the least and the most, and some free.
fn sound_sheet(random: &mut Random, rows: (usize, usize)) -> Sheet {
    let rows = random.between(rows.0, rows.1);
    let spare = some_free(random);
    Sheet::any(random, rows, spare)
}

/// A sound book with so many rows of this owner, of the other and of neither, mixed, and some free.
fn mixed_sheet(random: &mut Random, owner: u64, rows: [usize; 3]) -> Sheet {
    let nobody = stranger(random);
    let owners = [vec![owner; rows[0]], vec![other(owner); rows[1]], vec![nobody; rows[2]]].concat();
    let (owners, spare) = (mixed(random, &owners), some_free(random));
    Sheet::of(random, &owners, spare)
}

/// What calls are put to: the table and the list of file numbers taken.
type Tables = (Vec<u64>, Vec<u64>);

/// A history of one call, and sometimes a few more of any kind.
fn history(random: &mut Random, shape: &'static str, tables: Tables, papers: Vec<Paper>, call: Call) -> History {
    let (book, taken) = tables;
    let mut history = History { shape, papers, book, taken, changed: None, calls: vec![call] };
    if random.percent(35) {
        let count = random.between(1, 3);
        more_calls(random, &mut history, count);
    }
    history
}

/// So many calls more.
fn more_calls(random: &mut Random, history: &mut History, count: usize) {
    for _ in 0..count {
        let more = any_call(random, history);
        history.calls.push(more);
    }
}

/// A call with what table or list have at some row or place, claimed or not, or with anything.
fn any_call(random: &mut Random, history: &mut History) -> Call {
    let row = random.below(rows_there(history.book.len()).max(1));
    let near = |column: usize| history.book.get(row_start(row) + column).copied();
    let place = random.below(places_there(history.taken.len()).max(1));
    let file_number_near = history.taken.get(place_start(place) + 1).copied();
    let number = random.below(5) as u64;
    let owner = near(OWNER).filter(|_| random.percent(40)).unwrap_or_else(|| caller(random));
    let entry_number = near(NUMBER).filter(|_| random.percent(70)).unwrap_or(number);
    match random.below(5) {
        0 => {
            let kept = file_number_near.filter(|_| random.percent(30));
            let file_number = kept.unwrap_or_else(|| random.draw());
            history.papers.push(sound_paper(random, (1, 2)));
            let paper = history.papers.len() - 1;
            let rows = ample(random, &history.papers[paper]);
            Call::Enter { paper, file_number, owner, rows }
        }
        1 => Call::Find { owner, entry_number },
        2 => Call::Withdraw { owner, entry_number },
        3 if random.percent(50) => Call::Tidy,
        _ => Call::Totals { owner },
    }
}

/// A call of this kind that a sound book would mostly answer with 0, put to a table and the list of the sheet.
fn of_kind(random: &mut Random, shape: &'static str, kind: Kind, owner: u64, sheet: &Sheet, book: Vec<u64>) -> History {
    kind_on(random, shape, kind, owner, sheet, (book, sheet.lay_taken()))
}

/// The same, put to any list.
fn kind_on(random: &mut Random, shape: &'static str, kind: Kind, owner: u64, sheet: &Sheet, tables: Tables) -> History {
    let paper = sound_paper(random, (1, 2));
    let rows = ample(random, &paper);
    let own = sheet.rows_of(owner);
    let row = own.get(random.below(own.len()));
    let entry_number = row.map_or(1, |row| sheet.rows[*row][NUMBER]);
    let call = match kind {
        Kind::Enter => Call::Enter { paper: 0, file_number: sheet.fresh(random), owner, rows },
        Kind::Find => Call::Find { owner, entry_number },
        Kind::Totals => Call::Totals { owner },
        Kind::Withdraw => Call::Withdraw { owner, entry_number },
        Kind::Tidy => Call::Tidy,
    };
    let papers = if kind == Kind::Enter { vec![paper] } else { Vec::new() };
    history(random, shape, tables, papers, call)
}

/// A sound book but for one number, which is another.
fn with_changed(random: &mut Random, shape: &'static str, kind: Kind, sheet: &Sheet, place: usize) -> History {
    let owner = caller(random);
    let mut book = sheet.lay();
    book[place] = another(random, book[place]);
    History { changed: Some(place), ..of_kind(random, shape, kind, owner, sheet, book) }
}

/// One number of the head changed, by turns each.
pub fn head(random: &mut Random, turn: usize) -> History {
    let sheet = sound_sheet(random, (1, 6));
    with_changed(random, "head", KINDS[turn / HEAD % KINDS.len()], &sheet, turn % HEAD)
}

/// One number but the owner of the first, a middle or the last claimed row changed, by turns each, in a row of either owner or of neither.
pub fn row(random: &mut Random, turn: usize) -> History {
    const COLUMNS: usize = WIDTH - 1;
    let (column, of_three) = (1 + turn % COLUMNS, turn / COLUMNS % 3);
    let kind = KINDS[turn / COLUMNS / 3 % KINDS.len()];
    let mut sheet = sound_sheet(random, (3, 7));
    let row = [0, random.between(1, sheet.rows.len() - 2), sheet.rows.len() - 1][of_three];
    sheet.rows[row][OWNER] = [OWNERS[0], OWNERS[1], stranger(random)][turn / COLUMNS / 3 / KINDS.len() % 3];
    with_changed(random, "row", kind, &sheet, row_start(row) + column)
}

/// How a row's owner may change: from either owner or none to another.
pub const OWNER_CHANGES: [(usize, usize); 7] = [(0, 1), (0, 2), (1, 0), (1, 2), (2, 0), (2, 1), (2, 2)];

/// A row is another's than it was when the totals were added up; some rows have no figures, so that nothing is off.
pub fn owner(random: &mut Random, turn: usize) -> History {
    let (from, to) = OWNER_CHANGES[turn % OWNER_CHANGES.len()];
    let (bare, kind) = (turn / OWNER_CHANGES.len() % 2 == 1, KINDS[turn / OWNER_CHANGES.len() / 2 % KINDS.len()]);
    let mut sheet = sound_sheet(random, (1, 6));
    let row = random.below(sheet.rows.len());
    let nobody = stranger(random);
    let owners = [OWNERS[0], OWNERS[1], nobody];
    sheet.rows[row][OWNER] = owners[from];
    (0..SIX).for_each(|figure| sheet.rows[row][FIGURES + figure] = 0);
    if !bare {
        sheet.rows[row][FIGURES + random.below(SIX)] = 1 + random.draw() % 1_000_000;
    }
    let mut book = sheet.lay();
    let place = row_start(row) + OWNER;
    book[place] = if from == to { nobody ^ 1 << 20 } else { owners[to] };
    let caller = caller(random);
    History { changed: Some(place), ..of_kind(random, "owner", kind, caller, &sheet, book) }
}

/// The sorts of numbers that are no owner, which calls come with.
pub const STRANGERS: usize = 4;

/// A call with a number that is no owner, though some row has it for one, and what the call asks for.
pub fn strange(random: &mut Random, turn: usize) -> History {
    const OWNED: [Kind; 4] = [Kind::Enter, Kind::Find, Kind::Totals, Kind::Withdraw];
    let owner = [0, 3, u64::MAX, random.pick(&OWNERS) | 1 << random.between(32, 63)][turn % STRANGERS];
    let mut sheet = sound_sheet(random, (2, 5));
    let row = random.below(sheet.rows.len());
    sheet.rows[row][OWNER] = owner;
    sheet.number_plainly();
    of_kind(random, "strange", OWNED[turn / STRANGERS % OWNED.len()], owner, &sheet, sheet.lay())
}

/// A number of a row behind those claimed changed, or of those behind the last row.
pub fn behind(random: &mut Random, turn: usize) -> History {
    let mut sheet = sound_sheet(random, (0, 5));
    let first = row_start(sheet.rows.len());
    let place = match turn / KINDS.len() % 2 {
        0 => first + random.below(WIDTH * sheet.spare.len()),
        _ => {
            sheet.tail = vec![junk(random); random.between(1, WIDTH - 1)];
            first + WIDTH * sheet.spare.len() + random.below(sheet.tail.len())
        }
    };
    with_changed(random, "behind", KINDS[turn % KINDS.len()], &sheet, place)
}

/// What 9 is to be multiplied with to make 1, but for 2^64.
const NINTH: u64 = 0x8E38_E38E_38E3_8E39;

/// How a table claims more rows than it has.
pub const CLAIMS: usize = 6;

pub fn claim(random: &mut Random, turn: usize) -> History {
    let how = turn % CLAIMS;
    let rows = if how == 4 { (0, 0) } else { (0, 5) };
    let mut sheet = sound_sheet(random, rows);
    let mut book = sheet.lay();
    let there = rows_there(book.len()) as u64;
    let claimed = match how {
        0 => there + 1,
        // Nine times the claim, but for 2^64, are numbers that are there.
        1 => NINTH.wrapping_mul(9 * there - 1 - random.draw() % 8),
        2 => book[CLAIMED] | 1 << 32,
        3 => u64::MAX,
        4 => {
            sheet.spare.clear();
            book.truncate(random.between(1, HEAD + WIDTH - 1));
            1
        }
        _ => book[CLAIMED] | 1 << 63,
    };
    book[CLAIMED] = claimed;
    let owner = caller(random);
    of_kind(random, "claim", KINDS[turn / CLAIMS % KINDS.len()], owner, &sheet, book)
}

/// How a running total is not the sum of its owner's rows.
pub const SUMS: usize = 10;

pub fn sum(random: &mut Random, turn: usize) -> History {
    let (how, figure, owner) = (turn % SUMS, turn / SUMS % SIX, OWNERS[turn / SUMS / SIX % 2]);
    let own = random.between(2, 4);
    let mut sheet = mixed_sheet(random, owner, [own, 1, 1]);
    // Every row has something, and the row behind too, which is the owner's.
    let figures: Vec<u64> = sheet.rows.iter().map(|_| 1 + random.draw() % 1_000_000).collect();
    sheet.put_column(figure, &figures);
    // The net position is right all the while.
    if let Some(figure) = other_cents(figure) {
        sheet.put_column(figure, &figures);
    }
    sheet.spare[0][OWNER] = owner;
    sheet.spare[0][FIGURES + figure] = 1 + random.draw() % 1_000;
    let own = sheet.rows_of(owner);
    if how == 2 || how == 3 {
        let past = random.below(1_000) as u64;
        sheet.put_total(random, owner, figure, u64::MAX);
        let low = own.iter().find(|row| sheet.rows[**row][FIGURES + figure] < u64::MAX - 1_000);
        sheet.rows[*low.expect("two rows cannot both")][FIGURES + figure] += 1 + past;
    }
    let stated = sheet.sum(owner, figure) as u64;
    let of = |row: usize| sheet.rows[row][FIGURES + figure];
    let nobody = sheet.rows.iter().find(|row| !OWNERS.contains(&row[OWNER])).expect("a row of neither");
    let stated = match how {
        0 => stated + 1,
        1 => stated - 1,
        2 => stated, // what 64 bits leave of it
        3 => u64::MAX,
        4 => stated ^ (1 << random.between(32, 63)),
        5 => stated - of(own[0]),
        6 => stated - of(own[own.len() - 1]),
        7 => stated + sheet.spare[0][FIGURES + figure],
        8 => stated + sheet.sum(other(owner), figure) as u64,
        _ => stated + nobody[FIGURES + figure],
    };
    let mut book = sheet.lay();
    book[total(owner, figure)] = stated;
    let caller = caller(random);
    of_kind(random, "sum", KINDS[turn / SUMS / SIX / 2 % KINDS.len()], caller, &sheet, book)
}

/// How a net position is not the credit cents less the debit cents of its owner's rows.
pub const NETS: usize = 17;

/// Sums of cents that no i64 holds, from the eleventh way on.
const NO_I64: [(usize, i128); 6] =
    [(11, 1 << 63), (12, 1 << 63), (13, -(1 << 63) - 1), (14, -(1 << 63) - 1), (15, 1 << 63), (16, -(1 << 63) - 1)];

pub fn net_off(random: &mut Random, turn: usize) -> History {
    let (how, owner) = (turn % NETS, OWNERS[turn / NETS % 2]);
    let own = random.between(2, 4);
    let mut sheet = mixed_sheet(random, owner, [own, 1, 1]);
    for row in sheet.rows.iter_mut().chain(&mut sheet.spare) {
        row[FIGURES + DEBIT_CENTS] = 1 + random.draw() % 1_000_000;
        row[FIGURES + CREDIT_CENTS] = 1_000_001 + random.draw() % 1_000_000;
        if random.percent(50) {
            row.swap(FIGURES + DEBIT_CENTS, FIGURES + CREDIT_CENTS);
        }
    }
    sheet.spare[0][OWNER] = owner;
    if let Some((_, least)) = NO_I64.into_iter().find(|(way, _)| *way == how) {
        let past = if how < 15 { random.below(1_000) as i128 } else { 0 };
        sheet.put_net(random, owner, least + past * least.signum());
    }
    let own = sheet.rows_of(owner);
    let of = |row: &[u64; WIDTH]| i128::from(row[FIGURES + CREDIT_CENTS]) - i128::from(row[FIGURES + DEBIT_CENTS]);
    let nobody = sheet.rows.iter().find(|row| !OWNERS.contains(&row[OWNER])).expect("a row of neither");
    let right = sheet.net(owner);
    let stated = match how {
        0 => right + 1,
        1 => right - 1,
        2 => -right,
        3 => right ^ (1 << random.between(32, 63)),
        4 => right - of(&sheet.rows[own[0]]),
        5 => right - of(&sheet.rows[own[own.len() - 1]]),
        6 => right + of(&sheet.spare[0]),
        7 => right + sheet.net(other(owner)),
        8 => right + of(nobody),
        9 => sheet.sum(owner, CREDIT_CENTS) as i128,
        10 => -(sheet.sum(owner, DEBIT_CENTS) as i128),
        12 => i128::from(i64::MAX),
        14 => i128::from(i64::MIN),
        _ => right, // what 64 bits leave of it
    };
    let mut book = sheet.lay();
    book[net(owner)] = stated as u64;
    let caller = caller(random);
    of_kind(random, "net", KINDS[turn / NETS / 2 % KINDS.len()], caller, &sheet, book)
}

/// The lengths of short tables: none has more than one row.
pub const SHORT: usize = 31;

/// Tables of every short length, sound and not.
pub fn short(random: &mut Random, turn: usize) -> History {
    let (length, off) = (turn % SHORT, turn / SHORT % 2 == 1);
    let rows = if length >= HEAD + WIDTH { random.below(2) } else { 0 };
    let sheet = Sheet::any(random, rows, 1 - rows);
    let mut book = sheet.lay();
    book.resize(HEAD + 2 * WIDTH, 7);
    book.truncate(length);
    let there: Vec<usize> = (0..length.min(HEAD)).filter(|place| is_judged(*place)).collect();
    if off && !there.is_empty() {
        let place = match there[there.len() - 1] {
            last if last + 1 == length || random.percent(50) => last,
            _ => random.pick(&there),
        };
        book[place] = match place {
            CLAIMED => random.pick(&[2, 3, u64::MAX]) - u64::from(length < HEAD + WIDTH),
            _ => another(random, book[place]),
        };
    }
    let owner = caller(random);
    of_kind(random, "short", KINDS[turn / SHORT / 2 % KINDS.len()], owner, &sheet, book)
}

/// The causes of FULL: rows, the six running totals, the last number, the places of the list.
pub const CAUSES: usize = 3 + SIX;
pub const CAUSE_ROWS: usize = 0;
pub const CAUSE_LAST: usize = 1 + SIX;
pub const CAUSE_PLACES: usize = 2 + SIX;

/// By one; not, by one; the first letters fit; from the start; the other owner's, so that it is not (rows and places are both owners').
pub const EDGES: usize = 5;
const EDGE_OF_THE_OTHER: usize = 4;

/// A file that makes a book full for one cause, or just does not.
pub fn full(random: &mut Random, turn: usize) -> History {
    let (cause, edge, owner) = (turn % CAUSES, turn / CAUSES % EDGES, OWNERS[turn / CAUSES / EDGES % 2]);
    let figure = cause.wrapping_sub(1);
    let letters = if edge >= 2 { (2, 4) } else { (1, 4) };
    let paper = rich_paper(random, letters, |letters| {
        figure >= SIX || letters.iter().all(|letter| letter[figure] > 0 && letter[figure] < 1 << 60)
    });
    let count = paper.letters.len();
    let wanted = [count - 1, count, count - 1, 0, count - 1];
    let free = if cause == CAUSE_ROWS { wanted[edge] } else { count + random.below(3) };
    // Free rows are gaps and rows behind those claimed.
    let gaps = random.below(free + 1);
    let rows = [random.between(1, 3), random.between(1, 2), gaps];
    let mut sheet = mixed_sheet(random, owner, rows);
    // Nothing but the one cause.
    sheet.number_plainly();
    (0..SIX).for_each(|figure| sheet.put_column(figure, &[3; 12]));
    sheet.spare = vec![[junk(random); WIDTH]; free - gaps];
    let whose = if edge == EDGE_OF_THE_OTHER { other(owner) } else { owner };
    let count = count as u64;
    match cause {
        CAUSE_ROWS => {}
        CAUSE_LAST => sheet.last[whose as usize - 1] = u64::MAX - [count - 1, count, 1, 0, 0][edge],
        CAUSE_PLACES => sheet.free_places.truncate([0, 1, 0, 0, 0][edge]),
        _ => {
            let sum = paper.sums()[figure] as u64;
            let last_letter = paper.letters[paper.letters.len() - 1][figure];
            let total = u64::MAX - [sum - 1, sum, sum - last_letter, 0, 0][edge];
            sheet.put_total(random, whose, figure, total);
        }
    }
    entering(random, "full", &sheet, paper, owner, None)
}

/// How many gaps and how many rows behind those claimed there are for a file of so many letters: as many gaps; more; fewer, and enough behind; fewer,
/// and enough but for one; none.
pub const GAPS: usize = 5;

/// A file entered, or not, where there are gaps, by their number and place.
pub fn gaps(random: &mut Random, turn: usize) -> History {
    let (how, count) = (turn % GAPS, 1 + turn / GAPS % 3);
    let owner = random.pick(&OWNERS);
    let paper = sound_paper(random, (count, count));
    let some = random.below(count);
    let (gaps, behind) = match how {
        0 => (count, random.below(2)),
        1 => (count + random.between(1, 2), random.below(2)),
        2 => (some, count - some + random.below(2)),
        3 => (some, count - some - 1),
        _ => (0, count + random.below(2)),
    };
    let rows = [random.between(1, 3), random.below(3), gaps];
    let mut sheet = mixed_sheet(random, owner, rows);
    sheet.number_plainly();
    sheet.spare = (0..behind).map(|_| std::array::from_fn(|_| junk(random))).collect();
    let zeros = random.percent(40);
    for row in sheet.rows.iter_mut().filter(|row| !is_owner(row[OWNER])) {
        // As a withdrawal leaves a row, or anything.
        *row = if zeros { [0; WIDTH] } else { std::array::from_fn(|_| random.draw() | 4) };
    }
    let mut history = entering(random, "gaps", &sheet, paper, owner, None);
    let first = sheet.last[owner as usize - 1] + 1;
    history.calls.extend([Call::Find { owner, entry_number: first }, Call::Totals { owner }, Call::Tidy]);
    history
}

/// How a file meets the bound of the net position: to it; a cent beyond; back to it from beyond; back to a cent beyond; out on the way and back;
/// out with the last letter; nothing, from beyond; from the end of an i64; the other owner's is beyond.
pub const MEETINGS: usize = 9;

/// A file that would carry a net position beyond its bound, or just does not, on either side.
pub fn range(random: &mut Random, turn: usize) -> History {
    let (meeting, owner) = (turn % MEETINGS, OWNERS[turn / MEETINGS % 2]);
    let side: i128 = [1, -1][turn / MEETINGS / 2 % 2];
    // How far to this side the letters carry it, all and the first alone.
    let outward = |letters: &[[u64; SIX]]| side * net_of(sums(letters));
    let paper = rich_paper(random, if matches!(meeting, 4 | 5) { (2, 4) } else { (1, 3) }, |letters| {
        let (all, first) = (outward(letters), outward(&letters[..1]));
        match meeting {
            2 | 3 => all < 0,
            4 => 0 < all && all < first,
            5 => first < all && first > 0,
            _ => all > 0,
        }
    });
    let paper = if meeting == 6 { empty_letter(random) } else { paper };
    let bound = side * BOUND;
    let change = net_of(paper.sums());
    let before = match meeting {
        0 | 2 | 4 => bound - change,
        1 | 3 | 5 => bound - change + side,
        6 => bound + side * (1 + random.draw() as i128 % BOUND),
        7 => i128::from(if side > 0 { i64::MAX } else { i64::MIN }),
        _ => side * (random.draw() as i128 % (BOUND / 2)),
    };
    let rows = [random.between(1, 3), random.between(1, 2), random.below(2)];
    let mut sheet = mixed_sheet(random, owner, rows);
    sheet.number_plainly();
    sheet.put_net(random, owner, before);
    if meeting == MEETINGS - 1 {
        sheet.put_net(random, other(owner), bound + side);
    }
    sheet.spare.resize(paper.letters.len() + random.below(2), [junk(random); WIDTH]);
    if matches!(meeting, 1 | 3 | 5..=7) && random.percent(25) {
        sheet.free_places.clear(); // RANGE comes first
    }
    entering(random, "range", &sheet, paper, owner, None)
}

/// A file that changes no net position.
fn empty_letter(random: &mut Random) -> Paper {
    loop {
        let paper = sound_paper(random, (1, 1));
        if net_of(paper.sums()) == 0 {
            return paper;
        }
    }
}

/// A file entered with room for its rows, under this number or a new one.
fn entering(
    random: &mut Random,
    shape: &'static str,
    sheet: &Sheet,
    paper: Paper,
    owner: u64,
    number: Option<u64>,
) -> History {
    let rows = ample(random, &paper);
    let file_number = number.unwrap_or_else(|| sheet.fresh(random));
    let call = Call::Enter { paper: 0, file_number, owner, rows };
    history(random, shape, (sheet.lay(), sheet.lay_taken()), vec![paper], call)
}

/// Rows 0 to n - 1: the first, a middle one, the last.
fn of_three(random: &mut Random, rows: usize, which: usize) -> usize {
    [0, random.between(1, rows - 2), rows - 1][which]
}

/// One to seven rows, of which the first, a middle one, the last or the only one is this owner's: the book, and the row.
fn with_row_of(random: &mut Random, owner: u64, which: usize, spare: usize) -> (Sheet, usize) {
    let rows = if which == 3 { 1 } else { random.between(3, 7) };
    let mut sheet = Sheet::any(random, rows, spare);
    let row = if rows == 1 { 0 } else { of_three(random, rows, which) };
    sheet.rows[row][OWNER] = owner;
    sheet.number_plainly();
    (sheet, row)
}

/// A file number that some place of the list has for the owner, by the place and the number; some other place has it too.
pub fn duplicate(random: &mut Random, turn: usize) -> History {
    let (owner, free) = (random.pick(&OWNERS), random.pick(&[0, 3]));
    let (mut sheet, place) = with_row_of(random, owner, turn % 4, free);
    let number = [0, u64::MAX, 1 + random.draw() % 1_000_000][turn / 4 % 3];
    let beside = if place == 0 { sheet.taken.len() - 1 } else { place - 1 };
    let also = [None, Some(owner), Some(other(owner)), Some(stranger(random))][turn / 12 % 4];
    if let Some(whose) = also.filter(|_| beside != place) {
        sheet.taken[beside] = [whose, number];
    }
    sheet.taken[place] = [owner, number];
    match random.below(3) {
        // A row of the owner has it, or none: its entries were withdrawn.
        0 => sheet.rows[place][FILE_NUMBER] = number,
        1 => sheet.rows.clear(),
        _ => {}
    }
    sheet.free_places.truncate(random.below(4));
    let paper = sound_paper(random, (1, 2));
    entering(random, "duplicate", &sheet, paper, owner, Some(number))
}

/// How a number is nearly that of a place, and is not.
pub const NEARLY: usize = 10;

/// Numbers that no claimed place has for the owner, though something has them.
pub fn no_duplicate(random: &mut Random, turn: usize) -> History {
    let owner = OWNERS[turn / NEARLY % 2];
    let own = random.between(1, 3);
    let mut sheet = mixed_sheet(random, owner, [own, 1, 1]);
    sheet.number_plainly();
    let row = random.pick(&sheet.rows_of(owner));
    let nobodys = sheet.rows.iter().position(|row| !is_owner(row[OWNER])).expect("one of neither");
    // The places are those of the rows, in their order.
    let file_number = sheet.taken[row][1];
    let number = match turn % NEARLY {
        0 => {
            sheet.free_places[0] = [owner, 77];
            77
        }
        1 => {
            sheet.free_places.iter_mut().for_each(|place| *place = [0; PLACE]);
            0
        }
        2 => file_number | 1 << 32,
        3 => {
            sheet.taken[row][1] = file_number << 32;
            (file_number << 32) + 1
        }
        4 => sheet.rows[row][NUMBER],
        5 => {
            // A row of the owner has it, and no place.
            sheet.taken[row][1] = 4_000;
            file_number
        }
        6 => sheet.taken[sheet.rows_of(other(owner))[0]][1],
        7 => sheet.taken[nobodys][1],
        8 => {
            sheet.taken[nobodys] = [40, owner];
            40
        }
        _ => sheet.taken.len() as u64,
    };
    let paper = sound_paper(random, (1, 2));
    entering(random, "no duplicate", &sheet, paper, owner, Some(number))
}

/// A call that looks an entry up, to find it or to withdraw it; of a withdrawal, what shows it afterwards too.
fn looking_up(random: &mut Random, kind: Kind, sheet: &Sheet, owner: u64, entry_number: u64) -> History {
    let (shape, call) = match kind {
        Kind::Withdraw => ("withdraw", Call::Withdraw { owner, entry_number }),
        _ => ("find", Call::Find { owner, entry_number }),
    };
    let mut history = history(random, shape, (sheet.lay(), sheet.lay_taken()), Vec::new(), call);
    if kind == Kind::Withdraw {
        let find = Call::Find { owner, entry_number };
        history.calls.extend([find, Call::Totals { owner }, Call::Tidy, find, call, Call::Totals { owner }]);
    }
    history
}

/// A row that is found or withdrawn: the first, a middle one, the last, the only; some numbers twice, the owner's first row counts.
pub fn find(random: &mut Random, turn: usize, kind: Kind) -> History {
    let (owner, free) = (random.pick(&OWNERS), random.below(3));
    let (mut sheet, row) = with_row_of(random, owner, turn % 4, free);
    let number = [0, u64::MAX, 1_000 + random.draw() % 1_000_000][turn / 4 % 3];
    sheet.rows[row][NUMBER] = number;
    let rows = sheet.rows.len();
    if row + 1 < rows {
        // Alone, or again in the next row, or in the last.
        let second = [row, row + 1, rows - 1][turn / 12 % 3];
        sheet.rows[second][NUMBER] = number;
        sheet.rows[second][OWNER] = owner;
    }
    if row > 0 {
        // Before it a row with the number that is the other's, or of neither.
        let before = [None, Some(other(owner)), Some(stranger(random))][turn / 12 % 3];
        if let Some(whose) = before {
            sheet.rows[row - 1][NUMBER] = number;
            sheet.rows[row - 1][OWNER] = whose;
        }
    }
    looking_up(random, kind, &sheet, owner, number)
}

/// How a number is not found.
pub const ABSENT: usize = 10;

/// The same for entries that are not there; half of the withdrawals come while the net position is beyond its bound.
pub fn not_found(random: &mut Random, turn: usize, kind: Kind) -> History {
    let owner = OWNERS[turn / ABSENT % 2];
    let rows = if turn.is_multiple_of(ABSENT) { [0, 0, 0] } else { [random.between(2, 3), 1, 1] };
    let mut sheet = mixed_sheet(random, owner, rows);
    sheet.number_plainly();
    let own = sheet.rows_of(owner);
    if kind == Kind::Withdraw && !own.is_empty() && random.percent(50) {
        let beyond = random.pick(&[1, -1]) * (BOUND + 1 + random.draw() as i128 % BOUND);
        sheet.put_net(random, owner, beyond);
    }
    let number = match turn % ABSENT {
        0 => 1,
        1 => 0,
        2 => sheet.last[owner as usize - 1] + 1,
        3 => {
            (sheet.spare[0][OWNER], sheet.spare[0][NUMBER]) = (owner, 40);
            40
        }
        4 => 1 | 1 << 32,
        5 => sheet.rows[own[1]][FILE_NUMBER],
        6 => {
            sheet.rows[own[1]][NUMBER] = 5 << 32;
            6 << 32
        }
        7 => {
            let row = sheet.rows_of(other(owner))[0];
            sheet.rows[row][NUMBER] = 30;
            30
        }
        8 => 51, // that of the row of neither
        _ => u64::MAX,
    };
    looking_up(random, kind, &sheet, owner, number)
}

/// How a withdrawal meets the bound of the net position: to it; a cent beyond; back to it from beyond; back to a cent beyond; nothing, from beyond;
/// from the end of an i64; to where 64 bits leave something in range; the other owner's is beyond.
pub const WITHDRAWALS: usize = 8;

/// A withdrawal that would carry a net position beyond its bound, or just does not, on either side.
pub fn withdraw_range(random: &mut Random, turn: usize) -> History {
    let (meeting, owner) = (turn % WITHDRAWALS, OWNERS[turn / WITHDRAWALS % 2]);
    let side: i128 = [1, -1][turn / WITHDRAWALS / 2 % 2];
    let most = random.pick(&[1, 1_000, 1 << 50]);
    let some = 1 + i128::from(random.draw() % most);
    let most_64 = i128::from(u64::MAX);
    // Where the net position would be, and what the entry contributes to it.
    let (after, own) = match meeting {
        0 => (side * BOUND, -side * some),
        1 => (side * (BOUND + 1), -side * some),
        2 => (side * BOUND, side * some),
        3 => (side * (BOUND + 1), side * some),
        4 => (side * (BOUND + some), 0),
        5 if side > 0 => (i128::from(i64::MAX) + some, -some),
        5 => (i128::from(i64::MIN) - some, some),
        6 => (-side * (most_64 - random.below(1_000) as i128), side * (most_64 - 1_000 - random.below(1_000) as i128)),
        _ => (side * some, -side * some),
    };
    let rows = [random.between(2, 4), random.between(1, 2), random.below(3)];
    let mut sheet = mixed_sheet(random, owner, rows);
    sheet.number_plainly();
    let mut rows = sheet.rows_of(owner);
    let row = rows.remove(random.below(rows.len()));
    sheet.put_net(random, owner, 0);
    put_cents(&mut sheet, row, own);
    rows.iter().for_each(|row| put_cents(&mut sheet, *row, 0));
    put_cents(&mut sheet, random.pick(&rows), after);
    if meeting == WITHDRAWALS - 1 {
        sheet.put_net(random, other(owner), side * (BOUND + 1));
    }
    let entry_number = sheet.rows[row][NUMBER];
    let call = Call::Withdraw { owner, entry_number };
    let mut history = history(random, "withdraw range", (sheet.lay(), sheet.lay_taken()), Vec::new(), call);
    history.calls.extend([Call::Totals { owner }, Call::Find { owner, entry_number }]);
    history
}

/// A row gets cents of this net position.
fn put_cents(sheet: &mut Sheet, row: usize, net: i128) {
    let (debit, credit) = if net < 0 { (net.unsigned_abs() as u64, 0) } else { (0, net as u64) };
    sheet.rows[row][FIGURES + DEBIT_CENTS] = debit;
    sheet.rows[row][FIGURES + CREDIT_CENTS] = credit;
}

/// A withdrawal at fault twice: for the table or the list, for the owner or the number, for the range.
pub fn withdraw_order(random: &mut Random, turn: usize) -> History {
    let (nobody, absent, beyond) = match turn % 5 {
        0 => (true, false, false),
        1 => (false, true, false),
        2 => (false, false, true),
        3 => (true, false, true),
        _ => (false, true, true),
    };
    let owner = random.pick(&OWNERS);
    let mut sheet = mixed_sheet(random, owner, [2, 2, 1]);
    sheet.number_plainly();
    if beyond {
        // Whatever is withdrawn, and whoever withdraws it.
        for owner in OWNERS {
            let net = random.pick(&[1, -1]) * (BOUND + 1_000 + random.draw() as i128 % BOUND);
            let rows = sheet.rows_of(owner);
            put_cents(&mut sheet, rows[0], 0);
            put_cents(&mut sheet, rows[1], net);
        }
    }
    let entry_number = if absent { 9 } else { 1 };
    let whose = if nobody { stranger(random) } else { owner };
    let (mut book, mut taken) = (sheet.lay(), sheet.lay_taken());
    match turn / 5 % 3 {
        0 => book[total(random.pick(&OWNERS), random.below(SIX))] ^= 1,
        1 => taken[0] = places_there(taken.len()) as u64 + 1,
        _ => {}
    }
    let call = Call::Withdraw { owner: whose, entry_number };
    history(random, "withdraw order", (book, taken), Vec::new(), call)
}

/// Where the gaps of a book stand that is tidied up: nowhere, everywhere, first, in the middle, last, several, every second row, no row at all, before
/// one row, a table too short for a row.
pub const TIDYINGS: usize = 10;

pub fn tidy(random: &mut Random, turn: usize) -> History {
    let how = turn % TIDYINGS;
    let rows = [random.between(2, 6), random.between(1, 5), random.between(3, 6), random.between(3, 6)];
    let rows = [rows[0], rows[1], rows[2], rows[2], rows[2], 8, 2 * rows[3], 0, 2, 0][how];
    let is_gap = |row: usize, random: &mut Random| match how {
        1 => true,
        2 => row == 0,
        3 => row == rows / 2,
        4 => row + 1 == rows,
        5 => (2..5).contains(&row) || random.percent(20),
        6 => row.is_multiple_of(2) == (rows > 8),
        8 => row == 0,
        _ => false,
    };
    let owners: Vec<u64> =
        (0..rows).map(|row| if is_gap(row, random) { stranger(random) } else { random.pick(&OWNERS) }).collect();
    let spare = random.below(3);
    let mut sheet = Sheet::of(random, &owners, spare);
    let zeros = random.percent(40);
    for row in sheet.rows.iter_mut().filter(|row| !is_owner(row[OWNER]) && zeros) {
        *row = [0; WIDTH];
    }
    let mut book = sheet.lay();
    if how == TIDYINGS - 1 {
        book.truncate(random.below(HEAD + WIDTH));
    }
    let mut history = history(random, "tidy", (book, sheet.lay_taken()), Vec::new(), Call::Tidy);
    for row in sheet.rows.iter().filter(|row| is_owner(row[OWNER])) {
        history.calls.push(Call::Find { owner: row[OWNER], entry_number: row[NUMBER] });
    }
    more_calls(random, &mut history, 3);
    history.calls.push(Call::Tidy);
    history
}

/// How a list claims more places than it has: by one; twice the claim seems to fit; its low half fits; 2^64 - 1; one in a list of none; its first number
/// alone.
pub const LIST_CLAIMS: usize = 6;

/// The lengths of short lists.
pub const SHORT_LIST: usize = 7;

/// A list that claims more places than it has, put to each call that is lent it.
pub fn list_claim(random: &mut Random, turn: usize) -> History {
    let how = turn % LIST_CLAIMS;
    let sheet = sound_sheet(random, (1, 5));
    let mut taken = sheet.lay_taken();
    let there = places_there(taken.len()) as u64;
    match how {
        4 => taken.truncate(2),
        5 => taken.truncate(1),
        _ => {}
    }
    taken[0] = match how {
        0 => there + 1,
        1 => taken[0] | 1 << 63,
        2 => taken[0] | 1 << 32,
        3 => u64::MAX,
        4 => 1,
        _ => 1 + random.draw() % 3,
    };
    let kind = WITH_LIST[turn / LIST_CLAIMS % WITH_LIST.len()];
    let owner = caller(random);
    kind_on(random, "list claim", kind, owner, &sheet, (sheet.lay(), taken))
}

/// Lists of every short length, sound and not, with places of either owner and of neither.
pub fn short_list(random: &mut Random, turn: usize) -> History {
    let (length, off) = (turn % SHORT_LIST, turn / SHORT_LIST % 2 == 1);
    let kind = WITH_LIST[turn / SHORT_LIST / 2 % WITH_LIST.len()];
    let sheet = sound_sheet(random, (1, 4));
    let there = places_there(length);
    let claimed = if off { there + 1 + random.below(2) } else { random.below(there + 1) };
    let mut taken = vec![claimed as u64];
    (0..SHORT_LIST).for_each(|_| taken.extend([caller(random), random.draw()]));
    taken.truncate(length);
    let owner = caller(random);
    kind_on(random, "short list", kind, owner, &sheet, (sheet.lay(), taken))
}

/// Many calls on a book that no calls have made: gaps with anything in them, figures and a net position near their bounds, numbers that stand twice, a
/// list that has other numbers than the rows.
pub fn edges(random: &mut Random, _: usize) -> History {
    let owner = random.pick(&OWNERS);
    let rows = [random.between(1, 5), random.below(4), random.below(4)];
    let mut sheet = mixed_sheet(random, owner, rows);
    match random.below(4) {
        0 => {
            let (figure, total) = (random.below(SIX), u64::MAX - random.draw() % 1_000_000);
            sheet.put_total(random, owner, figure, total);
        }
        1 => {
            let net = random.pick(&[1, -1]) * (BOUND - random.draw() as i128 % 1_000_000);
            sheet.put_net(random, owner, net);
        }
        2 => {
            let net = random.pick(&[1, -1]) * (BOUND + random.draw() as i128 % 1_000_000);
            sheet.put_net(random, owner, net);
        }
        _ => {}
    }
    let tables = (sheet.lay(), sheet.lay_taken());
    let mut history = history(random, "edges", tables, Vec::new(), Call::Totals { owner });
    let count = random.between(5, 25);
    more_calls(random, &mut history, count);
    history
}

/// Totals of none, one and several rows, and at the brim; beside rows of the other and of neither, or not.
pub fn totals(random: &mut Random, turn: usize) -> History {
    let own = [0, 1, 4][turn % 3];
    let (figure, owner) = (turn / 3 % SIX, OWNERS[turn / 3 / SIX % 2]);
    let mut sheet = mixed_sheet(random, owner, [[own, 0, 0], [own, 2, 0], [own, 0, 2]][turn / 3 % 3]);
    if own > 0 {
        sheet.put_total(random, owner, figure, u64::MAX);
    }
    history(random, "totals", (sheet.lay(), sheet.lay_taken()), Vec::new(), Call::Totals { owner })
}

/// Net positions that a book may hold.
pub const HELD: [i128; 9] = [0, 1, -1, BOUND, -BOUND, BOUND + 1, -BOUND - 1, i64::MAX as i128, i64::MIN as i128];

/// Totals of an owner with such a net position.
pub fn held(random: &mut Random, turn: usize) -> History {
    let (net, owner) = (HELD[turn % HELD.len()], OWNERS[turn / HELD.len() % 2]);
    let own = random.between(1, 4);
    let mut sheet = mixed_sheet(random, owner, [own, 1, 1]);
    sheet.put_net(random, owner, net);
    history(random, "held", (sheet.lay(), sheet.lay_taken()), Vec::new(), Call::Totals { owner })
}

/// All pairs of refusals of which the first is given: BOOK, NOENTRY for the owner, the reader's, DUPLICATE, RANGE, FULL.
pub fn ordered_pairs() -> Vec<(u64, u64)> {
    let ranks: [&[u64]; 6] =
        [&[BOOK], &[NOENTRY], &[ROOM, 1, 3, 4, 5, 6, 7, 8, 9, 10, 11], &[DUPLICATE], &[RANGE], &[FULL]];
    let mut pairs = Vec::new();
    for (rank, firsts) in ranks.iter().enumerate() {
        let seconds = ranks[rank + 1..].concat();
        pairs.extend(firsts.iter().flat_map(|first| seconds.iter().map(|second| (*first, *second))));
    }
    pairs
}

/// A call that is at fault twice or more.
pub fn order(random: &mut Random, turn: usize) -> History {
    let pairs = ordered_pairs();
    let (first, second) = pairs[turn % pairs.len()];
    let wrong = |number| first == number || second == number;
    let owner = if wrong(NOENTRY) { stranger(random) } else { random.pick(&OWNERS) };
    let (rows, more) = (2 + OWNERS.len(), random.below(3));
    // No free place, or no free row, which cannot be where one is of neither owner.
    let no_place = wrong(FULL) && (!is_owner(owner) || random.percent(50));
    let no_row = wrong(FULL) && !no_place;
    let free = if no_row { 0 } else { 4 };
    let mut sheet = Sheet::any(random, rows + more, free);
    let row = OWNERS.len() + random.below(2);
    sheet.rows[row][OWNER] = owner;
    for row in sheet.rows.iter_mut().filter(|row| no_row && !is_owner(row[OWNER])) {
        row[OWNER] = random.pick(&OWNERS);
    }
    if no_place {
        sheet.free_places.clear();
    }
    if wrong(RANGE) {
        // Whatever is entered, and whoever enters it.
        for (row, owner) in OWNERS.into_iter().enumerate() {
            sheet.rows[row][OWNER] = owner;
            let beyond = random.pick(&[1, -1]) * (BOUND + 1 + random.draw() as i128 % BOUND);
            sheet.put_net(random, owner, beyond);
        }
    }
    sheet.number_plainly();
    let paper = match REFUSALS.into_iter().find(|number| wrong(*number)) {
        Some(number) => refused_paper(random, number),
        None => sound_paper(random, (1, 3)),
    };
    let ample = ample(random, &paper);
    let rows_lent = if wrong(ROOM) { random.pick(&short_tables(&paper)) } else { ample };
    let file_number = if wrong(DUPLICATE) { sheet.taken[row][1] } else { sheet.fresh(random) };
    let (mut book, mut taken) = (sheet.lay(), sheet.lay_taken());
    if wrong(BOOK) {
        let figure = total(random.pick(&OWNERS), random.below(SIX));
        match random.below(3) {
            0 => book[CLAIMED] = (rows + more + free) as u64 + 1,
            1 => book[figure] = another(random, book[figure]),
            // The places that are not there stay looked at, so that another refusal is due.
            _ => taken[0] = places_there(taken.len()) as u64 + 1,
        }
    }
    let call = Call::Enter { paper: 0, file_number, owner, rows: rows_lent };
    history(random, "order", (book, taken), vec![paper], call)
}

/// A book whose next entry number some row of the owner already has: the first row with it is found, before and after.
pub fn again(random: &mut Random, turn: usize) -> History {
    let owner = random.pick(&OWNERS);
    let rows = [random.between(2, 3), random.below(3), random.below(2)];
    let mut sheet = mixed_sheet(random, owner, rows);
    sheet.number_plainly();
    sheet.spare.resize(6, [junk(random); WIDTH]);
    let paper = sound_paper(random, (1, 3));
    let rows = ample(random, &paper);
    let file_number = sheet.fresh(random);
    let mut book = sheet.lay();
    // Numbering starts over, or at the last row's number, or far above the rows.
    book[last(owner)] = [0, book[last(owner)] - 1, 1_000_000][turn % 3];
    let next = book[last(owner)] + 1;
    let find = |entry_number| Call::Find { owner, entry_number };
    let enter = Call::Enter { paper: 0, file_number, owner, rows };
    let withdraw = Call::Withdraw { owner, entry_number: next };
    let mut calls = vec![find(next), enter, find(next), find(next + 1), Call::Totals { owner }, enter];
    calls.extend([withdraw, find(next), withdraw, find(next), Call::Tidy, enter, Call::Totals { owner }]);
    History { shape: "again", papers: vec![paper], book, taken: sheet.lay_taken(), changed: None, calls }
}
