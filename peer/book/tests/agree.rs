//! The book over a table, the second opinion and the plain list on generated histories, and what is promised of every call.

use peer_book::apart::{compare, put_second};
use peer_book::call::{Call, History, Independent, Lent, Outcome, SecondOpinion, Side};
use peer_book::generate::{history, long, pair, WHOLE_RUN};
use peer_book::layout::*;
use peer_book::model::{empty, holds, listed};
use peer_book::opinion;
use peer_book::paper::Paper;
use peer_book::points::{demanded, Tally};
use peer_book::put::put;
use peer_book::sheet::junk;
use peer_reader::descent::{split_record, Number};
use peer_reader::make::{encode, sound, Wish};
use peer_reader::random::Random;
use peer_reader::{ebcdic, stream};

#[test]
fn both_opinions_agree_on_generated_histories_and_every_point_is_met() {
    let mut tally = Tally::default();
    for index in 0..WHOLE_RUN {
        let history = history(18, index);
        let random = &mut Random::for_file(1, index);
        let outcomes = put(&SecondOpinion, &history, random, |seen| tally.note(seen));
        let outcomes = outcomes.unwrap_or_else(|broken| panic!("history {index}, {}: {broken:?}", history.shape));
        tally.note_history(&history, &outcomes);
        if let Some(pair) = pair(18, index) {
            let second = put_second(&SecondOpinion, &pair, random);
            let second = second.unwrap_or_else(|difference| panic!("pair {index}: {difference}"));
            tally.note_pair(&pair, [&outcomes, &second]);
        }
    }
    assert_eq!(tally.missing(), []);
}

/// Readings 57 and 59: the histories of a pair differ in the other owner's calls and in tidy-ups alone, as many rows and places are free at each call of the
/// one (`compare` looks at that too), and what the one is told, answer by answer, and its entries are the same.
#[test]
fn an_owner_is_told_the_same_whatever_the_other_does() {
    let (mut pairs, mut unlike, mut entries, mut withdrawals) = (0, 0, 0, 0);
    for index in 0..30_000 {
        let Some(pair) = pair(31, index) else { continue };
        let own = |history: &History| -> Vec<Call> {
            history.calls.iter().filter(|call| call.owner() == pair.owner).copied().collect()
        };
        let [one, two] = &pair.histories;
        assert_eq!(own(one), own(two), "pair {index}");
        compare(&Independent, &pair).unwrap_or_else(|difference| panic!("pair {index}: {difference}"));
        compare(&SecondOpinion, &pair).unwrap_or_else(|difference| panic!("pair {index}: {difference}"));
        pairs += 1;
        unlike += u64::from(one.calls != two.calls);
        entries += one.calls.iter().filter(|call| matches!(call, Call::Enter { .. })).count();
        withdrawals += one.calls.iter().filter(|call| matches!(call, Call::Withdraw { .. })).count();
    }
    assert!(pairs >= 900 && unlike > 800, "{pairs} pairs, {unlike} unlike");
    assert!(entries > 5_000 && withdrawals > 3_000, "{entries} entered, {withdrawals} withdrawn");
}

#[test]
fn points_are_demanded_once() {
    let mut points = demanded();
    let all = points.len();
    points.sort();
    points.dedup();
    assert_eq!(points.len(), all);
}

#[test]
fn the_seed_and_the_index_give_the_history_again() {
    for index in 0..80 {
        let (one, two) = (history(3, index), history(3, index));
        assert_eq!((&one.book, &one.taken, &one.calls), (&two.book, &two.taken, &two.calls));
        let bytes = |history: &History| history.papers.iter().map(|paper| paper.bytes.clone()).collect::<Vec<_>>();
        assert_eq!(bytes(&one), bytes(&two));
    }
}

/// Every number of two small tables made some others, and every length of them.
#[test]
fn both_opinions_agree_on_a_sweep() {
    let paper = Paper::new(encode(&sound(&mut Random::new(3), &Wish { letters: (2, 2), ..Wish::any() })));
    let rows = 7 * paper.reading.rows.len();
    let mut calls = vec![Call::Totals { owner: 0 }, Call::Withdraw { owner: 0, entry_number: 3 }, Call::Tidy];
    for owner in OWNERS {
        calls.push(Call::Totals { owner });
        calls.extend([0, 1, 2, 3, 6].map(|entry_number| Call::Find { owner, entry_number }));
        calls.extend([0, 1, 2, 3, 6].map(|entry_number| Call::Withdraw { owner, entry_number }));
        calls.extend([0, 6, 7].map(|file_number| Call::Enter { paper: 0, file_number, owner, rows }));
    }
    // Two entries of owner 1, a row of neither, one entry of owner 2; two rows more.
    let full = [4, 2, 1, 2, 3, 4, u64::MAX - 4, u64::MAX, 4, 1, 6, 5, 4, 3, 2, 1, u64::MAX];
    let entries = [1, 1, 6, 1, 1, 1, 1, 1, 1, 1, 2, 6, 0, 1, 2, 3, u64::MAX - 5, u64::MAX - 1];
    let others = [3, 3, 7, 9, 9, 9, 9, 9, 9, 2, 1, 6, 6, 5, 4, 3, 2, 1];
    let one = [&full[..], &entries[..], &others[..], &[0; 20]].concat();
    let mut tables: Vec<Vec<u64>> = (0..=one.len()).map(|length| one[..length].to_vec()).collect();
    for table in [one, vec![0; 38]] {
        for place in 0..table.len() {
            for number in [0, 1, 2, 3, 5, 7, 1 << 32, 1 << 63, u64::MAX - 1, u64::MAX, table[place].wrapping_sub(1)] {
                let mut other = table.clone();
                other[place] = number;
                tables.push(other);
            }
        }
    }
    let papers = vec![paper];
    let taken = vec![2, 1, 6, 2, 6, 0, 0, 9];
    let mut both: Vec<(Vec<u64>, Vec<u64>)> = tables.iter().map(|book| (book.clone(), taken.clone())).collect();
    both.extend(lists(&taken).into_iter().map(|taken| (tables[62].clone(), taken)));
    for (book, taken) in both {
        for call in &calls {
            let calls = vec![*call, Call::Totals { owner: 1 }, Call::Totals { owner: 2 }];
            let (papers, book, taken) = (papers.clone(), book.clone(), taken.clone());
            let history = History { shape: "sweep", papers, book, taken, changed: None, calls };
            let outcome = put(&SecondOpinion, &history, &mut Random::new(4), |_| {});
            assert!(outcome.is_ok(), "{call:?} on {:?}, {:?}: {outcome:?}", history.book, history.taken);
        }
    }
}

/// Every length of a list, and every number of it made some others.
fn lists(taken: &[u64]) -> Vec<Vec<u64>> {
    let mut lists: Vec<Vec<u64>> = (0..=taken.len()).map(|length| taken[..length].to_vec()).collect();
    for place in 0..taken.len() {
        for number in [0, 1, 2, 3, 4, 5, 6, 7, 1 << 32, 1 << 32 | 2, 1 << 63, 1 << 63 | 2, u64::MAX] {
            let mut other = taken.to_vec();
            other[place] = number;
            lists.push(other);
        }
    }
    lists
}

/// Calls and entries of a history on an empty book, every answer of which, and what the tables hold after each call, is what the plain list gives.
fn answers_as_the_list(name: &str, history: &History) -> (usize, usize) {
    let mut list = empty(&history.book, &history.taken);
    let (mut book, mut taken) = (history.book.clone(), history.taken.clone());
    for call in &history.calls {
        let mut rows = vec![9; call.rows()];
        let lent = Lent { rows: &mut rows, book: &mut book, taken: &mut taken };
        let outcome = Independent.answer(&history.papers, call, lent).expect("an answer");
        assert_eq!(outcome, listed(&mut list, &history.papers, call), "{name}, {call:?}");
        assert!(holds(&list, &book, &taken), "{name}, {call:?}");
    }
    (history.calls.len(), list.last.iter().sum::<u64>() as usize)
}

/// Reading 56: whatever is called on an empty book, every answer and everything it holds is what the list gives.
#[test]
fn a_book_grown_from_an_empty_one_answers_as_the_plain_list() {
    let (mut calls, mut entries) = (0, 0);
    for index in 0..6_000 {
        let history = history(5, index);
        if ["grown", "refilled", "large", "apart"].contains(&history.shape) {
            let (more_calls, more_entries) = answers_as_the_list(&format!("history {index}"), &history);
            (calls, entries) = (calls + more_calls, entries + more_entries);
        }
    }
    assert!(calls > 25_000 && entries > 10_000, "{calls} calls, {entries} entries");
}

/// Ten thousand calls on one book.
#[test]
fn long_histories_answer_as_the_plain_list() {
    for index in 0..4 {
        let history = long(11, index, 10_000);
        let (calls, entries) = answers_as_the_list(&format!("long history {index}"), &history);
        assert!(calls == 10_000 && entries > 300, "{calls} calls, {entries} entries");
        let outcomes = put(&SecondOpinion, &history, &mut Random::new(5), |_| {});
        assert!(outcomes.is_ok(), "long history {index}");
    }
}

/// No entry number is given twice to an owner, in whole histories on an empty book.
#[test]
fn entry_numbers_are_given_once() {
    let mut files = 0;
    for index in 0..3_000 {
        let history = history(12, index);
        if !["grown", "refilled", "apart"].contains(&history.shape) {
            continue;
        }
        let outcomes = put(&Independent, &history, &mut Random::new(6), |_| {}).expect("one side alone");
        let mut given = [0; 2];
        for (call, outcome) in history.calls.iter().zip(&outcomes) {
            let Call::Enter { owner, .. } = call else { continue };
            if outcome.returned == ACCEPTED {
                let last = &mut given[*owner as usize - 1];
                assert_eq!(outcome.answer[12], *last + 1, "history {index}");
                *last += outcome.answer[5];
                files += 1;
            }
        }
    }
    assert!(files > 2_000, "{files}");
}

/// Request 9: after every call on a book, the net position of each owner is the sum over its present entries, and within the bound unless the book
/// was made by hand.
#[test]
fn every_call_keeps_the_net_position() {
    let mut below = 0;
    each_call(4_000, |name, _, outcome, [before, after], _| {
        if outcome.returned == BOOK {
            return;
        }
        for owner in OWNERS {
            let claimed = after.get(HEAD..).unwrap_or_default().chunks_exact(WIDTH).take(head(after, CLAIMED) as usize);
            let own = claimed.filter(|row| row[OWNER] == owner);
            let sum: i128 =
                own.map(|row| i128::from(row[FIGURES + CREDIT_CENTS]) - i128::from(row[FIGURES + DEBIT_CENTS])).sum();
            let kept = i128::from(head(after, net(owner)) as i64);
            assert_eq!(kept, sum, "{name}");
            assert!(in_range(kept) || head(before, net(owner)) == head(after, net(owner)), "{name}");
            below += u64::from(kept < 0);
        }
    });
    assert!(below > 3_000, "{below}");
}

/// Every call of the stream with the tables before and after it, the row table and the list that were lent, and as they were left.
fn each_call(count: u64, mut check: impl FnMut(&str, &Call, &Outcome, [&[u64]; 2], [&[u64]; 4])) {
    for index in 0..count {
        let history = history(6, index);
        let (mut book, mut taken) = (history.book.clone(), history.taken.clone());
        for call in &history.calls {
            let (before, lent_list) = (book.clone(), taken.clone());
            let lent_rows: Vec<u64> = (0..call.rows() as u64).map(|place| place ^ 0x5A5A_5A5A).collect();
            let mut rows = lent_rows.clone();
            let lent = Lent { rows: &mut rows, book: &mut book, taken: &mut taken };
            let outcome = Independent.answer(&history.papers, call, lent).expect("an answer");
            let name = format!("history {index}, {}, {call:?}", history.shape);
            check(&name, call, &outcome, [&before, &book], [&lent_rows, &rows, &lent_list, &taken]);
        }
    }
}

/// Reading 55: on the book's own refusals all behind the number is 0, the reader's keep record, field and offset; on any refusal, and by finding
/// and totals, nothing is changed; the list is changed by entering alone.
#[test]
fn refusals_change_nothing() {
    let mut refused = 0;
    each_call(4_000, |name, call, outcome, [before, after], [lent, rows, list, taken]| {
        let number = outcome.returned;
        if number != ACCEPTED && !outcome.answer.is_empty() {
            assert_eq!(outcome.answer[0], number, "{name}");
            let from = if number < DUPLICATE { 4 } else { 1 };
            assert!(outcome.answer[from..].iter().all(|number| *number == 0), "{name}: {outcome:?}");
            refused += 1;
        }
        if number != ACCEPTED || !matches!(call, Call::Enter { .. }) {
            assert_eq!((lent, list), (rows, taken), "{name}");
        }
        if number != ACCEPTED || matches!(call, Call::Find { .. } | Call::Totals { .. }) {
            assert_eq!(before, after, "{name}");
        }
    });
    assert!(refused > 5_000, "{refused}");
}

/// The rows of a table, and whether each is free: a gap, or behind those claimed.
fn rows_and_free(book: &[u64]) -> Vec<(&[u64], bool)> {
    let claimed = head(book, CLAIMED) as usize;
    let rows = book.get(HEAD..).unwrap_or_default().chunks_exact(WIDTH);
    rows.enumerate().map(|(at, row)| (row, at >= claimed || !is_owner(row[OWNER]))).collect()
}

/// Entering writes the lowest free rows, as many as there are letters, the rows claimed, the owner's part of the head and one place of the list; an
/// entry is never altered, nor anything of the other owner.
#[test]
fn entering_alters_nothing_else() {
    let (mut entered, mut into_gaps) = (0, 0);
    each_call(5_000, |name, call, outcome, [before, after], [lent, rows, list, taken]| {
        let Call::Enter { owner, file_number, .. } = *call else { return };
        if outcome.returned != ACCEPTED {
            return;
        }
        let (letters, records) = (outcome.answer[5] as usize, outcome.answer[1] as usize);
        let kept = |place: &usize| *place != CLAIMED && !(last(owner)..=net(owner)).contains(place);
        assert!((0..HEAD).filter(kept).all(|place| before[place] == after[place]), "{name}");
        let (old, new) = (rows_and_free(before), rows_and_free(after));
        let entries = old.iter().filter(|(_, free)| !free).count();
        let used: Vec<usize> = (0..old.len()).filter(|row| old[*row].1).take(letters).collect();
        assert!((0..old.len()).filter(|row| !used.contains(row)).all(|row| old[row].0 == new[row].0), "{name}");
        assert_eq!(before[row_start(old.len())..], after[row_start(old.len())..], "{name}");
        assert_eq!(lent[7 * records..], rows[7 * records..], "{name}");
        assert_eq!(after[CLAIMED], before[CLAIMED].max((entries + letters) as u64), "{name}");
        assert_eq!(after[last(owner)], before[last(owner)] + letters as u64, "{name}");
        let numbers: Vec<[u64; 3]> = used.iter().map(|row| [0, 1, 2].map(|column| new[*row].0[column])).collect();
        let wanted = (0..letters as u64).map(|more| [owner, outcome.answer[12] + more, file_number]);
        assert_eq!(numbers, wanted.collect::<Vec<_>>(), "{name}");
        assert_eq!(outcome.answer[12], before[last(owner)] + 1, "{name}");
        let place = place_start(list[0] as usize);
        assert_eq!(taken[..place], [&[list[0] + 1], &list[1..place]].concat(), "{name}");
        assert_eq!(taken[place..], [&[owner, file_number], &list[place + PLACE..]].concat(), "{name}");
        entered += 1;
        into_gaps += u64::from(used.iter().any(|row| (*row as u64) < before[CLAIMED]));
    });
    assert!(entered > 2_000 && into_gaps > 500, "{entered}, {into_gaps} into gaps");
}

/// A withdrawal makes one row zeros, the first of the owner with the number, and lowers the owner's running totals and net position by it; a tidy-up keeps
/// the entries in their order and changes nothing of the head but the rows claimed.
#[test]
fn withdrawals_and_tidy_ups_alter_nothing_else() {
    let (mut withdrawn, mut tidied) = (0, 0);
    each_call(5_000, |name, call, outcome, [before, after], _| {
        if outcome.returned != ACCEPTED || before.len() < HEAD {
            return;
        }
        let (old, new) = (rows_and_free(before), rows_and_free(after));
        let claimed = before[CLAIMED] as usize;
        match *call {
            Call::Withdraw { owner, entry_number } => {
                let is_it = |row: &usize| old[*row].0[..2] == [owner, entry_number];
                let row = (0..claimed).find(is_it).expect("a row with the number");
                assert_eq!(new[row].0, [0; WIDTH], "{name}");
                let differ = |place: &usize| before[*place] != after[*place];
                let own = |place: &usize| {
                    (total(owner, 0)..=net(owner)).contains(place)
                        || (row_start(row)..row_start(row + 1)).contains(place)
                };
                assert!((0..before.len()).filter(differ).all(|place| own(&place)), "{name}");
                for figure in 0..SIX {
                    let place = total(owner, figure);
                    assert_eq!(after[place], before[place] - old[row].0[FIGURES + figure], "{name}");
                }
                withdrawn += 1;
            }
            Call::Tidy => {
                let entries: Vec<&[u64]> = old.iter().filter(|(_, free)| !free).map(|(row, _)| *row).collect();
                assert_eq!(after[CLAIMED] as usize, entries.len(), "{name}");
                assert_eq!(before[1..HEAD], after[1..HEAD], "{name}");
                assert!(entries.iter().zip(&new).all(|(entry, (row, free))| entry == row && !free), "{name}");
                assert!(new[entries.len()..claimed].iter().all(|(row, _)| **row == [0; WIDTH]), "{name}");
                assert_eq!(before[row_start(claimed)..], after[row_start(claimed)..], "{name}");
                tidied += 1;
            }
            _ => {}
        }
    });
    assert!(withdrawn > 2_000 && tidied > 500, "{withdrawn} withdrawn, {tidied} tidied");
}

/// What is not looked at: all but the owner in a row of neither, rows behind those claimed, numbers behind the last row; in the list, places behind those
/// claimed and half a place.
#[test]
fn numbers_that_are_not_looked_at_change_no_answer() {
    for index in 0..4_000 {
        let history = history(7, index);
        let random = &mut Random::for_file(8, index);
        let claimed = head(&history.book, CLAIMED);
        let mut other = history.book.clone();
        for (place, number) in other.iter_mut().enumerate() {
            let looked_at = match place.checked_sub(HEAD).map(|behind| (behind / WIDTH, behind % WIDTH)) {
                None => true,
                Some((row, column)) if (row as u64) < claimed => {
                    let owner = history.book.get(row_start(row) + OWNER).copied().unwrap_or(0);
                    is_owner(owner) || column == OWNER
                }
                _ => false,
            };
            if !looked_at {
                *number = junk(random);
            }
        }
        let mut list = history.taken.clone();
        let first = place_start(places_claimed(&list).min(list.len() as u64) as usize);
        list.iter_mut().skip(first).for_each(|number| *number = junk(random));
        let call = &history.calls[0];
        let answer = |mut book: Vec<u64>, mut taken: Vec<u64>| {
            let lent = Lent { rows: &mut vec![0; call.rows()], book: &mut book, taken: &mut taken };
            Independent.answer(&history.papers, call, lent)
        };
        let (one, two) = (answer(history.book.clone(), history.taken.clone()), answer(other, list));
        assert_eq!(one, two, "history {index}, {}", history.shape);
    }
}

/// The file's records, where the lengths frame them.
fn bodies(file: &[u8]) -> Vec<&[u8]> {
    let mut left = file;
    let mut bodies = Vec::new();
    while let Some(body) = split_record(left) {
        bodies.push(body);
        left = &left[4 + body.len()..];
    }
    bodies
}

/// Both ways of counting, the totals of the file, and of ASCII files what each 90 states (clause 34).
#[test]
fn letters_are_counted_alike_in_both_ways() {
    let mut letters = 0;
    for index in 0..12_000 {
        let made = if index % 3 == 0 { ebcdic::file(9, index / 3) } else { stream::file(9, index) };
        let paper = Paper::new(made.bytes);
        if paper.reading.answer.number != Number::Accepted {
            assert!(paper.letters.is_empty());
            continue;
        }
        assert_eq!(paper.letters, opinion::letters(&paper.bytes), "file {index}");
        let totals = paper.reading.answer.totals;
        let [bundles, debit_items, credit_items, views, debit_cents, credit_cents] = paper.sums().map(|sum| sum as u64);
        assert_eq!(paper.letters.len() as u64, totals.letters);
        assert_eq!([bundles, views], [totals.bundles, totals.views], "file {index}");
        assert_eq!([debit_items + credit_items, credit_items], [totals.items, totals.credit_items], "file {index}");
        assert_eq!([debit_cents, credit_cents], [totals.debit_cents, totals.credit_cents], "file {index}");
        letters += paper.letters.len();
        let controls = bodies(&paper.bytes).into_iter().filter(|body| body.starts_with(b"90"));
        for (control, own) in controls.zip(&paper.letters) {
            // Bundles, debits, debit cents, views, credits, credit cents; a conditional one may be blank.
            let fields = [(3, 8), (9, 16), (31, 39), (64, 71), (17, 30), (72, 85)];
            let order = [BUNDLES, DEBIT_ITEMS, VIEWS, CREDIT_ITEMS, DEBIT_CENTS, CREDIT_CENTS];
            for ((first, last), figure) in fields.into_iter().zip(order) {
                let stated = std::str::from_utf8(&control[first - 1..last]).expect("characters").trim();
                assert!(stated.is_empty() || stated.parse() == Ok(own[figure]), "file {index}: {stated}, {own:?}");
            }
        }
    }
    assert!(letters > 3_000, "{letters}");
}
