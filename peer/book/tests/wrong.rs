//! Wrong books: each takes one thing another way, and histories of the stream tell it from the right one. That shows what a comparison with the
//! stream is worth.

use peer_book::apart::compare;
use peer_book::call::{Lent, Outcome, Side};
use peer_book::generate::{history, pair};
use peer_book::layout::*;
use peer_book::paper::Paper;
use peer_book::put::put;
use peer_reader::random::Random;

/// What a wrong book takes another way.
#[derive(Clone, Copy, Debug, PartialEq, Eq)]
enum Slip {
    /// None: the frame itself is right.
    None,
    SumsWrap,
    SumsStopAtTheMost,
    SumsOfEveryRow,
    TotalLeftOut(u64, usize),
    ClaimTimesNineWraps,
    ClaimInLowHalf,
    ClaimSigned,
    ClaimToItsLast,
    ClaimNotJudged,
    PartOfARowCounts,
    HeadOfEight,
    ShortIsNoBook,
    ShortIsNotJudged,
    NetNotJudged,
    NetNotJudgedOf(u64),
    NetTurned,
    NetAbsolute,
    NetWraps,
    NetStopsAtTheMost,
    NetOfBoth,
    NetOfTheLastRow,
    NetBeyondTheBoundIsNoBook,
    NetNotKept,
    NetKeptTurned,
    NetKeptByCreditsAlone,
    NetOfTheFirstLetterKept,
    NetNotTold,
    NetToldAbsolute,
    RangeNotJudged,
    RangeAtTheBound,
    RangeACentMore,
    RangeAboveAlone,
    RangeBelowAlone,
    RangeLetterByLetter,
    RangeOfEachLetterAlone,
    RangeOfTheChange,
    RangeOnlyOutward,
    RangeOnlyFromWithin,
    RangeOfTheOther,
    RangeOfBoth,
    RangeOfTheFirstOwnerAlone,
    RangeBeforeReader,
    RangeBeforeRoom,
    RangeBeforeDuplicate,
    RangeAfterFull,
    LastMustBeRows,
    ReaderBeforeBook,
    RoomBeforeBook,
    OwnerNotJudged,
    OwnerNotJudgedInFind,
    OwnerNotJudgedInTotals,
    OwnerBeforeBook,
    OwnerAfterReader,
    OwnerAfterDuplicate,
    OwnerInLowHalf,
    NobodyIsOwnerTwo,
    EveryRowIsSomebodys,
    NeitherIsOwnerOnes,
    NeitherIsOwnerTwos,
    NeitherIsNoBook,
    BookOfTheCallerAlone,
    BookOfTheFirstOwnerAlone,
    BookOfTheSecondOwnerAlone,
    BookOfBothTogether,
    PartsTurned,
    OwnerNotWritten,
    OwnerAlwaysFirst,
    OwnersOverwritten,
    NumbersForBoth,
    NumbersAboveBoth,
    OthersLastMoved,
    TotalsForBoth,
    TotalsOfTheOther,
    EntriesOfBoth,
    DuplicateOverBoth,
    DuplicateOfTheOther,
    DuplicateOfNeither,
    FullForTheOther,
    FindsTheOthers,
    FindsNeithers,
    FindStopsAtTheOthers,
    DuplicateBeforeReader,
    DuplicateBeforeRoom,
    FullBeforeDuplicate,
    FullBeforeRoom,
    RowsFilledWhenRefused,
    DuplicateBehind,
    DuplicateInFirstPlaceOnly,
    DuplicateInLastPlaceOnly,
    DuplicateByLowHalf,
    DuplicateByHighHalf,
    DuplicateOfEntryNumber,
    ZeroIsNoFileNumber,
    NoFreeRowLeft,
    RowsNotJudged,
    TotalAtTheMostIsFull,
    TotalPasses(usize),
    TotalByLetterAlone,
    LastPasses,
    LastAtTheMostIsFull,
    FullWritesWhatFits,
    FullMovesLast,
    NumberedByRows,
    NumberedFromNothing,
    FirstIsLast,
    FirstLetterEachTime,
    FileTotalsEachTime,
    DebitAndCreditTurned,
    LettersTurned,
    TotalsNotKept(usize),
    ClaimNotKept,
    LastNotKept,
    FindLast,
    FindBehind,
    FindByLowHalf,
    FindNoZero,
    FindByRow,
    FindByFileNumber,
    FindBeforeBook,
    TotalsBeforeBook,
    TotalsOfLastNumber,
    ReaderRefusesWithoutPlace,
    RefusalWithTotals,
    // Request 10.
    WithdrawnStillFound,
    WithdrawnNumberGivenAgain,
    WithdrawnFileNumberFreed,
    WithdrawnFiguresLeft,
    WithdrawLowersClaim,
    WithdrawLowersClaimAtTheEnd,
    WithdrawClosesTheGap,
    TotalNotLowered(usize),
    NetNotLowered,
    NetRaised,
    WithdrawsTheLast,
    WithdrawsTheOthers,
    WithdrawsNeithers,
    WithdrawsBehind,
    WithdrawsNobodys,
    WithdrawsTheWholeFile,
    WithdrawNoZero,
    WithdrawRangeNotJudged,
    WithdrawRangeWraps,
    WithdrawRangeAtTheBound,
    WithdrawRangeACentMore,
    WithdrawRangeAboveAlone,
    WithdrawRangeBelowAlone,
    WithdrawRangeOnlyOutward,
    WithdrawRangeOnlyFromWithin,
    WithdrawRangeOfTheOther,
    WithdrawRangeAdds,
    WithdrawRangeBeforeNoentry,
    WithdrawNoentryBeforeBook,
    WithdrawRangeBeforeBook,
    WithdrawRangeChanges,
    GapsNotFree,
    GapsUsedLast,
    HighestGapFirst,
    GapsUsedFromTheFirstOn,
    GapNotOverwritten,
    ClaimGrowsByLetters,
    ClaimIsEntries,
    RowsBehindBeforeGapsWhenFew,
    TidyTurnsTheOrder,
    TidyMovesTheLastIntoTheGap,
    TidySortsByOwner,
    TidySortsByNumber,
    TidyLeavesOldNumbers,
    TidyKeepsTheClaim,
    TidyClosesTheFirstGapAlone,
    TidyZeroesTheRest,
    TidyNumbersAnew,
    TidyDropsTheSecondOwners,
    TidyKeepsGapsWithFigures,
    TidyLowersTheLast,
    TidyWithoutJudging,
    ListNotJudgedEntering,
    ListNotJudgedWithdrawing,
    ListNotJudgedTidying,
    ListClaimTwiceWraps,
    ListClaimInLowHalf,
    ListClaimSigned,
    ListClaimToItsLast,
    HalfAPlaceCounts,
    ListOwnersJudged,
    ListWithoutItsFirstNumberIsNoBook,
    DuplicateByRows,
    DuplicateByRowsToo,
    DuplicateOfAPlaceTurned,
    PlaceNotTaken,
    PlaceForEachLetter,
    PlaceOfNobody,
    PlaceOverTheLast,
    PlaceTakenWhenRefused,
    PlacesNotJudged,
    NoFreePlaceLeft,
    PlacesForEachLetter,
    PlacesBeforeDuplicate,
    PlacesBeforeRange,
    PlacesBeforeReader,
}

struct Wrong(Slip);

/// A sum in the way of the slip.
fn sum(slip: Slip, numbers: impl Iterator<Item = u64>) -> Option<u64> {
    match slip {
        Slip::SumsWrap => Some(numbers.fold(0, u64::wrapping_add)),
        Slip::SumsStopAtTheMost => Some(numbers.fold(0, u64::saturating_add)),
        _ => numbers.map(u128::from).sum::<u128>().try_into().ok(),
    }
}

/// The first refusal that is due.
fn first_of<const COUNT: usize>(order: [(u64, bool); COUNT]) -> Option<u64> {
    order.into_iter().find(|(_, due)| *due).map(|(number, _)| number)
}

impl Wrong {
    fn is(&self, slip: Slip) -> bool {
        self.0 == slip
    }

    fn head_length(&self) -> usize {
        if self.is(Slip::HeadOfEight) {
            8
        } else {
            HEAD
        }
    }

    fn there(&self, book: &[u64]) -> u64 {
        let behind = book.len().saturating_sub(self.head_length());
        (behind.div_ceil(WIDTH) * usize::from(self.is(Slip::PartOfARowCounts))).max(behind / WIDTH) as u64
    }

    /// A number of a row, 0 where there is none.
    fn cell(&self, book: &[u64], row: u64, column: usize) -> u64 {
        book.get(self.head_length() + WIDTH * row as usize + column).copied().unwrap_or(0)
    }

    fn claimed(&self, book: &[u64]) -> u64 {
        head(book, CLAIMED).min(self.there(book))
    }

    /// The owner that a call is taken to have, if any.
    fn taken_for(&self, owner: u64) -> Option<u64> {
        match self.0 {
            Slip::OwnerInLowHalf => Some(owner % (1 << 32)).filter(|low| is_owner(*low)),
            Slip::NobodyIsOwnerTwo => Some(if owner == 1 { 1 } else { 2 }),
            _ => Some(owner).filter(|owner| is_owner(*owner)),
        }
    }

    /// Whose part of the head is looked at for an owner.
    fn part(&self, owner: u64) -> u64 {
        if self.is(Slip::PartsTurned) {
            other(owner)
        } else {
            owner
        }
    }

    fn last_at(&self, owner: u64) -> usize {
        match self.0 {
            Slip::NumbersForBoth => last(1),
            _ => last(self.part(owner)),
        }
    }

    fn total_at(&self, owner: u64, figure: usize) -> usize {
        total(self.part(owner), figure)
    }

    /// Whether a row is taken to be an owner's.
    fn is_own(&self, book: &[u64], row: u64, owner: u64) -> bool {
        let whose = self.cell(book, row, OWNER);
        match self.0 {
            Slip::EveryRowIsSomebodys => whose % 2 == owner % 2,
            Slip::NeitherIsOwnerOnes => whose == owner || (owner == 1 && !is_owner(whose)),
            Slip::NeitherIsOwnerTwos => whose == owner || (owner == 2 && !is_owner(whose)),
            _ => whose == owner,
        }
    }

    fn claim_fits(&self, book: &[u64]) -> bool {
        let (claimed, there) = (head(book, CLAIMED), self.there(book));
        match self.0 {
            Slip::ClaimTimesNineWraps => claimed.wrapping_mul(9).wrapping_add(17) <= book.len().max(17) as u64,
            Slip::ClaimInLowHalf => claimed % (1 << 32) <= there,
            Slip::ClaimSigned => claimed as i64 <= there as i64,
            Slip::ClaimToItsLast => claimed <= there + 1,
            Slip::ClaimNotJudged => true,
            _ => claimed <= there,
        }
    }

    /// Whether a running total is taken to be right.
    fn total_is_right(&self, book: &[u64], owner: u64, figure: usize) -> bool {
        let claimed = if self.is(Slip::SumsOfEveryRow) { self.there(book) } else { self.claimed(book) };
        let both = self.is(Slip::BookOfBothTogether);
        let counts = |row: &u64| self.is_own(book, *row, owner) || (both && self.is_own(book, *row, other(owner)));
        let figures = (0..claimed).filter(counts).map(|row| self.cell(book, row, FIGURES + figure));
        let mut stated = head(book, self.total_at(owner, figure));
        if both {
            stated = stated.wrapping_add(head(book, self.total_at(other(owner), figure)));
        }
        self.is(Slip::TotalLeftOut(owner, figure)) || sum(self.0, figures) == Some(stated)
    }

    fn net_at(&self, owner: u64) -> usize {
        net(self.part(owner))
    }

    /// The net position that is stated, by the slip.
    fn net(&self, book: &[u64], owner: u64) -> i128 {
        i128::from(head(book, self.net_at(owner)) as i64)
    }

    /// Whether a net position is taken to be right.
    fn net_is_right(&self, book: &[u64], owner: u64) -> bool {
        let rows = (0..self.claimed(book)).filter(|row| {
            self.is_own(book, *row, owner) || (self.is(Slip::NetOfBoth) && self.is_own(book, *row, other(owner)))
        });
        let cents = |row: u64, figure: usize| i128::from(self.cell(book, row, FIGURES + figure));
        let own = |row: u64| cents(row, CREDIT_CENTS) - cents(row, DEBIT_CENTS);
        let (stated, last) = (self.net(book, owner), rows.clone().next_back().map_or(0, own));
        let sum: i128 = rows.map(own).sum();
        match self.0 {
            Slip::NetNotJudged => true,
            Slip::NetNotJudgedOf(whose) if whose == owner => true,
            Slip::NetTurned => stated == -sum,
            Slip::NetAbsolute => stated == sum.abs(),
            Slip::NetWraps | Slip::BookOfBothTogether => stated == i128::from(sum as i64),
            Slip::NetStopsAtTheMost => stated == sum.clamp(i64::MIN.into(), i64::MAX.into()),
            Slip::NetOfTheLastRow => stated == last,
            Slip::NetBeyondTheBoundIsNoBook => stated == sum && in_range(sum),
            _ => stated == sum,
        }
    }

    /// Whether the letters would carry the net position too far, by the slip.
    fn is_out_of_range(&self, paper: &Paper, owner: u64, book: &[u64]) -> bool {
        let of = |letters: &[Figures]| net_of(peer_book::paper::sums(letters));
        let change = of(&paper.letters);
        let before = match self.0 {
            Slip::RangeOfTheOther => self.net(book, other(owner)),
            Slip::RangeOfBoth => self.net(book, 1) + self.net(book, 2),
            Slip::RangeOfTheChange => 0,
            _ => self.net(book, owner),
        };
        let after = before + change;
        let on_the_way = |count: usize| before + of(&paper.letters[..count]);
        match self.0 {
            Slip::RangeNotJudged => false,
            Slip::RangeAtTheBound => after.abs() >= BOUND,
            Slip::RangeACentMore => after.abs() > BOUND + 1,
            Slip::RangeAboveAlone => after > BOUND,
            Slip::RangeBelowAlone => after < -BOUND,
            Slip::RangeLetterByLetter => (1..=paper.letters.len()).any(|count| !in_range(on_the_way(count))),
            Slip::RangeOfEachLetterAlone => paper.letters.iter().any(|letter| !in_range(before + of(&[*letter]))),
            Slip::RangeOnlyOutward => !in_range(after) && after.abs() > before.abs(),
            Slip::RangeOnlyFromWithin => !in_range(after) && in_range(before),
            Slip::RangeOfTheFirstOwnerAlone => !in_range(after) && owner == 1,
            _ => !in_range(after),
        }
    }

    fn is_book(&self, book: &[u64], caller: u64) -> bool {
        if book.len() < HEAD && (self.is(Slip::ShortIsNoBook) || self.is(Slip::ShortIsNotJudged)) {
            return self.is(Slip::ShortIsNotJudged);
        }
        let judged = |owner: &u64| match self.0 {
            Slip::BookOfTheCallerAlone => *owner == caller,
            Slip::BookOfTheFirstOwnerAlone => *owner == 1,
            Slip::BookOfTheSecondOwnerAlone => *owner == 2,
            _ => true,
        };
        let totals_are_right = |owner: u64| {
            (0..SIX).all(|figure| self.total_is_right(book, owner, figure)) && self.net_is_right(book, owner)
        };
        let known = |row| !self.is(Slip::NeitherIsNoBook) || is_owner(self.cell(book, row, OWNER));
        let lasts = head(book, last(1)).wrapping_add(head(book, last(2)));
        let last_is_right = lasts == self.claimed(book) || !self.is(Slip::LastMustBeRows);
        self.claim_fits(book)
            && OWNERS.into_iter().filter(judged).all(totals_are_right)
            && (0..self.claimed(book)).all(known)
            && last_is_right
    }

    /// The places of the list, those claimed or all.
    fn places<'a>(&self, taken: &'a [u64], all: bool) -> Vec<&'a [u64]> {
        let claimed = if all { usize::MAX } else { places_claimed(taken) as usize };
        taken.get(PLACES..).unwrap_or_default().chunks_exact(PLACE).take(claimed).collect()
    }

    fn list_is_right(&self, taken: &[u64]) -> bool {
        let (claimed, there) = (places_claimed(taken), places_there(taken.len()) as u64);
        match self.0 {
            Slip::ListClaimTwiceWraps => claimed.wrapping_mul(2) <= 2 * there,
            Slip::ListClaimInLowHalf => claimed % (1 << 32) <= there,
            Slip::ListClaimSigned => claimed as i64 <= there as i64,
            Slip::ListClaimToItsLast => claimed <= there + 1,
            Slip::HalfAPlaceCounts => claimed <= taken.len() as u64 / 2,
            Slip::ListOwnersJudged => {
                claimed <= there && self.places(taken, false).iter().all(|place| is_owner(place[0]))
            }
            Slip::ListWithoutItsFirstNumberIsNoBook => !taken.is_empty() && claimed <= there,
            _ => claimed <= there,
        }
    }

    fn is_duplicate(&self, book: &[u64], taken: &[u64], owner: u64, file_number: u64) -> bool {
        let places = self.places(taken, self.is(Slip::DuplicateBehind));
        let looked_at = match self.0 {
            Slip::DuplicateInFirstPlaceOnly => &places[..places.len().min(1)],
            Slip::DuplicateInLastPlaceOnly => &places[places.len().saturating_sub(1)..],
            Slip::DuplicateByRows => &[],
            _ => &places[..],
        };
        let by_rows = matches!(self.0, Slip::DuplicateByRows | Slip::DuplicateByRowsToo | Slip::DuplicateOfEntryNumber);
        let column = if self.is(Slip::DuplicateOfEntryNumber) { NUMBER } else { FILE_NUMBER };
        let has = |row: u64| self.is_own(book, row, owner) && self.cell(book, row, column) == file_number;
        if by_rows && (0..self.claimed(book)).any(has) {
            return true;
        }
        looked_at.iter().any(|place| {
            let (whose, found) = (place[0], place[1]);
            let own = whose == owner;
            match self.0 {
                Slip::DuplicateOverBoth => found == file_number && is_owner(whose),
                Slip::DuplicateOfTheOther => found == file_number && whose != owner && is_owner(whose),
                Slip::DuplicateOfNeither => found == file_number && (own || !is_owner(whose)),
                Slip::DuplicateByLowHalf => own && found % (1 << 32) == file_number % (1 << 32),
                Slip::DuplicateByHighHalf => own && found >> 32 == file_number >> 32 && found >> 32 > 0,
                Slip::DuplicateOfAPlaceTurned => own && found == file_number || found == owner && whose == file_number,
                Slip::ZeroIsNoFileNumber => own && found == file_number && file_number > 0,
                _ => own && found == file_number,
            }
        })
    }

    /// The rows that may be written, in the order of the slip.
    fn free_rows(&self, book: &[u64]) -> Vec<u64> {
        let (claimed, there) = (self.claimed(book), self.there(book));
        let mut gaps: Vec<u64> = (0..claimed).filter(|row| !is_owner(self.cell(book, *row, OWNER))).collect();
        let behind = claimed..there;
        match self.0 {
            Slip::GapsNotFree => behind.collect(),
            Slip::GapsUsedLast => behind.chain(gaps).collect(),
            Slip::HighestGapFirst => gaps.into_iter().rev().chain(behind).collect(),
            // The first gap, and the rows that follow it.
            Slip::GapsUsedFromTheFirstOn if !gaps.is_empty() => {
                let first = gaps.remove(0);
                let rest: Vec<u64> = (first + 1..there).collect();
                [first].into_iter().chain(rest).take(gaps.len() + 1 + behind.count()).collect()
            }
            _ => gaps.into_iter().chain(behind).collect(),
        }
    }

    /// Whether the list has no place for the file.
    fn is_full_of_places(&self, paper: &Paper, taken: &[u64]) -> bool {
        let free = places_there(taken.len()) as u64 - places_claimed(taken).min(places_there(taken.len()) as u64);
        match self.0 {
            Slip::PlacesNotJudged => false,
            Slip::NoFreePlaceLeft => free <= 1,
            Slip::PlacesForEachLetter => free < paper.letters.len() as u64,
            Slip::HalfAPlaceCounts => taken.len() as u64 / 2 == places_claimed(taken),
            _ => free == 0,
        }
    }

    fn is_full(&self, paper: &Paper, owner: u64, book: &[u64]) -> bool {
        let most = u128::from(u64::MAX);
        let letters = paper.letters.len() as u64;
        let free = match self.0 {
            // Gaps are used only where there is no row behind.
            Slip::RowsBehindBeforeGapsWhenFew if self.there(book) > self.claimed(book) => {
                self.there(book) - self.claimed(book)
            }
            _ => self.free_rows(book).len() as u64,
        };
        let rows = match self.0 {
            Slip::NoFreeRowLeft => letters >= free,
            Slip::RowsNotJudged => free == 0,
            _ => letters > free,
        };
        let last = u128::from(head(book, self.last_at(owner))) + u128::from(letters);
        let last = match self.0 {
            Slip::LastPasses => false,
            Slip::LastAtTheMostIsFull => last >= most,
            _ => last > most,
        };
        let whose = if self.is(Slip::FullForTheOther) { other(owner) } else { owner };
        let total = |figure: usize| {
            let total = u128::from(head(book, self.total_at(whose, figure)));
            let each = paper.letters.iter().map(|letter| u128::from(letter[figure]));
            match self.0 {
                Slip::TotalPasses(passed) if passed == figure => false,
                Slip::TotalAtTheMostIsFull => total + each.sum::<u128>() >= most,
                Slip::TotalByLetterAlone => each.into_iter().any(|own| total + own > most),
                _ => total + each.sum::<u128>() > most,
            }
        };
        rows || last || (0..SIX).any(total)
    }

    /// The refusal of the book's own that entering gives, by the order of the slip, or the reader's.
    fn refusal(&self, paper: &Paper, file_number: u64, owner: u64, lent: &Lent) -> Option<u64> {
        let (rows, book, taken) = (lent.rows.len(), &*lent.book, &*lent.taken);
        let read = paper.reading.with_rows(rows / 7).number as u64;
        let like = self.taken_for(owner).unwrap_or(1);
        let list_is_right = self.is(Slip::ListNotJudgedEntering) || self.list_is_right(taken);
        let no_book = (BOOK, !self.is_book(book, owner) || !list_is_right);
        let nobody = (NOENTRY, self.taken_for(owner).is_none() && !self.is(Slip::OwnerNotJudged));
        let by_reader = (read, read > 0 && read != ROOM);
        let for_room = (read, read == ROOM);
        let whose = self.taken_for(owner).unwrap_or(owner);
        let duplicate = (DUPLICATE, self.is_duplicate(book, taken, whose, file_number));
        let no_place = self.is_full_of_places(paper, taken);
        let places = (FULL, no_place);
        let full = (FULL, (read == ROOM || read == ACCEPTED) && (no_place || self.is_full(paper, like, book)));
        let range = (RANGE, self.is_out_of_range(paper, like, book));
        let order = match self.0 {
            Slip::ReaderBeforeBook => [by_reader, no_book, nobody, for_room, duplicate, range, full],
            Slip::RoomBeforeBook => [for_room, no_book, nobody, by_reader, duplicate, range, full],
            Slip::OwnerBeforeBook => [nobody, no_book, by_reader, for_room, duplicate, range, full],
            Slip::OwnerAfterReader => [no_book, by_reader, for_room, nobody, duplicate, range, full],
            Slip::OwnerAfterDuplicate => [no_book, duplicate, nobody, by_reader, for_room, range, full],
            Slip::DuplicateBeforeReader => [no_book, nobody, duplicate, by_reader, for_room, range, full],
            Slip::DuplicateBeforeRoom => [no_book, nobody, by_reader, duplicate, for_room, range, full],
            Slip::FullBeforeDuplicate => [no_book, nobody, by_reader, for_room, full, duplicate, range],
            Slip::FullBeforeRoom => [no_book, nobody, by_reader, full, for_room, duplicate, range],
            Slip::RangeBeforeReader => [no_book, nobody, range, by_reader, for_room, duplicate, full],
            Slip::RangeBeforeRoom => [no_book, nobody, by_reader, range, for_room, duplicate, full],
            Slip::RangeBeforeDuplicate => [no_book, nobody, by_reader, for_room, range, duplicate, full],
            Slip::RangeAfterFull => [no_book, nobody, by_reader, for_room, duplicate, full, range],
            Slip::PlacesBeforeDuplicate => {
                return first_of([no_book, nobody, by_reader, for_room, places, duplicate, range, full]);
            }
            Slip::PlacesBeforeRange => {
                return first_of([no_book, nobody, by_reader, for_room, duplicate, places, range, full]);
            }
            Slip::PlacesBeforeReader => {
                return first_of([no_book, nobody, places, by_reader, for_room, duplicate, range, full]);
            }
            _ => [no_book, nobody, by_reader, for_room, duplicate, range, full],
        };
        first_of(order)
    }

    /// What a letter's row gets, by the slip.
    fn figures(&self, paper: &Paper, at: usize) -> Figures {
        let own = paper.letters[at];
        match self.0 {
            Slip::FirstLetterEachTime => paper.letters[0],
            Slip::FileTotalsEachTime => paper.sums().map(|sum| sum as u64),
            Slip::DebitAndCreditTurned => [own[0], own[2], own[1], own[3], own[5], own[4]],
            Slip::LettersTurned => paper.letters[paper.letters.len() - 1 - at],
            _ => own,
        }
    }

    /// What a letter's row has for an owner.
    fn owner_written(&self, owner: u64, before: u64) -> u64 {
        match self.0 {
            Slip::OwnerNotWritten => before,
            Slip::OwnerAlwaysFirst => 1,
            _ => owner,
        }
    }

    fn spoil(&self, book: &mut [u64]) {
        if self.is(Slip::OwnersOverwritten) {
            (0..book[CLAIMED] as usize).for_each(|row| book[row_start(row) + OWNER] |= 1);
        }
    }

    fn first_number(&self, owner: u64, book: &[u64]) -> u64 {
        let last_given = head(book, self.last_at(owner));
        match self.0 {
            Slip::NumberedByRows => head(book, CLAIMED).wrapping_add(1),
            Slip::NumberedFromNothing => last_given,
            Slip::NumbersAboveBoth => head(book, last(1)).max(head(book, last(2))).wrapping_add(1),
            _ => last_given.wrapping_add(1),
        }
    }

    /// Moves the net position on by a letter, the first of its file or not.
    fn add_net(&self, owner: u64, figures: &Figures, first: bool, book: &mut [u64]) {
        let (debit, credit) = (figures[DEBIT_CENTS], figures[CREDIT_CENTS]);
        let change = match self.0 {
            Slip::NetNotKept => 0,
            Slip::NetKeptTurned => debit.wrapping_sub(credit),
            Slip::NetKeptByCreditsAlone => credit,
            Slip::NetOfTheFirstLetterKept if !first => 0,
            _ => credit.wrapping_sub(debit),
        };
        let place = self.net_at(owner);
        book[place] = book[place].wrapping_add(change);
    }

    fn add(&self, owner: u64, figures: &Figures, book: &mut [u64]) {
        let whose = match self.0 {
            Slip::TotalsForBoth => vec![1, 2],
            Slip::TotalsOfTheOther => vec![other(owner)],
            _ => vec![owner],
        };
        for (owner, figure) in whose.into_iter().flat_map(|owner| (0..SIX).map(move |figure| (owner, figure))) {
            if !self.is(Slip::TotalsNotKept(figure)) {
                let place = self.total_at(owner, figure);
                book[place] = book[place].wrapping_add(figures[figure]);
            }
        }
    }

    fn set_down(&self, paper: &Paper, file_number: u64, owner: u64, book: &mut [u64]) {
        self.spoil(book);
        let (mut next, mut claimed) = (self.first_number(owner, book), book[CLAIMED]);
        let free = self.free_rows(book);
        for (at, free_row) in (0..paper.letters.len()).zip(free) {
            let start = self.head_length() + WIDTH * free_row as usize;
            let Some(row) = book.get_mut(start..start + WIDTH) else { break };
            let whose = self.owner_written(owner, row[OWNER]);
            row[..FIGURES].copy_from_slice(&[whose, next, file_number]);
            let figures = self.figures(paper, at);
            for (figure, number) in figures.into_iter().enumerate() {
                // A slip: what is nothing is not written.
                if number > 0 || !self.is(Slip::GapNotOverwritten) {
                    row[FIGURES + figure] = number;
                }
            }
            next = next.wrapping_add(1);
            claimed = claimed.max(free_row + 1);
            self.add(owner, &figures, book);
            self.add_net(owner, &figures, at == 0, book);
        }
        let moved = [self.last_at(owner), self.last_at(other(owner))];
        let count = if self.is(Slip::OthersLastMoved) { 2 } else { 1 };
        if !self.is(Slip::LastNotKept) {
            moved[..count].iter().for_each(|place| book[*place] = next.wrapping_sub(1));
        }
        book[CLAIMED] = match self.0 {
            Slip::ClaimNotKept => book[CLAIMED],
            Slip::ClaimGrowsByLetters => (book[CLAIMED] + paper.letters.len() as u64).min(self.there(book)),
            Slip::ClaimIsEntries => (0..claimed).filter(|row| is_owner(self.cell(book, *row, OWNER))).count() as u64,
            _ => claimed,
        };
    }

    fn take_down(&self, paper: &Paper, file_number: u64, owner: u64, taken: &mut [u64]) {
        let count = if self.is(Slip::PlaceForEachLetter) { paper.letters.len() } else { 1 };
        for _ in 0..count {
            let over_the_last = u64::from(self.is(Slip::PlaceOverTheLast)).min(places_claimed(taken));
            let start = place_start((places_claimed(taken) - over_the_last) as usize);
            let Some(place) = taken.get_mut(start..start + PLACE) else { return };
            match self.0 {
                Slip::PlaceNotTaken => return,
                Slip::PlaceOfNobody => place[1] = file_number,
                _ => place.copy_from_slice(&[owner, file_number]),
            }
            taken[0] += 1 - over_the_last;
        }
    }

    /// The row that a withdrawal takes, by the slip.
    fn row_withdrawn(&self, book: &[u64], owner: u64, entry_number: u64) -> Option<u64> {
        let rows = 0..if self.is(Slip::WithdrawsBehind) { self.there(book) } else { self.claimed(book) };
        let has = |row: &u64| {
            let (number, whose) = (self.cell(book, *row, NUMBER), self.cell(book, *row, OWNER));
            let whose_is_right = match self.0 {
                Slip::WithdrawsTheOthers => is_owner(whose),
                Slip::WithdrawsNeithers => whose == owner || !is_owner(whose),
                _ => self.is_own(book, *row, owner),
            };
            whose_is_right && number == entry_number && (number > 0 || !self.is(Slip::WithdrawNoZero))
        };
        match self.0 {
            Slip::WithdrawsTheLast => rows.rev().find(has),
            _ => rows.into_iter().find(has),
        }
    }

    /// Whether a withdrawal would carry the net position too far, by the slip; without an entry it takes nothing away.
    fn is_withdrawal_out_of_range(&self, book: &[u64], owner: u64, row: Option<u64>) -> bool {
        let cents = |figure: usize| row.map_or(0, |row| i128::from(self.cell(book, row, FIGURES + figure)));
        let own = cents(CREDIT_CENTS) - cents(DEBIT_CENTS);
        let before = match self.0 {
            Slip::WithdrawRangeOfTheOther => self.net(book, other(owner)),
            _ => self.net(book, owner),
        };
        let after = before - own;
        match self.0 {
            Slip::WithdrawRangeNotJudged => false,
            Slip::WithdrawRangeWraps => !in_range(i128::from(after as i64)),
            Slip::WithdrawRangeAtTheBound => after.abs() >= BOUND,
            Slip::WithdrawRangeACentMore => after.abs() > BOUND + 1,
            Slip::WithdrawRangeAboveAlone => after > BOUND,
            Slip::WithdrawRangeBelowAlone => after < -BOUND,
            Slip::WithdrawRangeOnlyOutward => !in_range(after) && after.abs() > before.abs(),
            Slip::WithdrawRangeOnlyFromWithin => !in_range(after) && in_range(before),
            Slip::WithdrawRangeAdds => !in_range(before + own),
            _ => !in_range(after),
        }
    }

    /// The figures of a row leave the owner's part of the head.
    fn lower(&self, owner: u64, row: u64, book: &mut [u64]) {
        let figures: Vec<u64> = (0..SIX).map(|figure| self.cell(book, row, FIGURES + figure)).collect();
        for figure in (0..SIX).filter(|figure| !self.is(Slip::TotalNotLowered(*figure))) {
            let place = self.total_at(owner, figure);
            book[place] = book[place].wrapping_sub(figures[figure]);
        }
        let (debit, credit) = (figures[DEBIT_CENTS], figures[CREDIT_CENTS]);
        let place = self.net_at(owner);
        book[place] = match self.0 {
            Slip::NetNotLowered => book[place],
            Slip::NetRaised => book[place].wrapping_add(credit).wrapping_sub(debit),
            _ => book[place].wrapping_sub(credit).wrapping_add(debit),
        };
    }

    /// What is left of a row that is withdrawn.
    fn clear(&self, row: u64, book: &mut [u64]) {
        let start = self.head_length() + WIDTH * row as usize;
        match self.0 {
            Slip::WithdrawnStillFound => book[start + FIGURES..start + WIDTH].fill(0),
            Slip::WithdrawnFiguresLeft => book[start + OWNER] = 0,
            _ => book[start..start + WIDTH].fill(0),
        }
    }

    fn take_out(&self, owner: u64, row: u64, lent: &mut Lent) {
        let book = &mut *lent.book;
        let (number, file_number) = (self.cell(book, row, NUMBER), self.cell(book, row, FILE_NUMBER));
        let rows: Vec<u64> = match self.0 {
            Slip::WithdrawsTheWholeFile => {
                let its =
                    |row: &u64| self.is_own(book, *row, owner) && self.cell(book, *row, FILE_NUMBER) == file_number;
                (0..self.claimed(book)).filter(its).collect()
            }
            _ => vec![row],
        };
        for row in rows {
            self.lower(owner, row, book);
            self.clear(row, book);
        }
        let claimed = book[CLAIMED];
        match self.0 {
            Slip::WithdrawLowersClaim => book[CLAIMED] -= 1,
            Slip::WithdrawLowersClaimAtTheEnd if row + 1 == claimed => book[CLAIMED] -= 1,
            Slip::WithdrawClosesTheGap => self.close(book),
            Slip::WithdrawnNumberGivenAgain if book[self.last_at(owner)] == number => book[self.last_at(owner)] -= 1,
            Slip::WithdrawnFileNumberFreed => {
                let its = |place: &&mut [u64]| **place == [owner, file_number];
                let mut places = lent.taken[PLACES..].chunks_exact_mut(PLACE);
                if let Some(place) = places.find(its) {
                    place.fill(0);
                }
            }
            _ => {}
        }
    }

    /// Closes the gaps, by the slip.
    fn close(&self, book: &mut [u64]) {
        let claimed = self.claimed(book) as usize;
        let rows: Vec<Vec<u64>> =
            (0..claimed).map(|row| (0..WIDTH).map(|column| self.cell(book, row as u64, column)).collect()).collect();
        let figures = |row: &[u64]| row[FIGURES..].iter().any(|figure| *figure > 0);
        let stays = |row: &Vec<u64>| match self.0 {
            Slip::TidyDropsTheSecondOwners => row[OWNER] == 1,
            Slip::TidyKeepsGapsWithFigures => is_owner(row[OWNER]) || figures(row),
            _ => is_owner(row[OWNER]),
        };
        let mut kept: Vec<Vec<u64>> = rows.iter().filter(|row| stays(row)).cloned().collect();
        match self.0 {
            Slip::TidyTurnsTheOrder => kept.reverse(),
            Slip::TidySortsByOwner => kept.sort_by_key(|row| row[OWNER]),
            Slip::TidySortsByNumber => kept.sort_by_key(|row| row[NUMBER]),
            Slip::TidyNumbersAnew => (1..).zip(&mut kept).for_each(|(number, row)| row[NUMBER] = number),
            Slip::TidyMovesTheLastIntoTheGap => {
                kept = rows.clone();
                while let Some(gap) = kept.iter().position(|row| !is_owner(row[OWNER])) {
                    kept.swap_remove(gap);
                }
            }
            Slip::TidyClosesTheFirstGapAlone => {
                kept = rows.clone();
                if let Some(gap) = kept.iter().position(|row| !is_owner(row[OWNER])) {
                    kept.remove(gap);
                }
            }
            _ => {}
        }
        let count = kept.len();
        let zeros = match self.0 {
            Slip::TidyLeavesOldNumbers => count,
            Slip::TidyZeroesTheRest => self.there(book) as usize,
            _ => claimed,
        };
        kept.resize(zeros.max(count), vec![0; WIDTH]);
        let start = self.head_length();
        for (place, number) in (start..book.len()).zip(kept.concat()) {
            book[place] = number;
        }
        if claimed > 0 && !self.is(Slip::TidyKeepsTheClaim) {
            book[CLAIMED] = count as u64;
        }
        if self.is(Slip::TidyLowersTheLast) && claimed > 0 {
            for owner in OWNERS {
                let own = (0..count as u64).filter(|row| self.is_own(book, *row, owner));
                let most = own.map(|row| self.cell(book, row, NUMBER)).max().unwrap_or(0);
                book[self.last_at(owner)] = most.min(book[self.last_at(owner)]);
            }
        }
    }

    fn refused_entering(&self, number: u64, paper: &Paper, file_number: u64, owner: u64, lent: Lent) -> Outcome {
        let mut answer = [0; ENTER_ANSWER];
        answer[..12].copy_from_slice(&paper.reading.with_rows(lent.rows.len() / 7).listed());
        let zeros = number >= DUPLICATE && !self.is(Slip::RefusalWithTotals);
        if zeros || self.is(Slip::ReaderRefusesWithoutPlace) {
            answer = [0; ENTER_ANSWER];
        }
        answer[0] = number;
        if self.is(Slip::RowsFilledWhenRefused) && number < BOOK {
            paper.reading.fill(lent.rows);
        }
        let there = self.there(lent.book) > 0;
        if self.is(Slip::PlaceTakenWhenRefused) && number == FULL {
            self.take_down(paper, file_number, owner, lent.taken);
        }
        match self.0 {
            Slip::FullWritesWhatFits if number == FULL && there => self.set_down(paper, file_number, owner, lent.book),
            Slip::FullMovesLast if number == FULL && lent.book.len() > last(owner) => {
                lent.book[last(owner)] = lent.book[last(owner)].wrapping_add(1);
            }
            _ => {}
        }
        Outcome::of(&answer)
    }

    /// Whether a row is found.
    fn is_found(&self, book: &[u64], row: u64, owner: u64, entry_number: u64) -> bool {
        let number = self.cell(book, row, NUMBER);
        let (own, whose) = (self.is_own(book, row, owner), self.cell(book, row, OWNER));
        match self.0 {
            Slip::FindsTheOthers => number == entry_number && is_owner(whose),
            Slip::FindsNeithers => number == entry_number && (own || !is_owner(whose)),
            Slip::FindByLowHalf => own && number % (1 << 32) == entry_number % (1 << 32),
            Slip::FindNoZero => own && number == entry_number && entry_number > 0,
            Slip::FindByRow => own && row + 1 == entry_number,
            Slip::FindByFileNumber => own && self.cell(book, row, FILE_NUMBER) == entry_number,
            _ => own && number == entry_number,
        }
    }
}

impl Side for Wrong {
    fn enter(&self, paper: &Paper, file_number: u64, owner: u64, lent: Lent) -> Result<Outcome, String> {
        let whose = self.taken_for(owner).unwrap_or(1);
        if let Some(number) = self.refusal(paper, file_number, owner, &lent) {
            return Ok(self.refused_entering(number, paper, file_number, whose, lent));
        }
        let mut answer = [0; ENTER_ANSWER];
        answer[..12].copy_from_slice(&paper.reading.fill(lent.rows).listed());
        answer[12] = lent.book[self.last_at(whose)].wrapping_add(1);
        self.set_down(paper, file_number, whose, lent.book);
        self.take_down(paper, file_number, whose, lent.taken);
        if self.is(Slip::FirstIsLast) {
            answer[12] = lent.book[self.last_at(whose)];
        }
        Ok(Outcome::of(&answer))
    }

    fn find(&self, owner: u64, entry_number: u64, lent: Lent) -> Result<Outcome, String> {
        let book = &*lent.book;
        let claimed = if self.is(Slip::FindBehind) { self.there(book) } else { self.claimed(book) };
        let whose = self.taken_for(owner).unwrap_or(owner);
        let has = |row: &u64| self.is_found(book, *row, whose, entry_number);
        let stops = |row: &u64| self.cell(book, *row, NUMBER) == entry_number;
        let found = match self.0 {
            Slip::FindLast => (0..claimed).rfind(has),
            Slip::FindStopsAtTheOthers => (0..claimed).find(stops).filter(has),
            _ => (0..claimed).find(has),
        };
        let judged = !self.is(Slip::OwnerNotJudgedInFind);
        let found = found.filter(|_| self.taken_for(owner).is_some() || !judged);
        let mut answer = [0; FIND_ANSWER];
        let nobody_first = self.is(Slip::OwnerBeforeBook) && self.taken_for(owner).is_none();
        let absent_first = self.is(Slip::FindBeforeBook) && found.is_none();
        match found {
            _ if !absent_first && !nobody_first && !self.is_book(book, owner) => answer[0] = BOOK,
            None => answer[0] = NOENTRY,
            Some(row) => (1..WIDTH).for_each(|column| answer[column] = self.cell(book, row, column)),
        }
        Ok(Outcome::of(&answer))
    }

    fn totals(&self, owner: u64, lent: Lent) -> Result<Outcome, String> {
        let book = &*lent.book;
        let nobody = self.taken_for(owner).is_none() && !self.is(Slip::OwnerNotJudgedInTotals);
        let nobody_first = self.is(Slip::OwnerBeforeBook) && nobody;
        if !self.is_book(book, owner) && !self.is(Slip::TotalsBeforeBook) && !nobody_first {
            return Ok(Outcome::of(&refused::<TOTALS_ANSWER>(BOOK)));
        }
        if nobody {
            return Ok(Outcome::of(&refused::<TOTALS_ANSWER>(NOENTRY)));
        }
        let whose = self.taken_for(owner).unwrap_or(1);
        let rows = match self.0 {
            Slip::TotalsOfLastNumber => head(book, last(whose)),
            Slip::EntriesOfBoth => self.claimed(book),
            _ => (0..self.claimed(book)).filter(|row| self.is_own(book, *row, whose)).count() as u64,
        };
        let mut answer = vec![0, rows];
        answer.extend((0..SIX).map(|figure| head(book, self.total_at(whose, figure))));
        answer.push(match self.0 {
            Slip::NetNotTold => 0,
            Slip::NetToldAbsolute => self.net(book, whose).unsigned_abs() as u64,
            _ => head(book, self.net_at(whose)),
        });
        Ok(Outcome::of(&answer))
    }

    fn withdraw(&self, owner: u64, entry_number: u64, mut lent: Lent) -> Result<Outcome, String> {
        let book = &*lent.book;
        let judged = !self.is(Slip::WithdrawsNobodys);
        let nobody = self.taken_for(owner).is_none() && judged;
        let whose = self.taken_for(owner).unwrap_or(1);
        let row = self.row_withdrawn(book, whose, entry_number);
        let list_is_right = self.is(Slip::ListNotJudgedWithdrawing) || self.list_is_right(lent.taken);
        let no_book = (BOOK, !self.is_book(book, owner) || !list_is_right);
        let absent = (NOENTRY, nobody || row.is_none());
        let range = (RANGE, self.is_withdrawal_out_of_range(book, whose, row));
        let number = match self.0 {
            Slip::WithdrawNoentryBeforeBook => first_of([absent, no_book, range]),
            Slip::OwnerBeforeBook => first_of([(NOENTRY, nobody), no_book, absent, range]),
            Slip::WithdrawRangeBeforeNoentry => first_of([no_book, (NOENTRY, nobody), range, absent]),
            Slip::WithdrawRangeBeforeBook => first_of([(RANGE, range.1 && !absent.1), no_book, absent, range]),
            _ => first_of([no_book, absent, range]),
        };
        let changes = number.is_none() || self.is(Slip::WithdrawRangeChanges) && number == Some(RANGE);
        if let Some(row) = row.filter(|_| changes) {
            self.take_out(whose, row, &mut lent);
        }
        Ok(Outcome::bare(number.unwrap_or(0)))
    }

    fn tidy(&self, lent: Lent) -> Result<Outcome, String> {
        let list_is_right = self.is(Slip::ListNotJudgedTidying) || self.list_is_right(lent.taken);
        let is_book = self.is_book(lent.book, 1) && list_is_right;
        if !is_book && !(self.is(Slip::TidyWithoutJudging) && self.claim_fits(lent.book)) {
            return Ok(Outcome::bare(BOOK));
        }
        self.close(lent.book);
        Ok(Outcome::bare(0))
    }
}

/// The first history on which a wrong book shows, of so many.
fn shows_at(slip: Slip, histories: u64) -> Option<u64> {
    (0..histories).find(|index| {
        let history = history(21, *index);
        put(&Wrong(slip), &history, &mut Random::for_file(2, *index), |_| {}).is_err()
    })
}

#[test]
fn the_frame_is_right() {
    assert_eq!(shows_at(Slip::None, 4_000), None);
    assert_eq!(shows_apart_at(Slip::None, 10_000), None);
}

/// Wrong books by which an owner learns what the other did.
const NOT_APART: [Slip; 14] = [
    Slip::NumbersForBoth,
    Slip::NumbersAboveBoth,
    Slip::OthersLastMoved,
    Slip::TotalsForBoth,
    Slip::TotalsOfTheOther,
    Slip::EntriesOfBoth,
    Slip::NetOfBoth,
    Slip::DuplicateOverBoth,
    Slip::FindsTheOthers,
    Slip::FindStopsAtTheOthers,
    Slip::GapsNotFree,
    Slip::RowsBehindBeforeGapsWhenFew,
    Slip::WithdrawsTheOthers,
    Slip::TidyDropsTheSecondOwners,
];

/// The first pair of histories of which a wrong book alone tells its owner unlike things.
fn shows_apart_at(slip: Slip, histories: u64) -> Option<u64> {
    let pairs = (0..histories).filter_map(|index| Some((index, pair(22, index)?)));
    pairs.into_iter().find(|(_, pair)| compare(&Wrong(slip), pair).is_err()).map(|(index, _)| index)
}

/// Separateness is judged by the answers of one side alone, and needs no right book beside it.
#[test]
fn every_book_that_is_not_apart_shows_by_itself() {
    let unseen: Vec<Slip> = NOT_APART.into_iter().filter(|slip| shows_apart_at(*slip, 5_000).is_none()).collect();
    assert_eq!(unseen, []);
}

#[test]
fn every_wrong_book_shows() {
    use Slip::*;
    let mut slips = vec![
        SumsWrap,
        SumsStopAtTheMost,
        SumsOfEveryRow,
        ClaimTimesNineWraps,
        ClaimInLowHalf,
        ClaimSigned,
        ClaimToItsLast,
        ClaimNotJudged,
        PartOfARowCounts,
        HeadOfEight,
        ShortIsNoBook,
        ShortIsNotJudged,
        NetNotJudged,
        NetNotJudgedOf(1),
        NetNotJudgedOf(2),
        NetTurned,
        NetAbsolute,
        NetWraps,
        NetStopsAtTheMost,
        NetOfTheLastRow,
        NetBeyondTheBoundIsNoBook,
        NetNotKept,
        NetKeptTurned,
        NetKeptByCreditsAlone,
        NetOfTheFirstLetterKept,
        NetNotTold,
        NetToldAbsolute,
        RangeNotJudged,
        RangeAtTheBound,
        RangeACentMore,
        RangeAboveAlone,
        RangeBelowAlone,
        RangeLetterByLetter,
        RangeOfEachLetterAlone,
        RangeOfTheChange,
        RangeOnlyOutward,
        RangeOnlyFromWithin,
        RangeOfTheOther,
        RangeOfBoth,
        RangeOfTheFirstOwnerAlone,
        RangeBeforeReader,
        RangeBeforeRoom,
        RangeBeforeDuplicate,
        RangeAfterFull,
        LastMustBeRows,
        ReaderBeforeBook,
        RoomBeforeBook,
        OwnerNotJudged,
        OwnerNotJudgedInFind,
        OwnerNotJudgedInTotals,
        OwnerBeforeBook,
        OwnerAfterReader,
        OwnerAfterDuplicate,
        OwnerInLowHalf,
        NobodyIsOwnerTwo,
        EveryRowIsSomebodys,
        NeitherIsOwnerOnes,
        NeitherIsOwnerTwos,
        NeitherIsNoBook,
        BookOfTheCallerAlone,
        BookOfTheFirstOwnerAlone,
        BookOfTheSecondOwnerAlone,
        BookOfBothTogether,
        PartsTurned,
        OwnerNotWritten,
        OwnerAlwaysFirst,
        OwnersOverwritten,
        DuplicateOfTheOther,
        DuplicateOfNeither,
        FullForTheOther,
        FindsNeithers,
        DuplicateBeforeReader,
        DuplicateBeforeRoom,
        FullBeforeDuplicate,
        FullBeforeRoom,
        RowsFilledWhenRefused,
        DuplicateBehind,
        DuplicateInFirstPlaceOnly,
        DuplicateInLastPlaceOnly,
        DuplicateByLowHalf,
        DuplicateByHighHalf,
        DuplicateOfEntryNumber,
        ZeroIsNoFileNumber,
        NoFreeRowLeft,
        RowsNotJudged,
        TotalAtTheMostIsFull,
        TotalByLetterAlone,
        LastPasses,
        LastAtTheMostIsFull,
        FullWritesWhatFits,
        FullMovesLast,
        NumberedByRows,
        NumberedFromNothing,
        FirstIsLast,
        FirstLetterEachTime,
        FileTotalsEachTime,
        DebitAndCreditTurned,
        LettersTurned,
        ClaimNotKept,
        LastNotKept,
        FindLast,
        FindBehind,
        FindByLowHalf,
        FindNoZero,
        FindByRow,
        FindByFileNumber,
        FindBeforeBook,
        TotalsBeforeBook,
        TotalsOfLastNumber,
        ReaderRefusesWithoutPlace,
        RefusalWithTotals,
        WithdrawnStillFound,
        WithdrawnNumberGivenAgain,
        WithdrawnFileNumberFreed,
        WithdrawnFiguresLeft,
        WithdrawLowersClaim,
        WithdrawLowersClaimAtTheEnd,
        WithdrawClosesTheGap,
        NetNotLowered,
        NetRaised,
        WithdrawsTheLast,
        WithdrawsNeithers,
        WithdrawsBehind,
        WithdrawsNobodys,
        WithdrawsTheWholeFile,
        WithdrawNoZero,
        WithdrawRangeNotJudged,
        WithdrawRangeWraps,
        WithdrawRangeAtTheBound,
        WithdrawRangeACentMore,
        WithdrawRangeAboveAlone,
        WithdrawRangeBelowAlone,
        WithdrawRangeOnlyOutward,
        WithdrawRangeOnlyFromWithin,
        WithdrawRangeOfTheOther,
        WithdrawRangeAdds,
        WithdrawRangeBeforeNoentry,
        WithdrawNoentryBeforeBook,
        WithdrawRangeBeforeBook,
        WithdrawRangeChanges,
        GapsUsedLast,
        HighestGapFirst,
        GapsUsedFromTheFirstOn,
        GapNotOverwritten,
        ClaimGrowsByLetters,
        ClaimIsEntries,
        TidyTurnsTheOrder,
        TidyMovesTheLastIntoTheGap,
        TidySortsByOwner,
        TidySortsByNumber,
        TidyLeavesOldNumbers,
        TidyKeepsTheClaim,
        TidyClosesTheFirstGapAlone,
        TidyZeroesTheRest,
        TidyNumbersAnew,
        TidyKeepsGapsWithFigures,
        TidyLowersTheLast,
        TidyWithoutJudging,
        ListNotJudgedEntering,
        ListNotJudgedWithdrawing,
        ListNotJudgedTidying,
        ListClaimTwiceWraps,
        ListClaimInLowHalf,
        ListClaimSigned,
        ListClaimToItsLast,
        HalfAPlaceCounts,
        ListOwnersJudged,
        ListWithoutItsFirstNumberIsNoBook,
        DuplicateByRows,
        DuplicateByRowsToo,
        DuplicateOfAPlaceTurned,
        PlaceNotTaken,
        PlaceForEachLetter,
        PlaceOfNobody,
        PlaceOverTheLast,
        PlaceTakenWhenRefused,
        PlacesNotJudged,
        NoFreePlaceLeft,
        PlacesForEachLetter,
        PlacesBeforeDuplicate,
        PlacesBeforeRange,
        PlacesBeforeReader,
    ];
    slips.extend(NOT_APART);
    for figure in 0..SIX {
        slips.extend([TotalPasses(figure), TotalsNotKept(figure), TotalNotLowered(figure)]);
        slips.extend(OWNERS.map(|owner| TotalLeftOut(owner, figure)));
    }
    let unseen: Vec<Slip> = slips.into_iter().filter(|slip| shows_at(*slip, 3_000).is_none()).collect();
    assert_eq!(unseen, []);
}
