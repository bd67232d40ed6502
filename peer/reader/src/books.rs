//! The bookkeeping beside the reader: what a control record is to state, and what it would state if 61s were counted in some wrong way.
//! Written from clauses 31, 34 and 35, request 2 and its readings; it asks the reader nothing. The generator makes wrong totals of it, the
//! tally tells them again, and the tests hold the reader's totals against it.

/// A way of counting.
#[derive(Clone, Copy, Debug, PartialEq, Eq, PartialOrd, Ord)]
pub enum Way {
    Right,
    /// Every 61 is a debit.
    AllDebits,
    /// Every 61 is a credit, those of usage 9 too.
    AllCredits,
    /// No 61 is counted, nor its views.
    Unseen,
    /// No 61 that stands directly in a cash letter is counted, nor its views.
    DirectUnseen,
    /// A 61 without a usage indicator is a debit.
    BlankDebit,
    /// A 61 without a usage indicator is not counted.
    BlankUnseen,
    /// The views of 61s are not counted.
    ViewsUnseen,
    /// Credits are no items (against clause 35.4).
    DebitItemsOnly,
    /// The MICR valid amount takes in 61s (against clause 31.4).
    MicrOfCredits,
}

pub const WRONG_WAYS: [Way; 9] = [
    Way::AllDebits,
    Way::AllCredits,
    Way::Unseen,
    Way::DirectUnseen,
    Way::BlankDebit,
    Way::BlankUnseen,
    Way::ViewsUnseen,
    Way::DebitItemsOnly,
    Way::MicrOfCredits,
];

/// The control fields that a wrong way can change.
pub fn changed_by(way: Way) -> &'static [(u8, u8)] {
    match way {
        Way::Right => &[],
        Way::AllDebits | Way::AllCredits | Way::BlankDebit => {
            &[(70, 2), (70, 3), (70, 6), (70, 7), (90, 3), (90, 4), (90, 8), (90, 9), (99, 5), (99, 8)]
        }
        Way::Unseen => &[
            (70, 2),
            (70, 3),
            (70, 5),
            (70, 6),
            (70, 7),
            (90, 3),
            (90, 4),
            (90, 5),
            (90, 8),
            (90, 9),
            (99, 4),
            (99, 5),
            (99, 8),
        ],
        Way::DirectUnseen => &[(90, 3), (90, 4), (90, 5), (90, 8), (90, 9), (99, 4), (99, 5), (99, 8)],
        Way::BlankUnseen => &[(70, 6), (70, 7), (90, 8), (90, 9), (99, 4), (99, 8)],
        Way::ViewsUnseen => &[(70, 5), (90, 5)],
        Way::DebitItemsOnly => &[(99, 4)],
        Way::MicrOfCredits => &[(70, 4)],
    }
}

/// What some records add up to.
#[derive(Clone, Copy, Debug, Default, PartialEq, Eq)]
pub struct Count {
    pub letters: u128,
    pub bundles: u128,
    pub items: u128,
    pub debit_items: u128,
    pub credit_items: u128,
    pub views: u128,
    pub debit_cents: u128,
    pub credit_cents: u128,
    pub micr_cents: u128,
}

/// The type of a record, from its two digits.
pub fn code_of(body: &[u8]) -> u8 {
    (body[0] - b'0') * 10 + (body[1] - b'0')
}

/// The number at positions of a record, both ends included.
fn number_at(body: &[u8], first: usize, last: usize) -> u128 {
    body[first - 1..last].iter().fold(0, |so_far, digit| so_far * 10 + u128::from(digit - b'0'))
}

/// Counts sound records one after another.
struct Counter {
    way: Way,
    count: Count,
    in_bundle: bool,
    /// The newest 25, 31 or 61 is a 61.
    of_credit: bool,
}

impl Counter {
    fn take(&mut self, body: &[u8]) {
        match code_of(body) {
            10 => self.count.letters += 1,
            20 => {
                self.count.bundles += 1;
                self.in_bundle = true;
            }
            70 => self.in_bundle = false,
            25 | 31 => self.item(body),
            61 => self.credit(body),
            50 if self.of_credit && self.views_unseen() => {}
            50 => self.count.views += 1,
            _ => {}
        }
    }

    fn unseen(&self) -> bool {
        self.way == Way::Unseen || (self.way == Way::DirectUnseen && !self.in_bundle)
    }

    fn views_unseen(&self) -> bool {
        self.way == Way::ViewsUnseen || self.unseen()
    }

    /// Clauses 10 and 14: field 6 at positions 48-57; the MICR Valid Indicator of a 25 at 75.
    fn item(&mut self, body: &[u8]) {
        self.of_credit = false;
        let cents = number_at(body, 48, 57);
        self.debit(cents);
        if code_of(body) == 25 && body[74] == b'1' {
            self.count.micr_cents += cents;
        }
    }

    /// Clause 26: field 2 at position 3, field 7 at 49-62.
    fn credit(&mut self, body: &[u8]) {
        self.of_credit = true;
        let (usage, cents) = (body[2], number_at(body, 49, 62));
        if self.way == Way::MicrOfCredits {
            self.count.micr_cents += cents;
        }
        if self.unseen() || (self.way == Way::BlankUnseen && usage == b' ') {
            return;
        }
        let debit = match self.way {
            Way::AllDebits => true,
            Way::AllCredits => false,
            Way::BlankDebit => usage == b'9' || usage == b' ',
            _ => usage == b'9',
        };
        if debit {
            self.debit(cents);
            return;
        }
        self.count.items += u128::from(self.way != Way::DebitItemsOnly);
        self.count.credit_items += 1;
        self.count.credit_cents += cents;
    }

    fn debit(&mut self, cents: u128) {
        self.count.items += 1;
        self.count.debit_items += 1;
        self.count.debit_cents += cents;
    }
}

/// What sound records add up to in this way.
pub fn count<'a>(bodies: impl IntoIterator<Item = &'a [u8]>, way: Way) -> Count {
    let mut counter = Counter { way, count: Count::default(), in_bundle: false, of_credit: false };
    bodies.into_iter().for_each(|body| counter.take(body));
    counter.count
}

/// The rows of a sound file: ordinals and amounts by its types and positions alone (document 01, and reading 30).
pub fn rows(bodies: &[&[u8]]) -> Vec<[u64; 7]> {
    let (mut offset, mut letter, mut bundle, mut item, mut in_bundle) = (0, 0, 0, 0, false);
    let mut rows = Vec::new();
    for (at, body) in bodies.iter().enumerate() {
        let code = code_of(body);
        match code {
            10 => (letter, bundle) = (letter + 1, 0),
            20 => (bundle, item, in_bundle) = (bundle + 1, 0, true),
            25 | 31 | 61 => item += 1,
            _ => {}
        }
        let in_letter = if matches!(code, 1 | 99) { 0 } else { letter };
        let of_bundle = if in_bundle { bundle } else { 0 };
        let of_item = if in_bundle && !matches!(code, 20 | 70) { item } else { 0 };
        let length = body.len() as u64;
        rows.push([u64::from(code), offset, length, in_letter, of_bundle, of_item, amount(bodies, at)]);
        in_bundle &= code != 70;
        offset += 4 + length;
    }
    rows
}

/// What the row of the record at this place has for an amount.
fn amount(bodies: &[&[u8]], at: usize) -> u64 {
    let debit_cents = |field: u8| stated(bodies, at, field, Way::Right).expect("a sum");
    let cents = match code_of(bodies[at]) {
        25 | 31 => number_at(bodies[at], 48, 57),
        61 => number_at(bodies[at], 49, 62),
        70 => debit_cents(3),
        90 => debit_cents(4),
        99 => debit_cents(5),
        _ => 0,
    };
    cents as u64
}

/// Where the level of the control record at this place begins.
fn level_start(bodies: &[&[u8]], at: usize) -> usize {
    let header = match code_of(bodies[at]) {
        70 => 20,
        90 => 10,
        _ => 1,
    };
    (0..at).rev().find(|place| code_of(bodies[*place]) == header).unwrap_or(0)
}

/// The number that a field of the control record at this place is to state, counting in this way; none for a field that is no sum.
pub fn stated(bodies: &[&[u8]], at: usize, field: u8, way: Way) -> Option<u128> {
    let start = level_start(bodies, at);
    let sum = count(bodies[start..at].iter().copied(), way);
    Some(match (code_of(bodies[at]), field) {
        (70, 2) | (90, 3) => sum.debit_items,
        (70, 3) | (90, 4) | (99, 5) => sum.debit_cents,
        (70, 4) => sum.micr_cents,
        (70, 5) | (90, 5) => sum.views,
        (70, 6) | (90, 8) => sum.credit_items,
        (70, 7) | (90, 9) | (99, 8) => sum.credit_cents,
        (90, 2) => sum.bundles,
        (99, 2) => sum.letters,
        (99, 3) => at as u128 + 1,
        (99, 4) => sum.items,
        _ => return None,
    })
}

/// How a stated number that is wrong came about.
#[derive(Clone, Copy, Debug, PartialEq, Eq, PartialOrd, Ord)]
pub enum Slip {
    Counted(Way),
    /// The sum is longer than the field, and its last digits are stated.
    CutToField,
    /// The sum is longer than the field, and all nines are stated.
    AllNines,
    /// The sum passes 64 bits, and what is left of it is stated.
    Wrapped,
}

/// Every way in which this wrong number of a control field could have come about.
pub fn slips(bodies: &[&[u8]], at: usize, field: u8, digits: &[u8]) -> Vec<Slip> {
    let (Some(right), true) = (stated(bodies, at, field, Way::Right), digits.iter().all(u8::is_ascii_digit)) else {
        return Vec::new();
    };
    let found = digits.iter().fold(0u128, |so_far, digit| so_far * 10 + u128::from(digit - b'0'));
    let beyond = 10u128.pow(digits.len() as u32);
    let mut slips = Vec::new();
    if right >= beyond {
        slips.extend((found == right % beyond).then_some(Slip::CutToField));
        slips.extend((found == beyond - 1).then_some(Slip::AllNines));
        slips.extend((right >> 64 > 0 && found == right % (1 << 64)).then_some(Slip::Wrapped));
    }
    let code = code_of(bodies[at]);
    let tried = WRONG_WAYS.into_iter().filter(|way| changed_by(*way).contains(&(code, field)));
    slips.extend(tried.filter(|way| stated(bodies, at, field, *way) == Some(found)).map(Slip::Counted));
    slips
}
