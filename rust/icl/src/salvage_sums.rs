//! What control records of a torn file state, what was kept, what lies between, and what dropped records held. The amounts that the library has judged are
//! those of the new file; all others are taken as they stand in the torn one.

use x9180::{Listed, Row, Totals};

use crate::words::{amount_wide, grouped_wide};

/// Counts and cents of a part of a file.
#[derive(Clone, Copy, Default)]
pub struct Sums {
    pub items: u128,
    pub views: u128,
    pub debits: Side,
    pub credits: Side,
    /// Items whose amounts are no digits.
    pub unread: u128,
}

/// Debits, or credits.
#[derive(Clone, Copy, Default)]
pub struct Side {
    pub items: u128,
    pub cents: u128,
}

impl Side {
    fn add(&mut self, cents: Option<u64>) {
        self.items += 1;
        self.cents += u128::from(cents.unwrap_or(0));
    }
}

impl Sums {
    /// Of what the library has added up.
    pub fn of_totals(totals: &Totals) -> Sums {
        Sums {
            items: totals.items.into(),
            views: totals.views.into(),
            debits: Side { items: totals.debit_items().into(), cents: totals.debit.into() },
            credits: Side { items: totals.credit_items.into(), cents: totals.credit.into() },
            unread: 0,
        }
    }

    /// Of records as they stand in the file.
    pub fn of_records(file: &[u8], records: &[Listed]) -> Sums {
        let mut sums = Sums::default();
        for listed in records {
            match listed.record_type {
                25 | 31 => sums.add(number(file, listed, 6), true),
                61 => sums.add(number(file, listed, 7), number(file, listed, 2) == Some(9)),
                50 => sums.views += 1,
                _ => {}
            }
        }
        sums
    }

    fn add(&mut self, cents: Option<u64>, is_debit: bool) {
        self.items += 1;
        self.unread += u128::from(cents.is_none());
        match is_debit {
            true => self.debits.add(cents),
            false => self.credits.add(cents),
        }
    }

    /// `2 items, 1 view, 1 debit of 3.50, 1 credit of 0.07`
    pub fn told(&self) -> String {
        let parts = [
            counted(self.items, "item"),
            counted(self.views, "view"),
            format!("{} of {}", counted(self.debits.items, "debit"), amount_wide(self.debits.cents)),
            format!("{} of {}", counted(self.credits.items, "credit"), amount_wide(self.credits.cents)),
        ];
        let unread = match self.unread {
            0 => String::new(),
            unread => format!(", {} that cannot be read left out", counted(unread, "amount")),
        };
        format!("{}{unread}", parts.join(", "))
    }
}

fn counted(count: u128, noun: &str) -> String {
    format!("{} {noun}{}", grouped_wide(count), if count == 1 { "" } else { "s" })
}

/// What a field of a control record states.
#[derive(Clone, Copy, PartialEq, Eq)]
enum Stated {
    Number(u64),
    /// It is blank, or the record does not reach so far.
    Nothing,
    /// It holds anything but a number.
    Unreadable,
}

/// What a control record states of its part of the file.
#[derive(Clone, Copy)]
pub struct Control {
    /// Of a file control, its items, debits and credits together.
    items: Option<Stated>,
    /// How many, which a file control does not state, and the cents.
    debits: (Option<Stated>, Stated),
    credits: (Option<Stated>, Stated),
}

impl Control {
    /// Of a Cash Letter Control Record (type 90).
    pub fn of_letter(file: &[u8], control: &Listed) -> Control {
        let stated = |field| stated(file, control, field);
        Control { items: None, debits: (Some(stated(3)), stated(4)), credits: (Some(stated(8)), stated(9)) }
    }

    /// Of a File Control Record (type 99).
    pub fn of_file(file: &[u8], control: &Listed) -> Control {
        let stated = |field| stated(file, control, field);
        Control { items: Some(stated(4)), debits: (None, stated(5)), credits: (None, stated(8)) }
    }

    /// The debit and the credit cents that it states, 0 where it states none.
    pub fn cents(&self) -> [u128; 2] {
        [self.debits.1, self.credits.1].map(|stated| match stated {
            Stated::Number(cents) => cents.into(),
            _ => 0,
        })
    }

    /// What it states beside what was kept, a line each: credits only where there are any.
    pub fn beside(&self, kept: &Sums) -> Vec<String> {
        let mut lines = Vec::new();
        if let Some(items) = self.items {
            lines.push(told("items", None, items, (kept.items, kept.items), grouped_wide));
        }
        let sides = [("debits", self.debits, kept.debits), ("credits", self.credits, kept.credits)];
        for (name, (items, cents), kept) in sides {
            let is_none = |stated: Stated| matches!(stated, Stated::Number(0) | Stated::Nothing);
            let without = items.is_none_or(is_none) && is_none(cents) && kept.items == 0;
            if name == "debits" || !without {
                lines.push(told(name, items, cents, (kept.items, kept.cents), amount_wide));
            }
        }
        lines
    }
}

/// `debits: it states 3 of 165.57, kept are 2 of 165.50: 0.07 missing`
fn told(name: &str, count: Option<Stated>, sum: Stated, kept: (u128, u128), shown: fn(u128) -> String) -> String {
    let of_kept = match count {
        Some(_) => format!("{} of {}", grouped_wide(kept.0), shown(kept.1)),
        None => shown(kept.1),
    };
    let Stated::Number(stated) = sum else {
        let what = if sum == Stated::Nothing { "it states nothing" } else { "what it states cannot be read" };
        return format!("{name}: {what}, kept are {of_kept}: what is missing is not known");
    };
    let counted = match count {
        Some(Stated::Number(count)) => format!("{} of ", grouped_wide(count.into())),
        Some(_) => "some of ".to_string(),
        None => String::new(),
    };
    let (stated, kept) = (u128::from(stated), kept.1);
    let missing = match (stated.checked_sub(kept), kept.checked_sub(stated)) {
        (Some(0), _) => "nothing missing".to_string(),
        (Some(missing), _) => format!("{} missing", shown(missing)),
        (None, more) => format!("{} more than it states", shown(more.unwrap_or(0))),
    };
    format!("{name}: it states {counted}{}, kept are {of_kept}: {missing}", shown(stated))
}

fn stated(file: &[u8], control: &Listed, field: u64) -> Stated {
    let row = row(file, control);
    let blank = row.text(file, field).is_some_and(|text| text.chars().all(|character| character == ' '));
    match number(file, control, field) {
        Some(number) => Stated::Number(number),
        None if blank || row.field(file, field).is_none() => Stated::Nothing,
        None => Stated::Unreadable,
    }
}

/// The number in a field, where it is digits and nothing else.
fn number(file: &[u8], listed: &Listed, field: u64) -> Option<u64> {
    let text = row(file, listed).text(file, field)?;
    Some(text).filter(|text| text.chars().all(|digit| digit.is_ascii_digit()))?.parse().ok()
}

/// The record as a row without a place.
fn row(file: &[u8], listed: &Listed) -> Row {
    let length = listed.body(file).map_or(0, <[u8]>::len) as u64;
    Row { record_type: listed.record_type, offset: listed.offset, length, ..Row::default() }
}
