//! What the items and views of a part of a file add up to, and which control field states what. For the plain words of a TOTAL only; the
//! library adds up for itself. Of the crate's modules it imports `reading` alone.

use crate::reading::Totals;

/// Debits or credits: how many, and their cents. Three million amounts of fourteen digits pass 64 bits, and stay far below 128.
#[derive(Clone, Copy, Default)]
pub(crate) struct Side {
    items: u128,
    cents: u128,
}

impl Side {
    fn add(&mut self, cents: u64) {
        self.items += 1;
        self.cents += u128::from(cents);
    }
}

/// The sums of a level.
#[derive(Clone, Copy, Default)]
pub(crate) struct Sums {
    pub bundles: u128,
    pub views: u128,
    /// Checks, returns, and Credit/Reconciliation Records with Record Usage Indicator 9 (clauses 31.2, 34.3).
    debits: Side,
    /// Credit/Reconciliation Records with any other, or none (clauses 31.6, 34.8).
    credits: Side,
    micr_valid_cents: u128,
    /// Credit/Reconciliation Records of both sides.
    of_type_61: u128,
}

/// What a control field states.
#[derive(Clone, Copy)]
pub(crate) enum Stated {
    DebitItems,
    DebitCents,
    MicrValidCents,
    Views,
    CreditItems,
    CreditCents,
    Bundles,
    Letters,
    Records,
    AllItems,
}

impl Stated {
    /// What this field of a 70, 90 or 99 states (clauses 31, 34 and 35).
    pub fn by(record_type: u64, field: u64) -> Option<Stated> {
        Some(match (record_type, field) {
            (70, 2) | (90, 3) => Stated::DebitItems,
            (70, 3) | (90, 4) | (99, 5) => Stated::DebitCents,
            (70, 4) => Stated::MicrValidCents,
            (70, 5) | (90, 5) => Stated::Views,
            (70, 6) | (90, 8) => Stated::CreditItems,
            (70, 7) | (90, 9) | (99, 8) => Stated::CreditCents,
            (90, 2) => Stated::Bundles,
            (99, 2) => Stated::Letters,
            (99, 3) => Stated::Records,
            (99, 4) => Stated::AllItems,
            _ => return None,
        })
    }

    /// What is counted or added up, in plain words.
    pub fn name(self) -> &'static str {
        match self {
            Stated::DebitItems => "debit items",
            Stated::DebitCents => "cents of the debit items",
            Stated::MicrValidCents => "cents of the items with MICR Valid Indicator 1",
            Stated::Views => "views",
            Stated::CreditItems => "credit items",
            Stated::CreditCents => "cents of the credit items",
            Stated::Bundles => "bundles",
            Stated::Letters => "cash letters",
            Stated::Records => "records, this one included,",
            Stated::AllItems => "items",
        }
    }
}

impl Sums {
    /// A Check Detail Record (type 25).
    pub fn add_check(&mut self, cents: u64, micr_valid: bool) {
        self.debits.add(cents);
        self.micr_valid_cents += u128::from(if micr_valid { cents } else { 0 });
    }

    /// A Return Record (type 31).
    pub fn add_return(&mut self, cents: u64) {
        self.debits.add(cents);
    }

    /// A Credit/Reconciliation Record (type 61), a debit or a credit.
    pub fn add_credit(&mut self, cents: u64, is_debit: bool) {
        self.of_type_61 += 1;
        match is_debit {
            true => self.debits.add(cents),
            false => self.credits.add(cents),
        }
    }

    /// The sum that is stated; `None` for what no part of a file sums up, cash letters and records.
    pub fn of(&self, stated: Stated) -> Option<u128> {
        Some(match stated {
            Stated::DebitItems => self.debits.items,
            Stated::DebitCents => self.debits.cents,
            Stated::MicrValidCents => self.micr_valid_cents,
            Stated::Views => self.views,
            Stated::CreditItems => self.credits.items,
            Stated::CreditCents => self.credits.cents,
            Stated::Bundles => self.bundles,
            Stated::AllItems => self.debits.items + self.credits.items,
            Stated::Letters | Stated::Records => return None,
        })
    }

    /// The same numbers, each stopped at 64 bits.
    pub fn totals(&self) -> Totals {
        let number = |sum: u128| u64::try_from(sum).unwrap_or(u64::MAX);
        Totals {
            bundles: number(self.bundles),
            items: number(self.debits.items + self.credits.items),
            views: number(self.views),
            debit: number(self.debits.cents),
            credit_items: number(self.credits.items),
            credit: number(self.credits.cents),
            ..Totals::default()
        }
    }

    /// Where a part holds Credit/Reconciliation Records: what the other side comes to. A sender that took a debit for a credit is then seen.
    pub fn other_side(&self, stated: Stated) -> String {
        let (debits, credits) = (self.debits, self.credits);
        match stated {
            _ if self.of_type_61 == 0 => String::new(),
            Stated::DebitItems => format!("; credit items: {}", credits.items),
            Stated::DebitCents => format!("; of the credit items: {}", credits.cents),
            Stated::CreditItems => format!("; debit items: {}", debits.items),
            Stated::CreditCents => format!("; of the debit items: {}", debits.cents),
            Stated::AllItems => format!("; debit items: {}; credit items: {}", debits.items, credits.items),
            _ => String::new(),
        }
    }
}
