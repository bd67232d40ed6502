//! What the records of a level add up to. Whole numbers: no control record has checked them on the way (reading 47), and three million amounts
//! of fourteen digits pass 64 bits (reading 32).

use peer_reader::descent::Totals;

use crate::source::Measure;

#[derive(Clone, Copy, Debug, Default, PartialEq, Eq)]
pub struct Sums {
    pub letters: u128,
    pub bundles: u128,
    pub debit_items: u128,
    pub debit_cents: u128,
    pub micr_valid_cents: u128,
    pub views: u128,
    pub credit_items: u128,
    pub credit_cents: u128,
}

impl Sums {
    /// A level takes in what a level below it added up to.
    pub fn take_in(&mut self, below: &Sums) {
        self.letters += below.letters;
        self.bundles += below.bundles;
        self.debit_items += below.debit_items;
        self.debit_cents += below.debit_cents;
        self.micr_valid_cents += below.micr_valid_cents;
        self.views += below.views;
        self.credit_items += below.credit_items;
        self.credit_cents += below.credit_cents;
    }

    /// A 25, a 31, or a 61 whose usage indicator is 9 (reading 27).
    pub fn debit(cents: u64) -> Sums {
        Sums { debit_items: 1, debit_cents: u128::from(cents), ..Sums::default() }
    }

    /// Any other 61.
    pub fn credit(cents: u64) -> Sums {
        Sums { credit_items: 1, credit_cents: u128::from(cents), ..Sums::default() }
    }

    /// One measure of a level whose file holds so many records, its control among them.
    pub fn of(&self, measure: Measure, records: u128) -> u128 {
        match measure {
            Measure::Letters => self.letters,
            Measure::Bundles => self.bundles,
            Measure::Records => records,
            Measure::Items => self.debit_items + self.credit_items,
            Measure::DebitItems => self.debit_items,
            Measure::DebitCents => self.debit_cents,
            Measure::MicrValidCents => self.micr_valid_cents,
            Measure::Views => self.views,
            Measure::CreditItems => self.credit_items,
            Measure::CreditCents => self.credit_cents,
        }
    }

    /// The totals of a whole file whose control records state these sums.
    pub fn totals(&self, records: u64) -> Totals {
        let stated = |sum: u128| u64::try_from(sum).expect("control fields have stated it");
        Totals {
            records,
            letters: stated(self.letters),
            bundles: stated(self.bundles),
            items: stated(self.debit_items + self.credit_items),
            views: stated(self.views),
            debit_cents: stated(self.debit_cents),
            credit_items: stated(self.credit_items),
            credit_cents: stated(self.credit_cents),
        }
    }
}
