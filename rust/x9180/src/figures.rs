//! The figures that a day book keeps of each cash letter. Imports no module.

/// What a cash letter comes to, or all the cash letters of a book.
#[derive(Clone, Copy, Debug, Default, PartialEq, Eq)]
pub struct Figures {
    /// Bundles.
    pub bundles: u64,
    /// Checks, returns, and Credit/Reconciliation Records that make debits.
    pub debit_items: u64,
    /// Credit/Reconciliation Records that make credits.
    pub credit_items: u64,
    /// Views.
    pub views: u64,
    /// Debit cents.
    pub debit: u64,
    /// Credit cents.
    pub credit: u64,
}

/// One of the figures.
#[derive(Clone, Copy, Debug, PartialEq, Eq)]
#[allow(missing_docs)]
pub enum Figure {
    Bundles,
    DebitItems,
    CreditItems,
    Views,
    DebitCents,
    CreditCents,
}

impl Figure {
    /// All of them, in the order in which a book's table has them.
    pub const ALL: [Figure; 6] = [
        Figure::Bundles,
        Figure::DebitItems,
        Figure::CreditItems,
        Figure::Views,
        Figure::DebitCents,
        Figure::CreditCents,
    ];

    /// Its name in plain words, such as `debit cents`.
    pub fn name(self) -> &'static str {
        match self {
            Figure::Bundles => "bundles",
            Figure::DebitItems => "debit items",
            Figure::CreditItems => "credit items",
            Figure::Views => "views",
            Figure::DebitCents => "debit cents",
            Figure::CreditCents => "credit cents",
        }
    }
}

impl Figures {
    /// From the six numbers of a table or an answer.
    pub(crate) fn of([bundles, debit_items, credit_items, views, debit, credit]: [u64; 6]) -> Figures {
        Figures { bundles, debit_items, credit_items, views, debit, credit }
    }

    /// Credit cents minus debit cents.
    pub fn net(&self) -> i128 {
        i128::from(self.credit) - i128::from(self.debit)
    }

    /// One of them.
    pub fn get(&self, figure: Figure) -> u64 {
        match figure {
            Figure::Bundles => self.bundles,
            Figure::DebitItems => self.debit_items,
            Figure::CreditItems => self.credit_items,
            Figure::Views => self.views,
            Figure::DebitCents => self.debit,
            Figure::CreditCents => self.credit,
        }
    }
}

#[cfg(test)]
mod tests {
    use super::*;

    #[test]
    fn each_figure_has_its_own_place() {
        let figures = Figures::of([1, 2, 3, 4, 5, 6]);
        assert_eq!(Figure::ALL.map(|figure| figures.get(figure)), [1, 2, 3, 4, 5, 6]);
        let named = Figures { bundles: 1, debit_items: 2, credit_items: 3, views: 4, debit: 5, credit: 6 };
        assert_eq!(figures, named);
        assert_eq!((figures.net(), Figures::of([0, 0, 0, 0, u64::MAX, 0]).net()), (1, 1 - (1 << 64)));
    }
}
