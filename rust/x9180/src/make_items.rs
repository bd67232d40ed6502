//! Checks, returns and credits with their addenda and views, filled in by the names of the standard. Of the crate's modules it imports
//! `make_addenda`, `make_view` and `entry` alone.

use crate::entry::{gives, Entry, Key};
use crate::make_addenda::{
    CheckAddendumA, CheckAddendumB, CheckAddendumC, ReturnAddendumA, ReturnAddendumB, ReturnAddendumC, ReturnAddendumD,
};
use crate::make_view::View;

/// An item of a bundle. A bundle holds checks or returns, not both, and credits among them.
#[derive(Clone, Debug)]
#[allow(missing_docs)]
pub enum Item<'p> {
    Check(Check<'p>),
    Return(Return<'p>),
    Credit(Credit<'p>),
}

impl<'p> From<Check<'p>> for Item<'p> {
    fn from(check: Check<'p>) -> Item<'p> {
        Item::Check(check)
    }
}

impl<'p> From<Return<'p>> for Item<'p> {
    fn from(returned: Return<'p>) -> Item<'p> {
        Item::Return(returned)
    }
}

impl<'p> From<Credit<'p>> for Item<'p> {
    fn from(credit: Credit<'p>) -> Item<'p> {
        Item::Credit(credit)
    }
}

/// A check, with its addenda and views. The addenda are put in the order that the standard asks: A, B, C.
#[derive(Clone, Debug)]
pub struct Check<'p> {
    detail: Entry<'p>,
    addenda_a: Vec<CheckAddendumA<'p>>,
    addendum_b: Option<CheckAddendumB<'p>>,
    addenda_c: Vec<CheckAddendumC<'p>>,
    views: Vec<View<'p>>,
}

impl<'p> Check<'p> {
    /// A check: the routing number of the bank that pays it, its amount, and the sequence number that the institution which makes out the bundle gives it.
    pub fn new(payor_bank: &str, cents: u64, sequence_number: &str) -> Check<'p> {
        let detail = Entry::new(25, [(4, payor_bank.into()), (6, cents.into()), (7, sequence_number.into())]);
        Check { detail, addenda_a: Vec::new(), addendum_b: None, addenda_c: Vec::new(), views: Vec::new() }
    }

    /// Adds a Check Detail Addendum A Record, of which a check has at most nine.
    #[must_use]
    pub fn addendum_a(mut self, addendum: CheckAddendumA<'p>) -> Check<'p> {
        self.addenda_a.push(addendum);
        self
    }

    /// Gives the check its Check Detail Addendum B Record, in place of an earlier one: a check has at most one.
    #[must_use]
    pub fn addendum_b(mut self, addendum: CheckAddendumB<'p>) -> Check<'p> {
        self.addendum_b = Some(addendum);
        self
    }

    /// Adds a Check Detail Addendum C Record.
    #[must_use]
    pub fn addendum_c(mut self, addendum: CheckAddendumC<'p>) -> Check<'p> {
        self.addenda_c.push(addendum);
        self
    }

    /// Adds a view.
    #[must_use]
    pub fn view(mut self, view: View<'p>) -> Check<'p> {
        self.views.push(view);
        self
    }

    pub(crate) fn lay_down(self, key: &Key, entries: &mut Vec<Entry<'p>>) {
        let key = key.with_item(self.detail.text(7));
        entries.push(self.detail);
        entries.extend(self.addenda_a.into_iter().map(|addendum| addendum.record));
        entries.extend(self.addendum_b.map(|addendum| addendum.record));
        entries.extend(self.addenda_c.into_iter().map(|addendum| addendum.record));
        self.views.into_iter().for_each(|view| view.lay_down(&key, entries));
    }
}

gives! { Check.detail = CHECK, "Check Detail Record":
    2 auxiliary_on_us: &str,
    3 external_processing_code: &str,
    5 on_us: &str,
    8 documentation_type_indicator: &str,
    9 electronic_return_acceptance_indicator: &str,
    10 micr_valid_indicator: &str,
    11 bofd_indicator: &str,
    13 correction_indicator: &str,
    14 archive_type_indicator: &str,
}

/// A return, with its addenda and views. The addenda are put in the order that the standard asks: A, B, C, D.
#[derive(Clone, Debug)]
pub struct Return<'p> {
    detail: Entry<'p>,
    addenda_a: Vec<ReturnAddendumA<'p>>,
    addendum_b: ReturnAddendumB<'p>,
    addendum_c: Option<ReturnAddendumC<'p>>,
    addenda_d: Vec<ReturnAddendumD<'p>>,
    views: Vec<View<'p>>,
}

impl<'p> Return<'p> {
    /// A return: the routing number of the bank that was to pay it, its amount, the sequence number that the institution which makes out the bundle gives
    /// it, and why it comes back: every return has one Return Addendum B Record.
    pub fn new(payor_bank: &str, cents: u64, sequence_number: &str, addendum_b: ReturnAddendumB<'p>) -> Return<'p> {
        let detail = Entry::new(31, [(4, payor_bank.into()), (6, cents.into()), (7, sequence_number.into())]);
        let (addenda_a, addenda_d, views) = (Vec::new(), Vec::new(), Vec::new());
        Return { detail, addenda_a, addendum_b, addendum_c: None, addenda_d, views }
    }

    /// Adds a Return Addendum A Record, of which a return has at most nine.
    #[must_use]
    pub fn addendum_a(mut self, addendum: ReturnAddendumA<'p>) -> Return<'p> {
        self.addenda_a.push(addendum);
        self
    }

    /// Gives the return its Return Addendum C Record, in place of an earlier one: a return has at most one.
    #[must_use]
    pub fn addendum_c(mut self, addendum: ReturnAddendumC<'p>) -> Return<'p> {
        self.addendum_c = Some(addendum);
        self
    }

    /// Adds a Return Addendum D Record.
    #[must_use]
    pub fn addendum_d(mut self, addendum: ReturnAddendumD<'p>) -> Return<'p> {
        self.addenda_d.push(addendum);
        self
    }

    /// Adds a view.
    #[must_use]
    pub fn view(mut self, view: View<'p>) -> Return<'p> {
        self.views.push(view);
        self
    }

    pub(crate) fn lay_down(self, key: &Key, entries: &mut Vec<Entry<'p>>) {
        let key = key.with_item(self.detail.text(7));
        entries.push(self.detail);
        entries.extend(self.addenda_a.into_iter().map(|addendum| addendum.record));
        entries.push(self.addendum_b.record);
        entries.extend(self.addendum_c.map(|addendum| addendum.record));
        entries.extend(self.addenda_d.into_iter().map(|addendum| addendum.record));
        self.views.into_iter().for_each(|view| view.lay_down(&key, entries));
    }
}

gives! { Return.detail = RETURN, "Return Record":
    2 auxiliary_on_us: &str,
    3 external_processing_code: &str,
    5 on_us: &str,
}

/// A Credit/Reconciliation Record, with its views: a credit, or with Record Usage Indicator 9 a debit.
#[derive(Clone, Debug)]
pub struct Credit<'p> {
    detail: Entry<'p>,
    views: Vec<View<'p>>,
}

impl<'p> Credit<'p> {
    /// A credit: the routing number of the bank where it is posted, its amount, and its sequence number.
    pub fn new(posting_bank: &str, cents: u64, sequence_number: &str) -> Credit<'p> {
        let detail = Entry::new(61, [(5, posting_bank.into()), (7, cents.into()), (8, sequence_number.into())]);
        Credit { detail, views: Vec::new() }
    }

    /// Adds a view.
    #[must_use]
    pub fn view(mut self, view: View<'p>) -> Credit<'p> {
        self.views.push(view);
        self
    }

    pub(crate) fn lay_down(self, key: &Key, entries: &mut Vec<Entry<'p>>) {
        let key = key.with_item(self.detail.text(8));
        entries.push(self.detail);
        self.views.into_iter().for_each(|view| view.lay_down(&key, entries));
    }
}

gives! { Credit.detail = CREDIT, "Credit/Reconciliation Record":
    2 record_usage_indicator: &str,
    3 auxiliary_on_us: &str,
    4 external_processing_code: &str,
    6 posting_account_number_on_us: &str,
    9 documentation_type_indicator: &str,
    10 type_of_account_code: &str,
    11 source_of_work_code: &str,
}
