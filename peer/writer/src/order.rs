//! Which record may follow (document 01, request 2 with reading 25), as a state that goes from type to type.

/// Where in a file the last record stands.
#[derive(Clone, Copy, Debug, Default, PartialEq, Eq)]
pub struct Order {
    /// The last type, 0 at the start.
    last: u64,
    in_bundle: bool,
    /// The type of the bundle's first item. A 61 sets none (reading 26).
    kind: Option<u64>,
}

impl Order {
    /// Whether a record of this type, any number, may stand next.
    pub fn admits(&self, next: u64) -> bool {
        match self.last {
            0 => next == 1,
            1 => next == 10,
            10 | 70 => matches!(next, 20 | 61 | 90),
            20 => matches!(next, 25 | 31 | 61),
            25 | 26 => matches!(next, 26..=28 | 50) || self.closes_item(next),
            27 | 28 => matches!(next, 28 | 50) || self.closes_item(next),
            31 | 32 => matches!(next, 32 | 33),
            33 => matches!(next, 34 | 35 | 50) || self.closes_item(next),
            34 | 35 => matches!(next, 35 | 50) || self.closes_item(next),
            50 => next == 52,
            52 => matches!(next, 50 | 54) || self.closes_item(next),
            54 | 61 => next == 50 || self.closes_item(next),
            90 => matches!(next, 10 | 99),
            _ => false,
        }
    }

    /// What may stand behind a whole item, or behind a 61 with its views: in a bundle an item of its kind, a 61, a 70; directly in a cash
    /// letter a 61, a 20, a 90.
    fn closes_item(&self, next: u64) -> bool {
        match next {
            61 => true,
            25 | 31 => self.in_bundle && self.kind.is_none_or(|kind| kind == next),
            70 => self.in_bundle,
            20 | 90 => !self.in_bundle,
            _ => false,
        }
    }

    /// Goes on to a record that is admitted.
    pub fn go_on(&mut self, code: u64) {
        match code {
            20 => (self.in_bundle, self.kind) = (true, None),
            70 => self.in_bundle = false,
            25 | 31 => self.kind = Some(code),
            _ => {}
        }
        self.last = code;
    }

    pub fn in_bundle(&self) -> bool {
        self.in_bundle
    }

    /// Behind a 99 the file is whole.
    pub fn is_whole(&self) -> bool {
        self.last == 99
    }
}
