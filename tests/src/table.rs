//! The table of fields, read from `fields.tsv`: the fields of the carried types.

/// One printed value or run of values, as `P`, `A-M`, `03` or `80-85`.
pub struct Values {
    pub low: &'static [u8],
    pub high: &'static [u8],
}

pub struct Field {
    pub number: u64,
    pub name: &'static str,
    pub mandatory: bool,
    /// Where a field of the fixed part starts, from 0, and its size; of a variable field, 0 and 0.
    pub start: usize,
    pub size: usize,
    /// The number of the field that states the length of this one, if it is variable.
    pub stated_by: Option<u64>,
    /// As clause 5 abbreviates it, `NBMcd`.
    pub data_type: &'static str,
    /// `none`, `date`, `hhmm`, `hhmmss`, or `routing:` with the forms that are listed.
    pub format: &'static str,
    /// The defined values; empty where none are listed or those listed are not judged.
    pub values: Vec<Values>,
    /// The runs of values of a date's or a time's parts, one after another; empty for other fields.
    pub ranges: Vec<Values>,
}

pub struct Kind {
    pub code: &'static str,
    pub fields: Vec<Field>,
    /// The length of the record, or of its fixed part.
    pub fixed_length: usize,
}

pub struct Table {
    pub kinds: Vec<Kind>,
}

impl Table {
    pub fn read() -> Table {
        let mut kinds: Vec<Kind> = Vec::new();
        for line in include_str!("../fields.tsv").lines().skip(1) {
            let cells: Vec<&'static str> = line.split('\t').collect();
            if kinds.last().map(|kind| kind.code) != Some(cells[0]) {
                kinds.push(Kind { code: cells[0], fields: Vec::new(), fixed_length: 0 });
            }
            kinds.last_mut().expect("a kind was pushed").take_row(&cells);
        }
        Table { kinds }
    }

    /// The kind that these two characters name.
    pub fn named(&self, code: &[u8]) -> Option<&Kind> {
        self.kinds.iter().find(|kind| kind.code.as_bytes() == code)
    }

    pub fn kind(&self, code: &str) -> &Kind {
        self.named(code.as_bytes()).expect("a carried type")
    }
}

impl Field {
    /// The bytes of a field of the fixed part.
    pub fn of<'a>(&self, body: &'a [u8]) -> &'a [u8] {
        &body[self.start..self.start + self.size]
    }

    /// The forms that a routing field lists, in order: `TTTTAAAAC`, `TTTTT-FFF`, `TTTT-AAAA`, `bTTTTAAAA` (b a blank), and `NONFIN`, which the
    /// clauses print as NNNNNNNNN. None for any other field.
    pub fn routing_forms(&self) -> impl Iterator<Item = &'static str> {
        self.format.strip_prefix("routing:").into_iter().flat_map(|forms| forms.split(','))
    }
}

impl Kind {
    pub fn field(&self, number: u64) -> &Field {
        &self.fields[number as usize - 1]
    }

    /// The numbers of the fields that size another field.
    pub fn sizing_fields(&self) -> Vec<u64> {
        self.fields.iter().filter_map(|field| field.stated_by).collect()
    }

    pub fn is_variable(&self) -> bool {
        ["27", "34", "52"].contains(&self.code)
    }

    fn take_row(&mut self, cells: &[&'static str]) {
        let number = |cell: &str| cell.parse::<usize>().expect("a number");
        assert_eq!(number(cells[1]), self.fields.len() + 1, "fields are listed in order");
        let stated_by = cells[5].strip_prefix("var:").map(|by| number(by) as u64);
        let (start, size) = if stated_by.is_none() { (number(cells[4]) - 1, number(cells[5])) } else { (0, 0) };
        assert!(start == self.fixed_length || stated_by.is_some(), "fixed fields leave no gap");
        self.fixed_length += size;
        self.fields.push(Field {
            number: number(cells[1]) as u64,
            name: cells[2],
            mandatory: cells[3] == "M",
            start,
            size,
            stated_by,
            data_type: cells[6],
            format: cells[7],
            values: values(cells[8]),
            ranges: ranges(cells[8]),
        });
    }
}

/// Dates and times are held by their format, Annex G codes are not judged, and 50.13 is judged by its type alone.
fn values(text: &'static str) -> Vec<Values> {
    let by_format = text.starts_with("YYYY=") || text.starts_with("hh=");
    let not_judged = text == "none" || text == "annexG" || text.starts_with("if F12=");
    if by_format || not_judged {
        return Vec::new();
    }
    text.split('|').map(one_run).collect()
}

/// `YYYY=1993-9999,MM=01-12,DD=01-31` and the like.
fn ranges(text: &'static str) -> Vec<Values> {
    match text.starts_with("YYYY=") || text.starts_with("hh=") {
        true => text.split(',').filter_map(|part| part.split_once('=')).map(|(_, run)| one_run(run)).collect(),
        false => Vec::new(),
    }
}

/// Values marked `(r)` are printed as reserved: they pass like the others.
fn one_run(text: &'static str) -> Values {
    let text = text.trim_end_matches("(r)");
    let (low, high) = text.split_once('-').unwrap_or((text, text));
    Values { low: low.as_bytes(), high: high.as_bytes() }
}
