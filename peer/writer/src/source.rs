//! Where the characters of each field come from: given in the draft, or worked out by the writer (reading 42).

use peer_reader::layout::Layout;

/// What stands in a field of a written record.
#[derive(Clone, Copy, Debug, PartialEq, Eq, PartialOrd, Ord)]
pub enum Source {
    /// A value: the draft's own characters.
    Given,
    /// Field 1 of every record.
    RecordType,
    /// The size of the part at this place among the record's parts (clauses 12, 17, 22).
    PartLength(usize),
    /// How many addenda stand behind the item (25.12, 31.8).
    AddendumCount,
    /// The place among the item's addenda of its type, from 1 (26.2, 28.2, 32.2, 35.2).
    RecordNumber,
    /// What a control record's level adds up to (clauses 31, 34, 35).
    Sum(Measure),
}

/// What is added up.
#[derive(Clone, Copy, Debug, PartialEq, Eq, PartialOrd, Ord)]
pub enum Measure {
    Letters,
    Bundles,
    Records,
    /// Debits and credits together: every 25, 31 and 61 (clause 35.4).
    Items,
    DebitItems,
    DebitCents,
    MicrValidCents,
    Views,
    CreditItems,
    CreditCents,
}

/// Where the characters of a field of the fixed part come from.
pub fn source(layout: &Layout, number: u8) -> Source {
    match (layout.code, number) {
        (_, 1) => Source::RecordType,
        (25, 12) | (31, 8) => Source::AddendumCount,
        (26 | 28 | 32 | 35, 2) => Source::RecordNumber,
        (70 | 90 | 99, _) => measure(layout.code, number).map_or(Source::Given, Source::Sum),
        _ => match layout.parts.iter().position(|part| part.sized_by == number) {
            Some(place) => Source::PartLength(place),
            None => Source::Given,
        },
    }
}

/// What a field of a control record states; nothing for its free fields (70.8, 70.9, 90.6, 90.7, 99.6, 99.7).
fn measure(code: u8, number: u8) -> Option<Measure> {
    Some(match (code, number) {
        (70, 2) | (90, 3) => Measure::DebitItems,
        (70, 3) | (90, 4) | (99, 5) => Measure::DebitCents,
        (70, 4) => Measure::MicrValidCents,
        (70, 5) | (90, 5) => Measure::Views,
        (70, 6) | (90, 8) => Measure::CreditItems,
        (70, 7) | (90, 9) | (99, 8) => Measure::CreditCents,
        (90, 2) => Measure::Bundles,
        (99, 2) => Measure::Letters,
        (99, 3) => Measure::Records,
        (99, 4) => Measure::Items,
        _ => return None,
    })
}

#[cfg(test)]
mod tests {
    use super::*;
    use peer_reader::layout::{layout, CARRIED};

    /// Reading 42, line by line.
    #[test]
    fn the_worked_out_fields_are_those_of_point_24() {
        let listed = |code: u8| -> Vec<u8> {
            let fields = layout(code).fields.iter().map(|field| field.number);
            fields.filter(|number| *number > 1 && source(layout(code), *number) != Source::Given).collect()
        };
        for code in CARRIED {
            let expected: &[u8] = match code {
                27 | 34 => &[6, 7, 8, 9, 10, 11],
                52 => &[15, 16, 17, 18, 19, 20, 21],
                25 => &[12],
                31 => &[8],
                26 | 28 | 32 | 35 => &[2],
                70 => &[2, 3, 4, 5, 6, 7],
                90 => &[2, 3, 4, 5, 8, 9],
                99 => &[2, 3, 4, 5, 8],
                _ => &[],
            };
            assert_eq!(listed(code), expected, "type {code}");
            assert_eq!(source(layout(code), 1), Source::RecordType);
        }
    }
}
