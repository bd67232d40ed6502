//! Whether the rule of each field holds. The proved library judges one record and names its first fault; here that field is made right in a copy and the
//! copy is judged again, until no fault is left. So the library alone decides of every field.

use x9180::{CharacterSet, DataType, Field, Form, Kind, Number, Place, Refusal, Usage};

/// What the library says of one field.
#[derive(Clone, Debug, PartialEq, Eq)]
pub enum Verdict {
    Holds,
    Broken(Refusal),
    /// The length of the record leaves no telling where it stands, or it is not there.
    NotJudged,
}

/// A verdict for each field of a record alone, and the fault of the record as a whole where it has one.
pub fn of(set: CharacterSet, kind: &Kind, body: &[u8]) -> (Vec<Verdict>, Option<Refusal>) {
    let mut verdicts = vec![Verdict::Holds; kind.fields.len()];
    let mut copy = body.to_vec();
    // Each turn settles a field, so that there are no more turns than fields and one.
    for _ in 0..=kind.fields.len() {
        let Err(refusal) = x9180::record(set, &copy) else { return (verdicts, None) };
        let broken = kind.fields.iter().position(|field| field.number == refusal.field());
        match broken.filter(|place| refusal.number() == Number::FIELD && verdicts[*place] == Verdict::Holds) {
            Some(place) => {
                make_right(set, kind, &kind.fields[place], &mut copy);
                verdicts[place] = Verdict::Broken(refusal);
            }
            None => {
                let whole = refusal.number() != Number::FIELD;
                let lengths_tell = kind.is_variable() && body.len() >= kind.fixed_length();
                // A field that cannot be made right leaves those behind it open, a wrong length the variable ones, or all.
                let is_open = |field: &Field| match (whole, lengths_tell) {
                    (false, _) => field.number > refusal.field(),
                    (true, lengths_tell) => !lengths_tell || matches!(field.place, Place::SizedBy(_)),
                };
                for (verdict, field) in verdicts.iter_mut().zip(kind.fields) {
                    if *verdict == Verdict::Holds && is_open(field) {
                        *verdict = Verdict::NotJudged;
                    }
                }
                return (verdicts, Some(refusal).filter(|_| whole));
            }
        }
    }
    (verdicts, None)
}

/// Puts a value in the place of a field that meets its rule.
fn make_right(set: CharacterSet, kind: &Kind, field: &Field, copy: &mut [u8]) {
    let Some(place) = kind.range(set, copy, field.number).and_then(|range| copy.get_mut(range)) else { return };
    let text = right(field, place.len());
    place.iter_mut().zip(text.chars()).for_each(|(byte, letter)| *byte = set.byte(letter).unwrap_or(*byte));
}

/// A value that meets the field's rule. Of a list of digits it is the first, which for a length or a coordinate is 0; of other codes the last, which
/// for the clipping origin is 4, since with 0 the coordinates would have to be 0 too.
fn right(field: &Field, length: usize) -> String {
    match (field.usage, field.form) {
        (Usage::Conditional, _) => " ".repeat(length),
        (_, Form::Routing(_)) => "123456780".to_string(),
        (_, Form::Date) => "20240101".to_string(),
        (_, Form::Values(values)) => {
            let mut listed = values.split([',', '-', ' ']);
            let value = if field.data_type == DataType::N { listed.next() } else { listed.next_back() };
            value.unwrap_or_default().to_string()
        }
        (_, Form::HourMinute | Form::HourMinuteSecond) => "0".repeat(length),
        _ if field.data_type == DataType::N => "0".repeat(length),
        _ => " ".repeat(length),
    }
}

#[cfg(test)]
mod tests {
    use super::*;
    use x9180::{Reading, Row};

    fn each_record(mut look: impl FnMut(CharacterSet, &'static Kind, &[u8])) {
        let root = std::path::Path::new(env!("CARGO_MANIFEST_DIR")).join("../..");
        for name in [
            "samples/two-letters-with-pictures.x9",
            "samples/credits-with-pictures.x9",
            "samples/ebcdic-with-pictures.x9",
        ] {
            let file = std::fs::read(root.join(name)).unwrap();
            let reading: Reading = x9180::read(&file).unwrap();
            let parts = |row: &Row| Some((row.kind()?, row.body(&file)?));
            reading.rows().iter().filter_map(parts).for_each(|(kind, body)| look(reading.character_set(), kind, body));
        }
    }

    #[test]
    fn all_holds_in_accepted_files() {
        let mut seen = 0;
        each_record(|set, kind, body| {
            assert_eq!(of(set, kind, body), (vec![Verdict::Holds; kind.fields.len()], None));
            seen += 1;
        });
        assert_eq!(seen, 38 + 52 + 38);
    }

    /// Each field broken by itself, and all of them together: those and no others are told. A byte 00 is in no data type but Binary; a broken
    /// length leaves the variable fields open.
    #[test]
    fn each_field_broken() {
        let mut broken_fields = 0;
        each_record(|set, kind, body| {
            let fixed =
                kind.fields.iter().filter(|field| matches!(field.place, Place::Positions(..)) && field.number > 1);
            let mut all = body.to_vec();
            for field in fixed.clone() {
                let Place::Positions(first, last) = field.place else { continue };
                let mut copy = body.to_vec();
                copy[first - 1..last].fill(0);
                all[first - 1..last].fill(0);
                let (verdicts, _) = of(set, kind, &copy);
                let sizes = kind.parts().any(|part| part.place == Place::SizedBy(field.number));
                for (other, verdict) in kind.fields.iter().zip(verdicts) {
                    let expected = match other.place {
                        _ if other.number == field.number => matches!(verdict, Verdict::Broken(_)),
                        Place::SizedBy(_) if sizes => true,
                        _ => verdict == Verdict::Holds,
                    };
                    assert!(expected, "{kind}: field {} broken, field {}: {verdict:?}", field.number, other.number);
                }
                broken_fields += 1;
            }
            let (verdicts, _) = of(set, kind, &all);
            let told = kind.fields.iter().zip(&verdicts).filter(|(_, verdict)| matches!(verdict, Verdict::Broken(_)));
            assert!(told.map(|(field, _)| field.number).eq(fixed.map(|field| field.number)), "{kind}: {verdicts:?}");
        });
        assert!(broken_fields > 1_000, "{broken_fields}");
    }

    #[test]
    fn a_length_that_is_wrong() {
        let kind = Kind::of(70).unwrap();
        let (verdicts, whole) = of(CharacterSet::Ascii, kind, b"700001");
        assert_eq!(whole.map(|refusal| refusal.number()), Some(Number::LENGTH));
        assert!(verdicts.iter().all(|verdict| *verdict == Verdict::NotJudged));
    }
}
