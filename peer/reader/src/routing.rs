//! What the nine characters of a routing field can look like: made at random, told from the bytes, and which of it passes where.
//! The generator, the damage and the coverage go by it. It is written from request 1 and its readings, and asks the judge nothing.

use crate::layout::{Field, Form, Rule, Type, Usage, LAYOUTS};
use crate::random::Random;

/// The shapes; contents have one at most.
#[derive(Clone, Copy, Debug, PartialEq, Eq, PartialOrd, Ord)]
pub enum Shape {
    /// Nine digits by the ABA rule.
    RightCheckDigit,
    /// Nine digits against it.
    WrongCheckDigit,
    /// 99999-999
    FiveDashThree,
    /// 9999-9999
    FourDashFour,
    /// A blank and eight digits.
    BlankFirst,
    /// One to eight digits in a row and blanks on either side, but not a blank and eight digits.
    Short,
    AllBlank,
    /// Eight digits and a dash at another place than in the two forms above.
    DashMoved,
    /// Two dashes or more, and digits.
    Dashes,
    /// A dash beside blanks: no number of any form is written so.
    DashAndBlank,
    /// A blank that has a digit on either side.
    BlankInside,
    /// Digits, dashes and blanks, and a letter among them.
    Letter,
    /// The same with something that looks like a dash.
    OtherDash,
    /// The same with something that looks like a blank.
    OtherBlank,
    /// The same with a can't-read mark.
    CantRead,
    /// The same with a question mark.
    Questionable,
}

pub const SHAPES: [Shape; 16] = [
    Shape::RightCheckDigit,
    Shape::WrongCheckDigit,
    Shape::FiveDashThree,
    Shape::FourDashFour,
    Shape::BlankFirst,
    Shape::Short,
    Shape::AllBlank,
    Shape::DashMoved,
    Shape::Dashes,
    Shape::DashAndBlank,
    Shape::BlankInside,
    Shape::Letter,
    Shape::OtherDash,
    Shape::OtherBlank,
    Shape::CantRead,
    Shape::Questionable,
];

/// Underscore, tilde, equals sign, slash, full stop, and what dashes are in EBCDIC, Windows-1252 and Latin-1.
const LIKE_A_DASH: &[u8] = &[b'_', b'~', b'=', b'/', b'.', b'`', 0x96, 0x97, 0xAD];

/// Nothing, the blanks of a typist, and what blanks are in EBCDIC and Latin-1.
const LIKE_A_BLANK: &[u8] = &[0x00, b'\t', b'\n', b'\r', b'@', 0xA0];

const LETTERS: &[u8] = b"TtAaCcFfbBOolIN";

/// The forms as they are printed, and in small letters: no contents.
const PRINTED: [&[u8; 9]; 5] = [b"TTTTAAAAC", b"ttttt-fff", b"TTTT-AAAA", b"bTTTTAAAA", b"nnnnnnnnn"];

/// The forms that a field lists; none for any other field.
pub fn forms(field: &Field) -> Option<&'static [Form]> {
    match field.rule {
        Rule::Routing(forms) => Some(forms),
        _ => None,
    }
}

/// Every routing field.
pub fn fields() -> Vec<(u8, &'static Field)> {
    let of_type = |code: u8, fields: &'static [Field]| fields.iter().map(move |field| (code, field));
    let all = LAYOUTS.iter().flat_map(|layout| of_type(layout.code, layout.fields));
    all.filter(|(_, field)| forms(field).is_some()).collect()
}

/// Whether contents of this shape pass in a routing field.
pub fn passes(field: &Field, shape: Shape) -> bool {
    let lists = |form: Form| forms(field).is_some_and(|forms| forms.contains(&form));
    match shape {
        Shape::RightCheckDigit => lists(Form::WithCheckDigit) || lists(Form::NonFinancial),
        Shape::WrongCheckDigit | Shape::Short => lists(Form::NonFinancial),
        Shape::FiveDashThree => lists(Form::Canadian),
        Shape::FourDashFour => lists(Form::WithDash),
        // The non-financial number of eight digits looks the same.
        Shape::BlankFirst => lists(Form::BlankFirst) || lists(Form::NonFinancial),
        Shape::AllBlank => field.usage == Usage::Conditional,
        // The mark leaves the type alone to judge (document 01), and the shape has no stranger to NBMcd.
        Shape::CantRead => field.kind == Type::MicrDash,
        Shape::DashMoved | Shape::Dashes | Shape::DashAndBlank | Shape::BlankInside => false,
        Shape::Letter | Shape::OtherDash | Shape::OtherBlank | Shape::Questionable => false,
    }
}

/// The shape of nine characters; none where strangers of several sorts are among them.
pub fn shape(contents: &[u8]) -> Option<Shape> {
    let strangers: Vec<u8> = contents.iter().copied().filter(|byte| !plain(*byte)).collect();
    if contents.len() != 9 {
        return None;
    }
    if strangers.is_empty() {
        return Some(plain_shape(contents));
    }
    if strangers.iter().all(u8::is_ascii_alphabetic) {
        return Some(Shape::Letter);
    }
    let sorts: [(&[u8], Shape); 4] = [
        (LIKE_A_DASH, Shape::OtherDash),
        (LIKE_A_BLANK, Shape::OtherBlank),
        (b"*", Shape::CantRead),
        (b"?", Shape::Questionable),
    ];
    let alike = |sort: &[u8]| strangers.iter().all(|byte| sort.contains(byte));
    sorts.into_iter().find(|(sort, _)| alike(sort)).map(|(_, shape)| shape)
}

fn plain(byte: u8) -> bool {
    byte.is_ascii_digit() || byte == b'-' || byte == b' '
}

/// The shape of digits, dashes and blanks.
fn plain_shape(contents: &[u8]) -> Shape {
    let count = |wanted: u8| contents.iter().filter(|byte| **byte == wanted).count();
    match (count(b'-'), count(b' ')) {
        (0, 0) if check_digit(&contents[..8]) == contents[8] => Shape::RightCheckDigit,
        (0, 0) => Shape::WrongCheckDigit,
        (0, 9) => Shape::AllBlank,
        (0, 1) if contents[0] == b' ' => Shape::BlankFirst,
        (0, blanks) if in_a_row(contents, 9 - blanks) => Shape::Short,
        (0, _) => Shape::BlankInside,
        (1, 0) if contents[5] == b'-' => Shape::FiveDashThree,
        (1, 0) if contents[4] == b'-' => Shape::FourDashFour,
        (1, 0) => Shape::DashMoved,
        (_, 0) => Shape::Dashes,
        _ => Shape::DashAndBlank,
    }
}

/// Whether so many digits stand side by side.
fn in_a_row(contents: &[u8], digits: usize) -> bool {
    contents.windows(digits).any(|window| window.iter().all(u8::is_ascii_digit))
}

/// The ninth digit that goes with eight by the ABA rule.
pub fn check_digit(eight: &[u8]) -> u8 {
    let weights = [3u64, 7, 1, 3, 7, 1, 3, 7];
    let sum: u64 = eight.iter().zip(weights).map(|(digit, weight)| u64::from(digit - b'0') * weight).sum();
    b'0' + ((10 - sum % 10) % 10) as u8
}

/// Contents of a form.
pub fn in_form(random: &mut Random, form: Form) -> Vec<u8> {
    let shape = match form {
        Form::WithCheckDigit => Shape::RightCheckDigit,
        Form::Canadian => Shape::FiveDashThree,
        Form::WithDash => Shape::FourDashFour,
        Form::BlankFirst => Shape::BlankFirst,
        Form::NonFinancial => random.pick(&[Shape::Short, Shape::Short, Shape::BlankFirst, Shape::WrongCheckDigit]),
    };
    of_shape(random, shape)
}

/// Contents of a shape.
pub fn of_shape(random: &mut Random, shape: Shape) -> Vec<u8> {
    let mut contents: Vec<u8> = (0..9).map(|_| random.digit()).collect();
    match shape {
        Shape::RightCheckDigit => contents[8] = check_digit(&contents[..8]),
        Shape::WrongCheckDigit => {
            contents[8] = b'0' + (check_digit(&contents[..8]) - b'0' + random.pick(&[1, 5, 9])) % 10
        }
        Shape::FiveDashThree => contents[5] = b'-',
        Shape::FourDashFour => contents[4] = b'-',
        Shape::BlankFirst => contents[0] = b' ',
        Shape::Short => shorten(random, &mut contents),
        Shape::AllBlank => contents.fill(b' '),
        Shape::DashMoved => contents[random.pick(&[0, 1, 2, 3, 3, 6, 6, 7, 8])] = b'-',
        Shape::Dashes => two_places(random).into_iter().for_each(|place| contents[place] = b'-'),
        Shape::DashAndBlank => dash_and_blank(random, &mut contents),
        Shape::BlankInside => contents[random.between(1, 7)] = b' ',
        Shape::Letter if random.percent(20) => contents = random.pick(&PRINTED).to_vec(),
        Shape::Letter => estrange(random, &mut contents, LETTERS),
        Shape::OtherDash => estrange(random, &mut contents, LIKE_A_DASH),
        Shape::OtherBlank => estrange(random, &mut contents, LIKE_A_BLANK),
        Shape::CantRead => estrange(random, &mut contents, b"*"),
        Shape::Questionable => estrange(random, &mut contents, b"?"),
    }
    contents
}

/// Leaves one to eight digits, most often at an end; eight on the right are another shape.
fn shorten(random: &mut Random, contents: &mut [u8]) {
    let digits = random.between(1, 8);
    let first = match random.below(5) {
        _ if digits == 8 => 0,
        0 | 1 => 0,
        2 | 3 => 9 - digits,
        _ => random.between(0, 9 - digits),
    };
    contents[..first].fill(b' ');
    contents[first + digits..].fill(b' ');
}

/// Two places; one pair in two has one at a place where a form has its dash.
fn two_places(random: &mut Random) -> [usize; 2] {
    let first = if random.percent(50) { random.pick(&[4, 5]) } else { random.below(9) };
    [first, (first + random.between(1, 8)) % 9]
}

/// A dash in a short number, or a blank in a number that has its dash.
fn dash_and_blank(random: &mut Random, contents: &mut [u8]) {
    let [dash, blank] = two_places(random);
    contents[blank] = b' ';
    if random.percent(50) {
        shorten(random, contents);
    }
    contents[dash] = b'-';
}

/// Puts a stranger at the place of a digit, a blank or a dash of some form.
fn estrange(random: &mut Random, contents: &mut Vec<u8>, strangers: &[u8]) {
    let before = [Shape::RightCheckDigit, Shape::FiveDashThree, Shape::FourDashFour, Shape::BlankFirst, Shape::Short];
    let shape = random.pick(&before);
    *contents = of_shape(random, shape);
    let place = match shape {
        Shape::FiveDashThree if random.percent(50) => 5,
        Shape::FourDashFour if random.percent(50) => 4,
        Shape::BlankFirst if random.percent(50) => 0,
        _ => random.below(9),
    };
    contents[place] = random.pick(strangers);
}

#[cfg(test)]
mod tests {
    use super::*;
    use crate::judge;

    #[test]
    fn shapes_are_told_again_from_what_was_made() {
        let mut random = Random::new(18);
        for wanted in SHAPES {
            for _ in 0..2_000 {
                let made = of_shape(&mut random, wanted);
                assert_eq!(shape(&made), Some(wanted), "{}", made.escape_ascii());
            }
        }
    }

    #[test]
    fn shapes_by_hand() {
        let pattern = |text: &[u8; 9]| shape(text);
        assert_eq!(pattern(b"123456780"), Some(Shape::RightCheckDigit));
        assert_eq!(pattern(b"123456789"), Some(Shape::WrongCheckDigit));
        assert_eq!(pattern(b"12345-678"), Some(Shape::FiveDashThree));
        assert_eq!(pattern(b"1234-5678"), Some(Shape::FourDashFour));
        assert_eq!(pattern(b" 12345678"), Some(Shape::BlankFirst));
        assert_eq!(pattern(b"12345678 "), Some(Shape::Short));
        assert_eq!(pattern(b"   4     "), Some(Shape::Short));
        assert_eq!(pattern(b"1       9"), Some(Shape::BlankInside));
        assert_eq!(pattern(b"123456-78"), Some(Shape::DashMoved));
        assert_eq!(pattern(b"---------"), Some(Shape::Dashes));
        assert_eq!(pattern(b"1234-567 "), Some(Shape::DashAndBlank));
        assert_eq!(pattern(b"12345\x97678"), Some(Shape::OtherDash));
        assert_eq!(pattern(b"1234567*?"), None);
        assert_eq!(shape(b"12345678"), None);
    }

    /// Two writings of one rule: what passes by its shape passes by the judge.
    #[test]
    fn the_judge_and_the_shapes_agree() {
        let mut random = Random::new(19);
        for (code, field) in fields() {
            for shape in SHAPES {
                for _ in 0..200 {
                    let made = of_shape(&mut random, shape);
                    let shown = made.escape_ascii();
                    assert_eq!(judge::field(field, &made), passes(field, shape), "{code}.{} '{shown}'", field.number);
                }
            }
        }
    }

    /// By hand: eight fields take five shapes, five conditional ones three (all blank too), 25.4 and 31.4 five (the mark too), 61.5
    /// three (the mark, but not blank).
    #[test]
    fn sixteen_fields_take_68_of_256() {
        let taken = |(_, field): &(u8, &Field)| SHAPES.iter().filter(|shape| passes(field, **shape)).count();
        let counts: Vec<usize> = fields().iter().map(taken).collect();
        // 01.4 01.5 10.3 10.4 20.3 20.4 20.10 25.4 26.3 28.3 31.4 32.3 35.3 50.3 52.2 61.5
        assert_eq!(counts, [5, 5, 5, 5, 5, 5, 3, 5, 3, 3, 5, 3, 3, 5, 5, 3]);
        assert_eq!(counts.iter().sum::<usize>(), 68);
    }
}
