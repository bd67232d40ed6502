//! Why the tags of a picture were refused, in numbers and in plain words. The form only: `explain_tags` finds the words. Of the crate's modules it
//! imports `refusal` and `tag` alone.

use crate::refusal::Number;
use crate::tag::Tag;

/// A refusal by [`tags`](crate::tags): the numbers of the answer, and what the picture holds there in plain words, which decide nothing.
///
/// `{}` puts the words on one line, `{:#}` on a line each.
///
/// ```
/// # fn main() -> Result<(), Box<dyn std::error::Error>> {
/// let file = std::fs::read("../../samples/two-letters-with-pictures.x9")?;
/// let mut picture = x9180::picture(&file, 623)?.to_vec();
/// picture[34 + 8] = 1; // its third entry, Compression
/// let Err(fault) = x9180::tags(&picture) else { panic!("it is not compressed by Group 4") };
/// assert_eq!((fault.number(), fault.tag()), (x9180::Number::TAGVALUE, 259));
/// assert_eq!(fault.named_tag().map(|tag| tag.name), Some("Compression"));
/// assert_eq!(
///     format!("{fault:#}"),
///     "TAGVALUE: a required tag is wrong or absent\n\
///      tag 259, Compression, entry 3 of 9, at offset 34 of the picture\n\
///      found SHORT, count 1, value 1\n\
///      asked: SHORT, count 1, value 4 (Group 4, ITU-T T.6)"
/// );
/// # Ok(())
/// # }
/// ```
#[derive(Clone, Debug, PartialEq, Eq)]
pub struct TagFault {
    pub(crate) number: Number,
    pub(crate) tag: u64,
    /// Boxed, so that a `Result` with a fault in it stays small.
    pub(crate) words: Box<Words>,
}

/// What can be said of a fault beyond its numbers.
#[derive(Clone, Debug, Default, PartialEq, Eq)]
pub(crate) struct Words {
    /// The part of the picture that is at fault.
    pub place: String,
    /// What stands there.
    pub found: Option<String>,
    /// What is asked.
    pub asked: Option<String>,
}

impl TagFault {
    /// The number of the answer: `CUT`, `TAGORDER` or `TAGVALUE`.
    pub fn number(&self) -> Number {
        self.number
    }

    /// The tag at fault; 0 for `CUT`, and for `TAGVALUE` where the header is wrong.
    pub fn tag(&self) -> u64 {
        self.tag
    }

    /// The tag at fault with its name, where X9.100-181 names it.
    pub fn named_tag(&self) -> Option<&'static Tag> {
        Tag::of(self.tag)
    }

    /// What stands in the picture at the fault, in plain words: of an entry its type, count and value.
    pub fn found(&self) -> Option<&str> {
        self.words.found.as_deref()
    }

    /// What is asked there, in plain words.
    pub fn asked(&self) -> Option<&str> {
        self.words.asked.as_deref()
    }

    /// The numbers on a line, in the form of the line for a refused file.
    ///
    /// ```
    /// assert_eq!(x9180::tags(b"").unwrap_err().line(), "refused 3 tag 0");
    /// ```
    pub fn line(&self) -> String {
        format!("refused {} tag {}", self.number.0, self.tag)
    }

    fn meaning(&self) -> &'static str {
        match self.number {
            Number::CUT => "the picture ends before one of its parts does",
            Number::TAGORDER => "a tag is not above the tag before it",
            Number::TAGVALUE if self.tag == 0 => "the header is wrong",
            Number::TAGVALUE => "a required tag is wrong or absent",
            other => other.meaning(),
        }
    }
}

impl std::fmt::Display for TagFault {
    fn fmt(&self, f: &mut std::fmt::Formatter<'_>) -> std::fmt::Result {
        let between = if f.alternate() { "\n" } else { "; " };
        write!(f, "{}: {}{between}{}", self.number.name(), self.meaning(), self.words.place)?;
        if let Some(found) = self.found() {
            write!(f, "{between}found {found}")?;
        }
        match self.asked() {
            Some(asked) => write!(f, "{between}asked: {asked}"),
            None => Ok(()),
        }
    }
}

impl std::error::Error for TagFault {}
