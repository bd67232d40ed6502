//! The tags that X9.100-181 names: numbers and names as its Tables 1 and 2 print them, and what is asked of those that a picture must have. The
//! table serves to speak of a tag; what is right in a picture, the proved library alone decides. It imports none of the crate's modules.

/// A tag that X9.100-181 (ANS X9.100-181-2007) names.
///
/// ```
/// let compression = x9180::Tag::of(259).ok_or("Table 1 has it")?;
/// assert_eq!(compression.to_string(), "tag 259, Compression");
/// assert_eq!(compression.asked, Some("SHORT, count 1, value 4 (Group 4, ITU-T T.6)"));
/// assert_eq!(x9180::Tag::of(266).map(|tag| (tag.name, tag.asked)), Some(("FillOrder", None)));
/// assert!(x9180::Tag::of(305).is_none());
/// # Ok::<(), &str>(())
/// ```
#[derive(Debug, PartialEq, Eq)]
pub struct Tag {
    /// The tag's number.
    pub number: u64,
    /// The tag's name.
    pub name: &'static str,
    /// What is asked of the entry with this tag, in plain words: Table 1, with the types that TIFF 6.0 gives. `None` for the optional tags of Table 2,
    /// which are not judged.
    pub asked: Option<&'static str>,
}

/// The tags of Tables 1 and 2, in ascending order.
pub static TAGS: &[Tag] = &[
    optional(254, "NewSubfileType"),
    required(256, "ImageWidth", "SHORT or LONG, count 1, a value other than 0"),
    required(257, "ImageLength", "SHORT or LONG, count 1, a value other than 0"),
    optional(258, "BitsPerSample"),
    required(259, "Compression", "SHORT, count 1, value 4 (Group 4, ITU-T T.6)"),
    required(262, "Photometric Interpretation", "SHORT, count 1, value 0 (a bit of 0 is white)"),
    optional(263, "Thresholding"),
    optional(266, "FillOrder"),
    required(273, "StripOffsets", "SHORT or LONG, count 1 (a single strip)"),
    optional(274, "Orientation"),
    optional(277, "SamplesPerPixel"),
    required(278, "RowsPerStrip", "SHORT or LONG, count 1, the value of tag 257, ImageLength"),
    required(279, "StripByteCounts", "SHORT or LONG, count 1 (a single strip)"),
    required(282, "XResolution", "RATIONAL, count 1, value 200/1 or 240/1 or a ratio that comes to one of them"),
    required(283, "YResolution", "RATIONAL, count 1, the ratio of tag 282, XResolution, at an offset of its own"),
    optional(293, "T6Options"),
    optional(296, "ResolutionUnit"),
];

const fn required(number: u64, name: &'static str, asked: &'static str) -> Tag {
    Tag { number, name, asked: Some(asked) }
}

const fn optional(number: u64, name: &'static str) -> Tag {
    Tag { number, name, asked: None }
}

/// Tags from here on belong to organizations (clause 9.2).
const FIRST_PRIVATE: u64 = 32_768;

impl Tag {
    /// The tag of this number, where X9.100-181 names it.
    pub fn of(number: u64) -> Option<&'static Tag> {
        TAGS.iter().find(|tag| tag.number == number)
    }

    /// A tag by its number, and by its name where it has one.
    pub(crate) fn spoken(number: u64) -> String {
        match Tag::of(number) {
            Some(tag) => tag.to_string(),
            None if number >= FIRST_PRIVATE => format!("tag {number}, a private tag"),
            None => format!("tag {number}"),
        }
    }
}

impl std::fmt::Display for Tag {
    fn fmt(&self, f: &mut std::fmt::Formatter<'_>) -> std::fmt::Result {
        write!(f, "tag {}, {}", self.number, self.name)
    }
}
