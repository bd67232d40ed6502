//! The first directory of a TIFF picture as its bytes stand, for those who speak of it. Any bytes will do: what does not lie within the picture is
//! not there. It judges nothing, and imports none of the crate's modules.

/// The first directory of a picture, where its header puts it.
#[derive(Clone, Copy, Debug)]
pub(crate) struct Directory<'i> {
    image: &'i [u8],
    /// Where the header puts it.
    pub offset: u64,
    /// How many entries it says it has; `None` where its count does not lie within the picture.
    pub count: Option<u64>,
}

/// The bytes of the header, of the count of a directory, of an entry, and of the next offset behind the entries.
pub(crate) const HEADER: u64 = 8;
pub(crate) const COUNT: u64 = 2;
const ENTRY: u64 = 12;
const NEXT: u64 = 4;

impl<'i> Directory<'i> {
    /// The directory of a picture; `None` where there is no whole header.
    pub fn of(image: &'i [u8]) -> Option<Directory<'i>> {
        let offset = number(part(image, 4, 4)?);
        Some(Directory { image, offset, count: part(image, offset, COUNT).map(number) })
    }

    /// Where it ends, the next offset included; `None` where it has no count.
    pub fn end(&self) -> Option<u64> {
        Some(self.offset + COUNT + ENTRY * self.count? + NEXT)
    }

    /// Its entries, as far as they lie within the picture.
    pub fn entries(self) -> impl Iterator<Item = TagEntry<'i>> {
        let entry = move |index| TagEntry::at(self.image, self.offset + COUNT + ENTRY * index, index + 1);
        (0..self.count.unwrap_or(0)).map_while(entry)
    }

    /// The first entry with this tag.
    pub fn first(&self, tag: u64) -> Option<TagEntry<'i>> {
        self.entries().find(|entry| entry.tag == tag)
    }
}

/// One entry of a directory.
#[derive(Clone, Copy, Debug)]
pub(crate) struct TagEntry<'i> {
    image: &'i [u8],
    /// Which entry of the directory it is, from 1.
    pub ordinal: u64,
    /// Where it stands in the picture.
    pub offset: u64,
    /// Its tag.
    pub tag: u64,
    /// The number of its type.
    pub type_number: u64,
    /// How many values it holds.
    pub count: u64,
    /// The four bytes in which the value stands, or its offset.
    pub four: &'i [u8],
}

/// What the values of a type are.
#[derive(Clone, Copy, Debug, PartialEq, Eq)]
pub(crate) enum Sort {
    Whole,
    Signed,
    Other,
}

/// The types of TIFF 6.0 from type 1 on: name, bytes, what its values are.
const TYPES: [(&str, u64, Sort); 12] = [
    ("BYTE", 1, Sort::Whole),
    ("ASCII", 1, Sort::Other),
    ("SHORT", 2, Sort::Whole),
    ("LONG", 4, Sort::Whole),
    ("RATIONAL", 8, Sort::Other),
    ("SBYTE", 1, Sort::Signed),
    ("UNDEFINED", 1, Sort::Other),
    ("SSHORT", 2, Sort::Signed),
    ("SLONG", 4, Sort::Signed),
    ("SRATIONAL", 8, Sort::Other),
    ("FLOAT", 4, Sort::Other),
    ("DOUBLE", 8, Sort::Other),
];

impl<'i> TagEntry<'i> {
    fn at(image: &'i [u8], offset: u64, ordinal: u64) -> Option<TagEntry<'i>> {
        let bytes = part(image, offset, ENTRY)?;
        Some(TagEntry {
            image,
            ordinal,
            offset,
            tag: number(bytes.get(..2)?),
            type_number: number(bytes.get(2..4)?),
            count: number(bytes.get(4..8)?),
            four: bytes.get(8..)?,
        })
    }

    fn entry_type(&self) -> Option<(&'static str, u64, Sort)> {
        let place = usize::try_from(self.type_number).ok()?.checked_sub(1)?;
        TYPES.get(place).copied()
    }

    /// The name of its type, where TIFF 6.0 has it.
    pub fn type_name(&self) -> Option<&'static str> {
        self.entry_type().map(|(name, ..)| name)
    }

    /// How many bytes its value has; `None` of a type that TIFF 6.0 does not have.
    pub fn value_length(&self) -> Option<u64> {
        self.entry_type().map(|(_, size, _)| size * self.count)
    }

    /// Where its value stands, were it not in the four bytes.
    pub fn value_offset(&self) -> u64 {
        number(self.four)
    }

    /// The offset behind a value that is too long for the four bytes; `None` of any other.
    pub fn value_end(&self) -> Option<u64> {
        let length = self.value_length().filter(|length| *length > 4)?;
        Some(self.value_offset() + length)
    }

    /// A value that stands in the four bytes, as numbers; `None` where it is no whole numbers or is not there.
    pub fn numbers(&self) -> Option<Vec<i64>> {
        let (_, size, sort) = self.entry_type().filter(|(.., sort)| *sort != Sort::Other)?;
        let value = self.four.get(..usize::try_from(self.value_length()?).ok()?)?;
        let one = |bytes: &[u8]| {
            let number = number(bytes) as i64;
            let is_negative = sort == Sort::Signed && number >> (8 * size - 1) == 1;
            if is_negative {
                number - (1 << (8 * size))
            } else {
                number
            }
        };
        Some(value.chunks(usize::try_from(size).ok()?).map(one).collect())
    }

    /// The one SHORT or LONG that it holds.
    pub fn one_number(&self) -> Option<u64> {
        match (self.type_name(), self.count) {
            (Some("SHORT"), 1) => self.four.get(..2).map(number),
            (Some("LONG"), 1) => Some(number(self.four)),
            _ => None,
        }
    }

    /// The numerator and the denominator of the one RATIONAL that it holds.
    pub fn one_ratio(&self) -> Option<(u64, u64)> {
        let is_one = self.type_name() == Some("RATIONAL") && self.count == 1;
        let value = part(self.image, self.value_offset(), 8).filter(|_| is_one)?;
        Some((number(value.get(..4)?), number(value.get(4..)?)))
    }
}

/// So many bytes of a picture, if it has them all.
fn part(image: &[u8], offset: u64, length: u64) -> Option<&[u8]> {
    let rest = image.get(usize::try_from(offset).ok()?..)?;
    rest.get(..usize::try_from(length).ok()?)
}

/// A number of at most eight bytes, the least significant first.
fn number(bytes: &[u8]) -> u64 {
    bytes.iter().rev().fold(0, |number, byte| number << 8 | u64::from(*byte))
}
