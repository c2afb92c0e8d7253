//! Tags.
use core::fmt;

/// A tag: the first octet of its identifier, plus 256 times its number if that is 31 or more. Under BER, an OCTET
/// STRING in segments (octet `0x24`) also has the tag `OCTET_STRING`. Tags are ordered as these numbers, which is not
/// the order of X.680 8.6 from tag number 31 on.
///
/// ```
/// use der_c::Tag;
/// assert_eq!(Tag::SEQUENCE.to_string(), "SEQUENCE");
/// assert_eq!(Tag::context(3, true).to_string(), "[3]");
/// assert_eq!(Tag::private(1000, false).to_string(), "[PRIVATE 1000]");
/// ```
#[derive(Clone, Copy, PartialEq, Eq, PartialOrd, Ord, Hash)]
pub struct Tag(pub u64);

/// The universal tags that the library knows.
#[allow(missing_docs)]
impl Tag {
    pub const BOOLEAN: Tag = Tag(0x01);
    pub const INTEGER: Tag = Tag(0x02);
    pub const BIT_STRING: Tag = Tag(0x03);
    pub const OCTET_STRING: Tag = Tag(0x04);
    pub const NULL: Tag = Tag(0x05);
    pub const OBJECT_IDENTIFIER: Tag = Tag(0x06);
    pub const REAL: Tag = Tag(0x09);
    pub const ENUMERATED: Tag = Tag(0x0A);
    pub const UTF8_STRING: Tag = Tag(0x0C);
    pub const RELATIVE_OID: Tag = Tag(0x0D);
    pub const NUMERIC_STRING: Tag = Tag(0x12);
    pub const PRINTABLE_STRING: Tag = Tag(0x13);
    pub const TELETEX_STRING: Tag = Tag(0x14);
    pub const VIDEOTEX_STRING: Tag = Tag(0x15);
    pub const IA5_STRING: Tag = Tag(0x16);
    pub const UTC_TIME: Tag = Tag(0x17);
    pub const GENERALIZED_TIME: Tag = Tag(0x18);
    pub const VISIBLE_STRING: Tag = Tag(0x1A);
    pub const GENERAL_STRING: Tag = Tag(0x1B);
    pub const BMP_STRING: Tag = Tag(0x1E);
    pub const SEQUENCE: Tag = Tag(0x30);
    pub const SET: Tag = Tag(0x31);
}

/// The names of the universal tags, by their first octet.
const NAMES: [(u64, &str); 22] = [
    (0x01, "BOOLEAN"),
    (0x02, "INTEGER"),
    (0x03, "BIT STRING"),
    (0x04, "OCTET STRING"),
    (0x05, "NULL"),
    (0x06, "OBJECT IDENTIFIER"),
    (0x09, "REAL"),
    (0x0A, "ENUMERATED"),
    (0x0C, "UTF8String"),
    (0x0D, "RELATIVE-OID"),
    (0x12, "NumericString"),
    (0x13, "PrintableString"),
    (0x14, "TeletexString"),
    (0x15, "VideotexString"),
    (0x16, "IA5String"),
    (0x17, "UTCTime"),
    (0x18, "GeneralizedTime"),
    (0x1A, "VisibleString"),
    (0x1B, "GeneralString"),
    (0x1E, "BMPString"),
    (0x30, "SEQUENCE"),
    (0x31, "SET"),
];

impl Tag {
    /// `[number]`, constructed or not.
    pub const fn context(number: u32, constructed: bool) -> Tag {
        Self::of_class(0x80, number, constructed)
    }

    /// `[APPLICATION number]`, constructed or not.
    pub const fn application(number: u32, constructed: bool) -> Tag {
        Self::of_class(0x40, number, constructed)
    }

    /// `[PRIVATE number]`, constructed or not.
    pub const fn private(number: u32, constructed: bool) -> Tag {
        Self::of_class(0xC0, number, constructed)
    }

    /// The tag of a class, which is given by the class bits of the first octet.
    const fn of_class(class: u64, number: u32, constructed: bool) -> Tag {
        let first = class + if constructed { 0x20 } else { 0 };
        Tag(if number < 31 {
            first + number as u64
        } else {
            first + 31 + 256 * number as u64
        })
    }

    /// The number of the tag.
    pub const fn number(self) -> u64 {
        let low = self.0 % 32;
        if low < 31 { low } else { self.0 / 256 }
    }

    /// Whether the identifier has the constructed bit.
    pub const fn is_constructed(self) -> bool {
        self.0 & 0x20 != 0
    }
}

/// Prints the type of a universal tag, and else class and number as in ASN.1: `[3]`,
/// `[APPLICATION 1]`. Whether a tag is constructed is not printed.
impl fmt::Display for Tag {
    fn fmt(&self, f: &mut fmt::Formatter<'_>) -> fmt::Result {
        if let Some((_, name)) = NAMES.iter().find(|(word, _)| *word == self.0) {
            return f.pad(name);
        }
        let class = ["UNIVERSAL ", "APPLICATION ", "", "PRIVATE "][(self.0 / 64 % 4) as usize];
        write!(f, "[{class}{}]", self.number())
    }
}

/// Prints what [`Display`](fmt::Display) prints, inside `Tag(..)`.
impl fmt::Debug for Tag {
    fn fmt(&self, f: &mut fmt::Formatter<'_>) -> fmt::Result {
        write!(f, "Tag({self})")
    }
}
