//! Values: bits and texts, and the calls that read and write values.
use crate::error::{Error, answer};
use crate::octets::Hex;
use crate::oid::Oid;
use crate::reader::Reader;
use crate::sys::{self, RawBits, RawSpan, RawText, RawTime};
use crate::tag::Tag;
use crate::time::Time;
use crate::writer::Writer;
use core::fmt;
use core::iter::FusedIterator;

/// The bits of a BIT STRING (X.690 8.6), borrowed from the input.
#[derive(Clone, Copy, PartialEq, Eq, Hash)]
pub struct Bits<'a> {
    /// The octets that hold the bits, the first bit in the most significant place.
    pub octets: &'a [u8],
    /// How many of the low bits of the last octet are not part of the string.
    pub unused: u8,
}

impl<'a> From<RawBits<'a>> for Bits<'a> {
    fn from(raw: RawBits<'a>) -> Self {
        Bits {
            octets: raw.octets(),
            unused: raw.unused,
        }
    }
}

impl fmt::Debug for Bits<'_> {
    fn fmt(&self, f: &mut fmt::Formatter<'_>) -> fmt::Result {
        f.debug_struct("Bits")
            .field("octets", &Hex(self.octets))
            .field("unused", &self.unused)
            .finish()
    }
}

/// The types of strings with characters.
const STRING_TYPES: [Tag; 7] = [
    Tag::UTF8_STRING,
    Tag::NUMERIC_STRING,
    Tag::PRINTABLE_STRING,
    Tag::TELETEX_STRING,
    Tag::IA5_STRING,
    Tag::VISIBLE_STRING,
    Tag::BMP_STRING,
];

/// A string of one of the types that [`Reader::text`] names, borrowed from the input. If `Reader::text` has read it, its
/// characters are in the alphabet of its type. [`Attribute::text`](crate::Attribute::text) does not check that.
#[derive(Clone, Copy, PartialEq, Eq, Hash)]
pub struct Text<'a> {
    octets: &'a [u8],
    string_type: Tag,
}

impl<'a> Text<'a> {
    /// The text with these contents, if this is the tag of a type with characters and the contents
    /// are characters. Whether they are of the alphabet of the type is not checked.
    pub(crate) fn of(string_type: Tag, octets: &'a [u8]) -> Option<Self> {
        let text = Text { octets, string_type };
        let mut characters = text.chars();
        characters.by_ref().for_each(drop);
        (STRING_TYPES.contains(&string_type) && characters.0.length == 0).then_some(text)
    }

    /// The contents octets.
    pub fn octets(&self) -> &'a [u8] {
        self.octets
    }

    /// The type, as its universal tag.
    pub fn string_type(&self) -> Tag {
        self.string_type
    }

    /// The characters. Those of a TeletexString are read as ISO 8859-1.
    pub fn chars(&self) -> Characters<'a> {
        Characters(RawText {
            octets: self.octets.as_ptr(),
            length: self.octets.len(),
            string_type: self.string_type.0,
            borrow: core::marker::PhantomData,
        })
    }
}

impl fmt::Display for Text<'_> {
    fn fmt(&self, f: &mut fmt::Formatter<'_>) -> fmt::Result {
        use fmt::Write;
        self.chars().try_for_each(|it| f.write_char(it))
    }
}

impl fmt::Debug for Text<'_> {
    fn fmt(&self, f: &mut fmt::Formatter<'_>) -> fmt::Result {
        use fmt::Write;
        write!(f, "{}(\"", self.string_type)?;
        self.chars()
            .flat_map(char::escape_debug)
            .try_for_each(|it| f.write_char(it))?;
        f.write_str("\")")
    }
}

/// The characters of a [`Text`].
#[derive(Clone)]
pub struct Characters<'a>(RawText<'a>);

// SAFETY: characters consist of numbers and a `&[u8]`.
unsafe impl Send for Characters<'_> {}
// SAFETY: as above.
unsafe impl Sync for Characters<'_> {}

/// Prints the characters that are left.
impl fmt::Debug for Characters<'_> {
    fn fmt(&self, f: &mut fmt::Formatter<'_>) -> fmt::Result {
        f.debug_list().entries(self.clone()).finish()
    }
}

impl Iterator for Characters<'_> {
    type Item = char;

    // a character has one octet to four in UTF-8, two in a BMPString, and one in the other types
    fn size_hint(&self) -> (usize, Option<usize>) {
        match (Tag(self.0.string_type), self.0.length) {
            (Tag::UTF8_STRING, length) => (length.div_ceil(4), Some(length)),
            (Tag::BMP_STRING, length) => (length / 2, Some(length / 2)),
            (_, length) => (length, Some(length)),
        }
    }

    fn next(&mut self) -> Option<char> {
        let mut number = 0;
        let is_there = sys::der_next_character(&mut self.0, &mut number);
        is_there.then_some(char::from_u32(number)).flatten()
    }
}

impl FusedIterator for Characters<'_> {}

/// Values. Each call reads the next element, which must have `tag`, and checks its contents by the rules of DER, also
/// under BER. Strings in segments are not joined. Another tag than the type's own is that of a value with an IMPLICIT
/// tag. They fail as [`expect`](Reader::expect) does, and with [`Value`](crate::ErrorKind::Value) after the element if
/// its contents are not those of a value of the type.
impl<'a> Reader<'a> {
    /// Reads a BOOLEAN.
    pub fn boolean(&mut self, tag: Tag) -> Result<bool, Error> {
        let mut value = false;
        answer(sys::der_read_boolean(&mut self.0, tag.0, &mut value))?;
        Ok(value)
    }

    /// Reads an INTEGER from 0 to 2^64 - 1.
    pub fn uint64(&mut self, tag: Tag) -> Result<u64, Error> {
        let mut value = 0;
        answer(sys::der_read_uint64(&mut self.0, tag.0, &mut value))?;
        Ok(value)
    }

    /// Reads an INTEGER from -2^63 to 2^63 - 1, or an ENUMERATED.
    pub fn int64(&mut self, tag: Tag) -> Result<i64, Error> {
        let mut value = 0;
        answer(sys::der_read_int64(&mut self.0, tag.0, &mut value))?;
        Ok(value)
    }

    /// Reads an INTEGER of any size, as octets in two's complement, the most significant first.
    pub fn integer(&mut self, tag: Tag) -> Result<&'a [u8], Error> {
        let mut span = RawSpan::EMPTY;
        answer(sys::der_read_integer(&mut self.0, tag.0, &mut span))?;
        Ok(span.octets())
    }

    /// Reads a BIT STRING.
    pub fn bit_string(&mut self, tag: Tag) -> Result<Bits<'a>, Error> {
        let mut bits = RawBits::EMPTY;
        answer(sys::der_read_bit_string(&mut self.0, tag.0, &mut bits))?;
        Ok(bits.into())
    }

    /// Reads a NULL.
    pub fn null(&mut self, tag: Tag) -> Result<(), Error> {
        answer(sys::der_read_null(&mut self.0, tag.0))
    }

    /// Reads an OBJECT IDENTIFIER.
    pub fn oid(&mut self, tag: Tag) -> Result<Oid<'a>, Error> {
        let mut span = RawSpan::EMPTY;
        answer(sys::der_read_oid(&mut self.0, tag.0, &mut span))?;
        Ok(Oid {
            contents: span.octets(),
        })
    }

    /// Reads a string of the type that this universal tag names: UTF8String, NumericString,
    /// PrintableString, TeletexString, IA5String, VisibleString or BMPString. Another `string_type` is the error
    /// `TagNumberInvalid`. A TeletexString may have any octets.
    pub fn text(&mut self, tag: Tag, string_type: Tag) -> Result<Text<'a>, Error> {
        let mut text = RawText::EMPTY;
        answer(sys::der_read_text(&mut self.0, tag.0, string_type.0, &mut text))?;
        let span = RawSpan {
            octets: text.octets,
            length: text.length,
            borrow: text.borrow,
        };
        Ok(Text {
            octets: span.octets(),
            string_type,
        })
    }

    /// Reads a UTCTime or a GeneralizedTime, which this universal tag names, and also returns its seconds since
    /// 1970-01-01T00:00:00Z. The years of a UTCTime are 1950 to 2049. A fraction of a second is `Value`. Another
    /// `time_type` is the error `TagNumberInvalid`.
    pub fn time(&mut self, tag: Tag, time_type: Tag) -> Result<(Time, i64), Error> {
        let mut raw = RawTime::default();
        answer(sys::der_read_time(&mut self.0, tag.0, time_type.0, &mut raw))?;
        Ok((Time::from(raw), raw.seconds))
    }
}

/// Values. Each call writes one element with this tag. They fail as [`element`](Writer::element)
/// does, and with [`Value`](crate::ErrorKind::Value) if the argument is no value of the type.
impl Writer<'_> {
    /// Writes a BOOLEAN.
    pub fn boolean(&mut self, tag: Tag, value: bool) -> Result<(), Error> {
        answer(sys::der_write_boolean(&mut self.0, tag.0, value))
    }

    /// Writes an INTEGER.
    pub fn uint64(&mut self, tag: Tag, value: u64) -> Result<(), Error> {
        answer(sys::der_write_uint64(&mut self.0, tag.0, value))
    }

    /// Writes an INTEGER or an ENUMERATED.
    pub fn int64(&mut self, tag: Tag, value: i64) -> Result<(), Error> {
        answer(sys::der_write_int64(&mut self.0, tag.0, value))
    }

    /// Writes an INTEGER of any size, from its octets in two's complement, as few as possible.
    pub fn integer(&mut self, tag: Tag, octets: &[u8]) -> Result<(), Error> {
        // SAFETY: pointer and length describe a slice, and the call only reads it.
        answer(unsafe { sys::der_write_integer(&mut self.0, tag.0, octets.as_ptr(), octets.len()) })
    }

    /// Writes a BIT STRING. `Value` if `unused` is above 7, or not 0 without octets, or if one of the unused bits is 1.
    pub fn bit_string(&mut self, tag: Tag, bits: Bits<'_>) -> Result<(), Error> {
        let Bits { octets, unused } = bits;
        // SAFETY: as above.
        answer(unsafe { sys::der_write_bit_string(&mut self.0, tag.0, octets.as_ptr(), octets.len(), unused) })
    }

    /// Writes a NULL.
    pub fn null(&mut self, tag: Tag) -> Result<(), Error> {
        answer(sys::der_write_null(&mut self.0, tag.0))
    }

    /// Writes an OBJECT IDENTIFIER.
    pub fn oid_of(&mut self, tag: Tag, oid: Oid<'_>) -> Result<(), Error> {
        let contents = oid.contents();
        // SAFETY: as above.
        answer(unsafe { sys::der_write_oid(&mut self.0, tag.0, contents.as_ptr(), contents.len()) })
    }

    /// Writes an OBJECT IDENTIFIER that is given in dotted notation. `Value` if the text is not one, if a subidentifier
    /// needs more than 128 bits, or if all of them need more than 256 octets.
    pub fn oid(&mut self, tag: Tag, text: &str) -> Result<(), Error> {
        // SAFETY: as above.
        answer(unsafe { sys::der_write_oid_text(&mut self.0, tag.0, text.as_ptr(), text.len()) })
    }

    /// Writes a string of the type that this universal tag names, from its contents octets. `Value` if these are not
    /// characters of the type, or if `string_type` is not one that [`Reader::text`] names.
    pub fn text(&mut self, tag: Tag, string_type: Tag, octets: &[u8]) -> Result<(), Error> {
        // SAFETY: as above.
        answer(unsafe { sys::der_write_text(&mut self.0, tag.0, string_type.0, octets.as_ptr(), octets.len()) })
    }

    /// Writes a time of the type that this universal tag names, UTCTime or GeneralizedTime. `Value` for another type, if
    /// there is no such time, and if the year is not from 0 to 9999, or from 1950 to 2049 for a UTCTime.
    pub fn time(&mut self, tag: Tag, time_type: Tag, time: Time) -> Result<(), Error> {
        answer(sys::der_write_time(
            &mut self.0,
            tag.0,
            time_type.0,
            &RawTime::from(time),
        ))
    }

    /// Writes a time that is given in seconds since 1970-01-01T00:00:00Z. Fails as [`time`](Self::time) does.
    pub fn time_seconds(&mut self, tag: Tag, time_type: Tag, seconds: i64) -> Result<(), Error> {
        answer(sys::der_write_time_seconds(&mut self.0, tag.0, time_type.0, seconds))
    }
}
