//! Names of subjects and issuers.
use crate::certificate::Any;
use crate::error::{Error, answer};
use crate::octets::Hex;
use crate::oid::Oid;
use crate::reader::Reader;
use crate::sys::{self, RawAttribute};
use crate::tag::Tag;
use crate::value::Text;
use crate::writer::Writer;
use core::fmt::{self, Write};
use core::iter::FusedIterator;

/// An attribute of a name. Its value is not checked.
#[derive(Clone, Copy, PartialEq, Eq, Hash, Debug)]
pub struct Attribute<'a> {
    /// The type of the attribute.
    pub identifier: Oid<'a>,
    /// The value.
    pub value: Any<'a>,
}

impl<'a> Attribute<'a> {
    /// The characters of the value; `None` if its type is not one that [`Reader::text`] names, or if the octets are no
    /// characters, such as wrong UTF-8. That they are in the alphabet of the type is not checked.
    pub fn text(&self) -> Option<Text<'a>> {
        Text::of(self.value.tag, self.value.contents)
    }
}

/// A name (RFC 5280, 4.1.2.4): a list of levels, from the root of the directory down. Each level has attributes.
#[derive(Clone, Copy, PartialEq, Eq, Hash)]
pub struct Name<'a> {
    pub(crate) contents: &'a [u8],
}

impl<'a> Name<'a> {
    /// The name that these octets are in DER.
    ///
    /// # Errors
    ///
    /// The first step of reading that fails, at its position. The octets must be one name, and no more.
    pub fn from_der(octets: &'a [u8]) -> Result<Self, Error> {
        let mut levels = crate::items::list(octets)?;
        let contents = levels.rest();
        while !levels.is_finished() {
            check_level(levels.enter(Tag::SET)?)?;
        }
        Ok(Name { contents })
    }

    /// The text of the name, as RFC 4514 writes it: `CN=example.org,O=Example,C=DE`. It is written into `space`, which
    /// needs room for one octet more. A hidden character ([`is_hidden`](crate::is_hidden)) is written as a backslash and
    /// two hexadecimal digits for each octet in UTF-8, as `\E2\80\AE` for U+202E.
    ///
    /// The text is for people. Different names may have one text, as those whose strings have different types. Do not
    /// compare the text, or its CN, with the name of a host (RFC 9525, 2).
    ///
    /// It is not the text of `Display`, which needs no space: `Display` also escapes `=`, has only the short names of
    /// RFC 4514, 3, writes `STREET` for `street` and the octets of an encoding in lower case, and prints the characters of
    /// a string that are not in the alphabet of its type. Do not compare the two texts.
    ///
    /// # Errors
    ///
    /// [`Overlength`](crate::ErrorKind::Overlength) if there is too little space.
    pub fn to_text<'s>(&self, space: &'s mut [u8]) -> Result<&'s str, Error> {
        let Name { contents } = *self;
        let mut count = 0;
        // SAFETY: pointers and lengths describe slices, and the call writes the second alone.
        answer(unsafe {
            sys::der_name_text(
                contents.as_ptr(),
                contents.len(),
                space.as_mut_ptr(),
                space.len(),
                &mut count,
            )
        })?;
        Ok(core::str::from_utf8(&space[..count]).unwrap_or_default())
    }

    /// All attributes, from the first level to the last. The iterator does not show where a level ends.
    pub fn attributes(&self) -> Attributes<'a> {
        Attributes {
            levels: Reader::der(self.contents),
            level: Reader::der(&[]),
        }
    }
}

/// All attributes, from the first level to the last.
impl<'a> IntoIterator for Name<'a> {
    type Item = Result<Attribute<'a>, Error>;
    type IntoIter = Attributes<'a>;

    fn into_iter(self) -> Attributes<'a> {
        self.attributes()
    }
}

/// One level of a name. Added to the name of the issuer of a revocation list, it names where that list is found (RFC
/// 5280, 4.2.1.13).
#[derive(Clone, Copy, PartialEq, Eq, Hash)]
pub struct RelativeName<'a> {
    pub(crate) contents: &'a [u8],
}

impl<'a> RelativeName<'a> {
    /// The attributes of the level.
    pub fn attributes(&self) -> Attributes<'a> {
        Attributes {
            levels: Reader::der(&[]),
            level: Reader::der(self.contents),
        }
    }
}

impl fmt::Debug for RelativeName<'_> {
    fn fmt(&self, f: &mut fmt::Formatter<'_>) -> fmt::Result {
        f.debug_list().entries(self.attributes()).finish()
    }
}

/// How many parts the levels of a name are divided into, to be printed from the last to the first.
const PARTS: usize = 32;

/// Levels of a name, from the place of a reader on.
#[derive(Clone, Copy)]
struct Levels<'a> {
    reader: Reader<'a>,
    count: usize,
}

impl<'a> Levels<'a> {
    /// The levels of a name up to the first that cannot be read.
    fn of(name: Name<'a>) -> Option<Self> {
        let reader = Reader::der(name.contents).ok()?;
        let (mut ahead, mut count) = (reader, 0);
        while !ahead.is_finished() && ahead.enter(Tag::SET).is_ok() {
            count += 1;
        }
        Some(Levels { reader, count })
    }

    /// Prints the levels, the last first. They are divided into parts, whose places one walk finds: so the
    /// time is that of as many walks as a number of levels has digits to the base 32.
    fn write(mut self, f: &mut fmt::Formatter<'_>, is_first: &mut bool) -> fmt::Result {
        if self.count <= 1 {
            return match self.reader.enter(Tag::SET) {
                Ok(level) if self.count == 1 => write_level(f, level, is_first),
                _ => Ok(()),
            };
        }
        let size = self.count.div_ceil(PARTS);
        let mut parts = [Levels { count: 0, ..self }; PARTS];
        for part in &mut parts {
            let count = size.min(self.count);
            *part = Levels { count, ..self };
            for _ in 0..count {
                let _level = self.reader.enter(Tag::SET);
            }
            self.count -= count;
        }
        parts.into_iter().rev().try_for_each(|it| it.write(f, is_first))
    }
}

/// Prints a level, after a comma if it is not the first.
fn write_level(f: &mut fmt::Formatter<'_>, level: Reader<'_>, is_first: &mut bool) -> fmt::Result {
    if !core::mem::replace(is_first, false) {
        f.write_char(',')?;
    }
    for (place, attribute) in attributes_of(level).enumerate() {
        if place > 0 {
            f.write_char('+')?;
        }
        write_attribute(f, &attribute)?;
    }
    Ok(())
}

/// The attributes of a [`Name`]; the iterator ends after an error.
#[derive(Clone, Debug)]
pub struct Attributes<'a> {
    levels: Result<Reader<'a>, Error>,
    level: Result<Reader<'a>, Error>,
}

impl<'a> Iterator for Attributes<'a> {
    type Item = Result<Attribute<'a>, Error>;

    fn next(&mut self) -> Option<Self::Item> {
        loop {
            if let Some(found) = crate::items::next(&mut self.level, next_attribute) {
                if found.is_err() {
                    self.levels = Reader::der(&[]);
                }
                return Some(found);
            }
            match crate::items::next(&mut self.levels, |it| it.enter(Tag::SET))? {
                Ok(level) => self.level = Ok(level),
                Err(error) => return Some(Err(error)),
            }
        }
    }
}

impl FusedIterator for Attributes<'_> {}

/// Reads a level to its end: attributes in the order of a SET OF (X.690 11.6).
fn check_level(mut level: Reader<'_>) -> Result<(), Error> {
    let mut last: &[u8] = &[];
    while !level.is_finished() {
        let (place, rest) = (level.position(), level.rest());
        next_attribute(&mut level)?;
        let attribute = &rest[..level.position() - place];
        if attribute < last {
            return Err(Error::of_order(place));
        }
        last = attribute;
    }
    Ok(())
}

fn next_attribute<'a>(reader: &mut Reader<'a>) -> Result<Attribute<'a>, Error> {
    let mut raw = RawAttribute::EMPTY;
    answer(sys::der_next_attribute(&mut reader.0, &mut raw))?;
    Ok(Attribute {
        identifier: Oid {
            contents: raw.identifier.octets(),
        },
        value: Any {
            tag: Tag(raw.value.tag),
            contents: raw.value.contents.octets(),
        },
    })
}

/// The short names of attribute types (RFC 4514, 3).
const SHORT_NAMES: [(&[u8], &str); 9] = [
    (b"\x55\x04\x03", "CN"),
    (b"\x55\x04\x07", "L"),
    (b"\x55\x04\x08", "ST"),
    (b"\x55\x04\x0A", "O"),
    (b"\x55\x04\x0B", "OU"),
    (b"\x55\x04\x06", "C"),
    (b"\x55\x04\x09", "STREET"),
    (b"\x09\x92\x26\x89\x93\xF2\x2C\x64\x01\x19", "DC"),
    (b"\x09\x92\x26\x89\x93\xF2\x2C\x64\x01\x01", "UID"),
];

/// Prints the name as RFC 4514 does: the last level first, special characters escaped. Hidden characters
/// ([`is_hidden`](crate::is_hidden)) are escaped too. The value of a type without a short name, or one that is no string, is
/// its encoding in hexadecimal, after a `#`.
impl fmt::Display for Name<'_> {
    fn fmt(&self, f: &mut fmt::Formatter<'_>) -> fmt::Result {
        match Levels::of(*self) {
            Some(levels) => levels.write(f, &mut true),
            None => Ok(()),
        }
    }
}

/// The attributes of one level, up to an error.
fn attributes_of<'a>(level: Reader<'a>) -> impl Iterator<Item = Attribute<'a>> {
    let mut level = Ok(level);
    core::iter::from_fn(move || crate::items::next(&mut level, next_attribute)?.ok())
}

fn write_attribute(f: &mut fmt::Formatter<'_>, attribute: &Attribute<'_>) -> fmt::Result {
    let known = SHORT_NAMES
        .iter()
        .find(|(octets, _)| *octets == attribute.identifier.contents);
    match (known, attribute.text()) {
        (Some((_, name)), Some(text)) => {
            write!(f, "{name}=")?;
            write_escaped(f, &text)
        }
        (Some((_, name)), None) => {
            write!(f, "{name}=")?;
            write_encoding(f, &attribute.value)
        }
        (None, _) => {
            write!(f, "{}=", attribute.identifier)?;
            write_encoding(f, &attribute.value)
        }
    }
}

/// Writes the encoding of a value as RFC 4514, 2.4 has it.
fn write_encoding(f: &mut fmt::Formatter<'_>, value: &Any<'_>) -> fmt::Result {
    let mut space = [0; 12];
    let mut writer = Writer::new(&mut space);
    let count = u32::try_from(value.contents.len()).map_err(|_| fmt::Error)?;
    writer.header(value.tag, count).map_err(|_| fmt::Error)?;
    let header = writer.finish().map_err(|_| fmt::Error)?;
    write!(f, "#{:?}{:?}", Hex(header), Hex(value.contents))
}

/// Writes a text with the escapes of RFC 4514, 2.4.
fn write_escaped(f: &mut fmt::Formatter<'_>, text: &Text<'_>) -> fmt::Result {
    let last = text.chars().count().saturating_sub(1);
    for (at, it) in text.chars().enumerate() {
        let is_at_edge = it == ' ' && (at == 0 || at == last) || it == '#' && at == 0;
        if is_at_edge || matches!(it, ',' | '+' | '"' | '\\' | '<' | '>' | ';' | '=') {
            write!(f, "\\{it}")?;
        } else if is_hidden(it) {
            let mut space = [0; 4];
            it.encode_utf8(&mut space)
                .bytes()
                .try_for_each(|octet| write!(f, "\\{octet:02X}"))?;
        } else {
            f.write_char(it)?;
        }
    }
    Ok(())
}

/// Whether a reader of a text would not see a character as it is: a control character, an invisible one, or one that turns
/// the text around it. In Unicode these are the categories Cc, Cf, Zl and Zp, the characters with
/// Default_Ignorable_Code_Point, and U+2800. Names are printed with these characters escaped. Escape them before you print
/// other texts of a certificate.
pub fn is_hidden(character: char) -> bool {
    sys::der_is_hidden(u32::from(character))
}

impl fmt::Debug for Name<'_> {
    fn fmt(&self, f: &mut fmt::Formatter<'_>) -> fmt::Result {
        write!(f, "Name({self})")
    }
}
