//! General names.
use crate::certificate::Any;
use crate::error::{Error, answer};
use crate::items::{ItemIter, Listed, contents_of};
use crate::name::Name;
use crate::oid::Oid;
use crate::reader::Reader;
use crate::sys::{self, RawGeneralName};
use crate::tag::Tag;
use core::fmt;

/// A general name (RFC 5280, 4.2.1.6). The characters of names are those of an IA5String.
#[derive(Clone, Copy, PartialEq, Eq, Hash, Debug)]
#[non_exhaustive]
pub enum GeneralName<'a> {
    /// An otherName: the OBJECT IDENTIFIER of its form, and its value.
    Other(Oid<'a>, Any<'a>),
    /// A mail address.
    Mail(&'a str),
    /// A DNS name.
    Dns(&'a str),
    /// The contents octets of an x400Address, which are not checked.
    X400(&'a [u8]),
    /// A name of the directory.
    Directory(Name<'a>),
    /// An ediPartyName, whose fields are not given.
    EdiParty,
    /// A URI.
    Uri(&'a str),
    /// The octets of an IP address: 4 or 16, if the certificate is right.
    Ip(&'a [u8]),
    /// A registered OBJECT IDENTIFIER.
    Registered(Oid<'a>),
}

/// A list of general names.
#[derive(Clone, Copy, PartialEq, Eq, Hash)]
pub struct GeneralNames<'a> {
    pub(crate) contents: &'a [u8],
}

impl<'a> GeneralNames<'a> {
    /// The general names that these octets are in DER, as the value of a subjectAltName is.
    ///
    /// # Errors
    ///
    /// The first step of reading that fails, at its position. The octets must be one list, and no more.
    pub fn from_der(octets: &'a [u8]) -> Result<Self, Error> {
        let contents = contents_of::<GeneralName<'a>>(octets)?;
        Ok(GeneralNames { contents })
    }
}

impl fmt::Debug for GeneralNames<'_> {
    fn fmt(&self, f: &mut fmt::Formatter<'_>) -> fmt::Result {
        f.debug_list().entries(*self).finish()
    }
}

impl<'a> GeneralNames<'a> {
    /// The items, in order.
    pub fn iter(&self) -> GeneralNameIter<'a> {
        self.into_iter()
    }
}

impl<'a> IntoIterator for &GeneralNames<'a> {
    type Item = Result<GeneralName<'a>, Error>;
    type IntoIter = GeneralNameIter<'a>;

    fn into_iter(self) -> GeneralNameIter<'a> {
        (*self).into_iter()
    }
}

impl<'a> IntoIterator for GeneralNames<'a> {
    type Item = Result<GeneralName<'a>, Error>;
    type IntoIter = GeneralNameIter<'a>;

    fn into_iter(self) -> GeneralNameIter<'a> {
        GeneralNameIter::of(self.contents)
    }
}

/// The names of a list, in order; the iterator ends after an error.
pub type GeneralNameIter<'a> = ItemIter<'a, GeneralName<'a>>;

impl<'a> Listed<'a> for GeneralName<'a> {
    fn read(reader: &mut Reader<'a>) -> Result<Self, Error> {
        let mut raw = RawGeneralName::EMPTY;
        answer(sys::der_next_general_name(&mut reader.0, &mut raw))?;
        Ok(GeneralName::of(&raw))
    }
}

impl<'a> GeneralName<'a> {
    pub(crate) fn of(raw: &RawGeneralName<'a>) -> Self {
        let contents = raw.contents.octets();
        // the call has seen that these are characters of 7 bits
        let text = core::str::from_utf8(contents).unwrap_or_default();
        match raw.kind {
            0 => GeneralName::Other(
                Oid {
                    contents: raw.identifier.octets(),
                },
                Any {
                    tag: Tag(raw.value.tag),
                    contents: raw.value.contents.octets(),
                },
            ),
            1 => GeneralName::Mail(text),
            2 => GeneralName::Dns(text),
            3 => GeneralName::X400(contents),
            4 => GeneralName::Directory(Name { contents }),
            5 => GeneralName::EdiParty,
            6 => GeneralName::Uri(text),
            7 => GeneralName::Ip(contents),
            _ => GeneralName::Registered(Oid { contents }),
        }
    }
}
