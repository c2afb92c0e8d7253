//! Extensions whose value is a list.
use crate::error::{Error, answer};
use crate::general_name::{GeneralName, GeneralNames};
use crate::items::{ItemIter, Listed};
use crate::name::RelativeName;
use crate::oid::Oid;
use crate::reader::Reader;
use crate::sys::{self, RawAccessDescription, RawDistributionPoint, RawFound, RawSpan};
use core::fmt;
use core::marker::PhantomData;

/// The items of an extension whose value is a list. That there is at least one is not checked.
#[derive(Clone, Copy, PartialEq, Eq, Hash)]
pub struct Items<'a, T> {
    contents: &'a [u8],
    /// Whether the extension is critical.
    pub critical: bool,
    items: PhantomData<T>,
}

impl<'a, T> Items<'a, T> {
    /// The items of a list that a call has found.
    pub(crate) fn of(raw: RawFound<'a>) -> Self {
        Items {
            contents: raw.contents.octets(),
            critical: raw.critical,
            items: PhantomData,
        }
    }
}

impl<'a, T: Listed<'a> + fmt::Debug + Copy> fmt::Debug for Items<'a, T> {
    fn fmt(&self, f: &mut fmt::Formatter<'_>) -> fmt::Result {
        f.debug_list().entries(*self).finish()
    }
}

impl<'a, T: Listed<'a>> IntoIterator for Items<'a, T> {
    type Item = Result<T, Error>;
    type IntoIter = ItemIter<'a, T>;

    fn into_iter(self) -> ItemIter<'a, T> {
        ItemIter::of(self.contents)
    }
}

/// A purpose of a key.
impl<'a> Listed<'a> for Oid<'a> {
    fn read(reader: &mut Reader<'a>) -> Result<Self, Error> {
        let mut raw = RawSpan::EMPTY;
        answer(sys::der_next_key_purpose(&mut reader.0, &mut raw))?;
        Ok(Oid { contents: raw.octets() })
    }
}

/// Which information is found, and where (RFC 5280, 4.2.2.1).
#[derive(Clone, Copy, PartialEq, Eq, Hash, Debug)]
pub struct AccessDescription<'a> {
    /// Which information: `1.3.6.1.5.5.7.48.1` for OCSP, `1.3.6.1.5.5.7.48.2` for certificates of the issuer.
    pub method: Oid<'a>,
    /// Where it is found.
    pub location: GeneralName<'a>,
}

impl<'a> Listed<'a> for AccessDescription<'a> {
    fn read(reader: &mut Reader<'a>) -> Result<Self, Error> {
        let mut raw = RawAccessDescription::EMPTY;
        answer(sys::der_next_access_description(&mut reader.0, &mut raw))?;
        Ok(AccessDescription {
            method: Oid {
                contents: raw.method.octets(),
            },
            location: GeneralName::of(&raw.location),
        })
    }
}

/// Where a revocation list is found (RFC 5280, 4.2.1.13). The place is a list of names or a level, or it is absent.
#[derive(Clone, Copy, PartialEq, Eq, Hash, Debug)]
pub struct DistributionPoint<'a> {
    /// The names of the place; most are URIs.
    pub full_name: Option<GeneralNames<'a>>,
    /// The level of the place below the name of the issuer of the list.
    pub relative_name: Option<RelativeName<'a>>,
    /// The reasons that the list covers, if it does not cover all: bit n as `1 << n`; keyCompromise is 2. Bits from 16 on
    /// are left out.
    pub reasons: Option<u16>,
    /// The names of the issuer of the list, if it is not the issuer of the certificate.
    pub list_issuer: Option<GeneralNames<'a>>,
}

impl<'a> Listed<'a> for DistributionPoint<'a> {
    fn read(reader: &mut Reader<'a>) -> Result<Self, Error> {
        let mut raw = RawDistributionPoint::EMPTY;
        answer(sys::der_next_distribution_point(&mut reader.0, &mut raw))?;
        Ok(DistributionPoint {
            full_name: raw.has_full_name.then(|| GeneralNames {
                contents: raw.full_name.octets(),
            }),
            relative_name: raw.has_relative_name.then(|| RelativeName {
                contents: raw.relative_name.octets(),
            }),
            reasons: raw.has_reasons.then_some(raw.reasons),
            list_issuer: raw.has_list_issuer.then(|| GeneralNames {
                contents: raw.list_issuer.octets(),
            }),
        })
    }
}
