//! Revocation lists.
use crate::certificate::Algorithm;
use crate::error::{Error, answer};
use crate::extension::Extensions;
use crate::items::{ItemIter, Listed};
use crate::name::Name;
use crate::octets::Hex;
use crate::reader::Reader;
use crate::sys::{self, RawRevocationList, RawRevoked};
use crate::value::Bits;
use core::fmt;

/// A certificate revocation list (RFC 5280, 5.1), borrowed from its octets. Nothing about it is
/// validated.
#[derive(Clone, Copy, PartialEq, Eq, Hash, Debug)]
pub struct RevocationList<'a> {
    /// The version: 1, 2 or 3; 1 if it is absent.
    pub version: u8,
    /// The name of the issuer.
    pub issuer: Name<'a>,
    /// When the list was issued, in seconds since 1970-01-01T00:00:00Z.
    pub this_update: i64,
    /// When the next list will be issued at the latest, if that is known.
    pub next_update: Option<i64>,
    /// The entries.
    pub entries: Entries<'a>,
    /// The extensions of the list.
    pub extensions: Extensions<'a>,
    /// The algorithm of the signature, as the signed part names it.
    pub signed_algorithm: Algorithm<'a>,
    /// The algorithm of the signature, as it stands outside the signed part.
    pub signature_algorithm: Algorithm<'a>,
    /// The signature. It is not verified.
    pub signature: Bits<'a>,
    /// All octets of the part that the signature covers.
    pub signed_part: &'a [u8],
}

impl<'a> RevocationList<'a> {
    /// The list that these octets are in DER.
    ///
    /// # Errors
    ///
    /// The first step of reading that fails, at its position. The octets must be one list, and no
    /// more.
    pub fn from_der(octets: &'a [u8]) -> Result<Self, Error> {
        let mut raw = RawRevocationList::EMPTY;
        // SAFETY: pointer and length describe a slice, which the list borrows for 'a.
        answer(unsafe { sys::der_revocation_list_read(octets.as_ptr(), octets.len(), &mut raw) })?;
        Ok(RevocationList {
            version: raw.version,
            issuer: Name {
                contents: raw.issuer.octets(),
            },
            this_update: raw.this_update,
            next_update: raw.has_next_update.then_some(raw.next_update),
            entries: Entries {
                contents: raw.entries.octets(),
            },
            extensions: Extensions {
                contents: raw.extensions.octets(),
            },
            signed_algorithm: (&raw.signed_algorithm).into(),
            signature_algorithm: (&raw.signature_algorithm).into(),
            signature: raw.signature.into(),
            signed_part: raw.signed_part.octets(),
        })
    }
}

/// An entry of a revocation list (RFC 5280, 5.1.2.6).
#[derive(Clone, Copy, PartialEq, Eq, Hash)]
pub struct Revoked<'a> {
    /// The serial number of the certificate, as the octets of an INTEGER.
    pub serial_number: &'a [u8],
    /// When it was revoked, in seconds since 1970-01-01T00:00:00Z.
    pub revocation_date: i64,
    /// The extensions of the entry.
    pub extensions: Extensions<'a>,
}

impl fmt::Debug for Revoked<'_> {
    fn fmt(&self, f: &mut fmt::Formatter<'_>) -> fmt::Result {
        f.debug_struct("Revoked")
            .field("serial_number", &Hex(self.serial_number))
            .field("revocation_date", &self.revocation_date)
            .field("extensions", &self.extensions)
            .finish()
    }
}

/// The entries of a revocation list, which are iterated.
#[derive(Clone, Copy, PartialEq, Eq, Hash)]
pub struct Entries<'a> {
    contents: &'a [u8],
}

impl fmt::Debug for Entries<'_> {
    fn fmt(&self, f: &mut fmt::Formatter<'_>) -> fmt::Result {
        f.debug_list().entries(*self).finish()
    }
}

impl<'a> Entries<'a> {
    /// The items, in order.
    pub fn iter(&self) -> EntryIter<'a> {
        self.into_iter()
    }
}

impl<'a> IntoIterator for &Entries<'a> {
    type Item = Result<Revoked<'a>, Error>;
    type IntoIter = EntryIter<'a>;

    fn into_iter(self) -> EntryIter<'a> {
        (*self).into_iter()
    }
}

impl<'a> IntoIterator for Entries<'a> {
    type Item = Result<Revoked<'a>, Error>;
    type IntoIter = EntryIter<'a>;

    fn into_iter(self) -> EntryIter<'a> {
        EntryIter::of(self.contents)
    }
}

/// The entries of a list, in order; the iterator ends after an error.
pub type EntryIter<'a> = ItemIter<'a, Revoked<'a>>;

impl<'a> Listed<'a> for Revoked<'a> {
    fn read(reader: &mut Reader<'a>) -> Result<Self, Error> {
        let mut raw = RawRevoked::EMPTY;
        answer(sys::der_next_revoked(&mut reader.0, &mut raw))?;
        Ok(Revoked {
            serial_number: raw.serial_number.octets(),
            revocation_date: raw.revocation_date,
            extensions: Extensions {
                contents: raw.extensions.octets(),
            },
        })
    }
}
