//! Extensions.
use crate::error::{Error, answer};
use crate::general_name::GeneralNames;
use crate::items::{ItemIter, Listed, contents_of};
use crate::list::{AccessDescription, DistributionPoint, Items};
use crate::octets::Hex;
use crate::oid::Oid;
use crate::reader::Reader;
use crate::sys::{self, RawAuthorityKey, RawConstraints, RawError, RawExtension, RawFound, RawNames, RawUsage};
use core::fmt;

/// An extension (RFC 5280, 4.2). Its value is not checked.
#[derive(Clone, Copy, PartialEq, Eq, Hash)]
pub struct Extension<'a> {
    /// The type of the extension.
    pub identifier: Oid<'a>,
    /// The value: the contents of the OCTET STRING.
    pub value: &'a [u8],
    /// Whether an application that does not process the extension must reject the certificate.
    pub critical: bool,
}

impl fmt::Debug for Extension<'_> {
    fn fmt(&self, f: &mut fmt::Formatter<'_>) -> fmt::Result {
        f.debug_struct("Extension")
            .field("identifier", &self.identifier)
            .field("value", &Hex(self.value))
            .field("critical", &self.critical)
            .finish()
    }
}

/// What keyUsage says (RFC 5280, 4.2.1.3).
#[derive(Clone, Copy, PartialEq, Eq, Hash, Debug)]
pub struct KeyUsage {
    /// Bit n of the extension as `1 << n`: digitalSignature is 1, keyCertSign is 32. Bits from 16 on are left out.
    pub bits: u16,
    /// Whether the extension is critical.
    pub critical: bool,
}

impl KeyUsage {
    fn of(raw: &RawUsage) -> Self {
        KeyUsage {
            bits: raw.bits,
            critical: raw.critical,
        }
    }
}

/// What basicConstraints says (RFC 5280, 4.2.1.9).
#[derive(Clone, Copy, PartialEq, Eq, Hash, Debug)]
pub struct BasicConstraints {
    /// Whether the subject may issue certificates.
    pub is_authority: bool,
    /// How many certificates of authorities may follow in a chain, if that is limited.
    pub path_length: Option<u64>,
    /// Whether the extension is critical.
    pub critical: bool,
}

impl BasicConstraints {
    fn of(raw: &RawConstraints) -> Self {
        BasicConstraints {
            is_authority: raw.is_authority,
            path_length: raw.has_path_length.then_some(raw.path_length),
            critical: raw.critical,
        }
    }
}

/// What authorityKeyIdentifier says (RFC 5280, 4.2.1.1): which key of the issuer signed the certificate. That the
/// issuer and the serial number come together is not checked.
#[derive(Clone, Copy, PartialEq, Eq, Hash)]
pub struct AuthorityKeyIdentifier<'a> {
    /// The identifier of the issuer's key.
    pub key_identifier: Option<&'a [u8]>,
    /// The names of the issuer of the issuer's certificate.
    pub issuer: Option<GeneralNames<'a>>,
    /// The serial number of the issuer's certificate, as the octets of an INTEGER.
    pub serial_number: Option<&'a [u8]>,
    /// Whether the extension is critical.
    pub critical: bool,
}

impl fmt::Debug for AuthorityKeyIdentifier<'_> {
    fn fmt(&self, f: &mut fmt::Formatter<'_>) -> fmt::Result {
        f.debug_struct("AuthorityKeyIdentifier")
            .field("key_identifier", &self.key_identifier.map(Hex))
            .field("issuer", &self.issuer)
            .field("serial_number", &self.serial_number.map(Hex))
            .field("critical", &self.critical)
            .finish()
    }
}

/// The extensions of a certificate, a list that is iterated.
#[derive(Clone, Copy, PartialEq, Eq, Hash)]
pub struct Extensions<'a> {
    pub(crate) contents: &'a [u8],
}

impl<'a> Extensions<'a> {
    /// The extensions that these octets are in DER, as an extensionRequest has them.
    ///
    /// # Errors
    ///
    /// The first step of reading that fails, at its position. The octets must be one list, and no more.
    pub fn from_der(octets: &'a [u8]) -> Result<Self, Error> {
        let contents = contents_of::<Extension<'a>>(octets)?;
        Ok(Extensions { contents })
    }

    /// The keyUsage extension, if it is there.
    ///
    /// # Errors
    ///
    /// [`Duplicate`](crate::ErrorKind::Duplicate) if it is there more than once; the error of its
    /// value, whose position counts from the start of that value.
    pub fn key_usage(&self) -> Result<Option<KeyUsage>, Error> {
        let mut raw = RawUsage::default();
        // SAFETY: pointer and length describe a slice, and the call only reads it.
        answer(unsafe { sys::der_key_usage(self.contents.as_ptr(), self.contents.len(), &mut raw) })?;
        Ok(raw.present.then(|| KeyUsage::of(&raw)))
    }

    /// The keyUsage extension, if it is there, and whether its value is DER. The value may also be BER: the bits may end
    /// in zeros, as those of some roots do. Fails as [`key_usage`](Self::key_usage) does, but with the error under BER.
    pub fn key_usage_lenient(&self) -> Result<Option<(KeyUsage, bool)>, Error> {
        let (mut raw, mut is_der) = (RawUsage::default(), false);
        // SAFETY: as above.
        answer(unsafe {
            sys::der_key_usage_lenient(self.contents.as_ptr(), self.contents.len(), &mut raw, &mut is_der)
        })?;
        Ok(raw.present.then(|| (KeyUsage::of(&raw), is_der)))
    }

    /// The basicConstraints extension, if it is there. Fails as [`key_usage`](Self::key_usage) does, and with `Value`,
    /// without a position, if the limit is negative or above 2^64 - 1.
    pub fn basic_constraints(&self) -> Result<Option<BasicConstraints>, Error> {
        let mut raw = RawConstraints::default();
        // SAFETY: as above.
        answer(unsafe { sys::der_basic_constraints(self.contents.as_ptr(), self.contents.len(), &mut raw) })?;
        Ok(raw.present.then(|| BasicConstraints::of(&raw)))
    }

    /// The basicConstraints extension, if it is there, and whether its value is DER. The value may also be BER, for
    /// example with a field that has its default value. Fails as [`basic_constraints`](Self::basic_constraints) does, but
    /// with the error under BER.
    pub fn basic_constraints_lenient(&self) -> Result<Option<(BasicConstraints, bool)>, Error> {
        let (mut raw, mut is_der) = (RawConstraints::default(), false);
        // SAFETY: as above.
        answer(unsafe {
            sys::der_basic_constraints_lenient(self.contents.as_ptr(), self.contents.len(), &mut raw, &mut is_der)
        })?;
        Ok(raw.present.then(|| (BasicConstraints::of(&raw), is_der)))
    }

    /// The names of the subjectAltName extension, if it is there. Fails as
    /// [`key_usage`](Self::key_usage) does.
    pub fn subject_alternative_name(&self) -> Result<Option<GeneralNames<'a>>, Error> {
        let mut raw = RawNames::EMPTY;
        // SAFETY: pointer and length describe a slice, which the names borrow for 'a.
        answer(unsafe { sys::der_subject_alternative_name(self.contents.as_ptr(), self.contents.len(), &mut raw) })?;
        Ok(raw.present.then(|| GeneralNames {
            contents: raw.names.octets(),
        }))
    }

    /// The purposes of the extKeyUsage extension, if it is there. Fails as [`key_usage`](Self::key_usage) does.
    pub fn extended_key_usage(&self) -> Result<Option<Items<'a, Oid<'a>>>, Error> {
        Ok(self.find(sys::der_extended_key_usage)?.map(Items::of))
    }

    /// The octets of the subjectKeyIdentifier extension, if it is there. They are compared with no key. Fails as
    /// [`key_usage`](Self::key_usage) does.
    pub fn subject_key_identifier(&self) -> Result<Option<&'a [u8]>, Error> {
        Ok(self
            .find(sys::der_subject_key_identifier)?
            .map(|raw| raw.contents.octets()))
    }

    /// The authorityKeyIdentifier extension, if it is there. Fails as [`key_usage`](Self::key_usage) does.
    pub fn authority_key_identifier(&self) -> Result<Option<AuthorityKeyIdentifier<'a>>, Error> {
        let mut raw = RawAuthorityKey::EMPTY;
        // SAFETY: pointer and length describe a slice, which the fields borrow for 'a.
        answer(unsafe { sys::der_authority_key_identifier(self.contents.as_ptr(), self.contents.len(), &mut raw) })?;
        Ok(raw.present.then(|| AuthorityKeyIdentifier {
            key_identifier: raw.has_key_identifier.then(|| raw.key_identifier.octets()),
            issuer: raw.has_issuer.then(|| GeneralNames {
                contents: raw.issuer.octets(),
            }),
            serial_number: raw.has_serial_number.then(|| raw.serial_number.octets()),
            critical: raw.critical,
        }))
    }

    /// The authorityInfoAccess extension, if it is there: where more about the issuer is found. Fails as
    /// [`key_usage`](Self::key_usage) does.
    pub fn authority_information_access(&self) -> Result<Option<Items<'a, AccessDescription<'a>>>, Error> {
        Ok(self.find(sys::der_authority_information_access)?.map(Items::of))
    }

    /// The cRLDistributionPoints extension, if it is there: where revocation lists are found. Fails as
    /// [`key_usage`](Self::key_usage) does.
    pub fn distribution_points(&self) -> Result<Option<Items<'a, DistributionPoint<'a>>>, Error> {
        Ok(self.find(sys::der_distribution_points)?.map(Items::of))
    }

    /// The contents of the extension that a call finds.
    fn find(&self, call: Find) -> Result<Option<RawFound<'a>>, Error> {
        let mut raw = RawFound::EMPTY;
        // SAFETY: pointer and length describe a slice, which the contents borrow for 'a.
        answer(unsafe { call(self.contents.as_ptr(), self.contents.len(), &mut raw) })?;
        Ok(raw.present.then_some(raw))
    }
}

/// A call that looks an extension up in a list, which a pointer and a length describe.
type Find = unsafe extern "C" fn(*const u8, usize, &mut RawFound<'_>) -> RawError;

impl fmt::Debug for Extensions<'_> {
    fn fmt(&self, f: &mut fmt::Formatter<'_>) -> fmt::Result {
        f.debug_list().entries(*self).finish()
    }
}

impl<'a> Extensions<'a> {
    /// The items, in order.
    pub fn iter(&self) -> ExtensionIter<'a> {
        self.into_iter()
    }
}

impl<'a> IntoIterator for &Extensions<'a> {
    type Item = Result<Extension<'a>, Error>;
    type IntoIter = ExtensionIter<'a>;

    fn into_iter(self) -> ExtensionIter<'a> {
        (*self).into_iter()
    }
}

impl<'a> IntoIterator for Extensions<'a> {
    type Item = Result<Extension<'a>, Error>;
    type IntoIter = ExtensionIter<'a>;

    fn into_iter(self) -> ExtensionIter<'a> {
        ExtensionIter::of(self.contents)
    }
}

/// The extensions of a list, in order; the iterator ends after an error.
pub type ExtensionIter<'a> = ItemIter<'a, Extension<'a>>;

impl<'a> Listed<'a> for Extension<'a> {
    fn read(reader: &mut Reader<'a>) -> Result<Self, Error> {
        let mut raw = RawExtension::EMPTY;
        answer(sys::der_next_extension(&mut reader.0, &mut raw))?;
        Ok(Extension {
            identifier: Oid {
                contents: raw.identifier.octets(),
            },
            value: raw.value.octets(),
            critical: raw.critical,
        })
    }
}
