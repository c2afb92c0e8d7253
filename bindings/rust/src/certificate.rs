//! Certificates.
use crate::error::{Error, answer};
use crate::extension::Extensions;
use crate::name::Name;
use crate::oid::Oid;
use crate::sys::{self, RawAlgorithm, RawAny, RawCertificate, RawPublicKey};
use crate::tag::Tag;
use crate::value::Bits;
use core::fmt;
use core::hash::{Hash, Hasher};

/// An element of any tag, without its header. Its contents are not checked.
#[derive(Clone, Copy, PartialEq, Eq, Hash, Debug)]
pub struct Any<'a> {
    /// The tag.
    pub tag: Tag,
    /// The contents octets.
    pub contents: &'a [u8],
}

impl<'a> Any<'a> {
    pub(crate) fn of(raw: &RawAny<'a>) -> Option<Self> {
        (raw.tag != 0).then(|| Any {
            tag: Tag(raw.tag),
            contents: raw.contents.octets(),
        })
    }
}

/// An algorithm (RFC 5280, 4.1.1.2).
#[derive(Clone, Copy, PartialEq, Eq, Hash, Debug)]
pub struct Algorithm<'a> {
    /// Which algorithm it is.
    pub identifier: Oid<'a>,
    /// Its parameters, if there are any.
    pub parameters: Option<Any<'a>>,
}

impl<'a> From<&RawAlgorithm<'a>> for Algorithm<'a> {
    fn from(raw: &RawAlgorithm<'a>) -> Self {
        Algorithm {
            identifier: Oid {
                contents: raw.identifier.octets(),
            },
            parameters: Any::of(&raw.parameters),
        }
    }
}

/// A public key (SubjectPublicKeyInfo; RFC 5280, 4.1.2.7).
#[derive(Clone, Copy, PartialEq, Eq, Hash)]
pub struct PublicKey<'a> {
    /// All octets of the SubjectPublicKeyInfo, as they are hashed.
    pub whole: &'a [u8],
    /// The algorithm of the key.
    pub algorithm: Algorithm<'a>,
    /// The key, in the format of its algorithm, which is not checked.
    pub key: Bits<'a>,
}

impl<'a> From<&RawPublicKey<'a>> for PublicKey<'a> {
    fn from(raw: &RawPublicKey<'a>) -> Self {
        PublicKey {
            whole: raw.whole.octets(),
            algorithm: (&raw.algorithm).into(),
            key: raw.key.into(),
        }
    }
}

impl fmt::Debug for PublicKey<'_> {
    fn fmt(&self, f: &mut fmt::Formatter<'_>) -> fmt::Result {
        f.debug_struct("PublicKey")
            .field("algorithm", &self.algorithm)
            .field("key", &self.key)
            .finish()
    }
}

impl<'a> PublicKey<'a> {
    /// The public key that these octets are in DER.
    ///
    /// # Errors
    ///
    /// The first step of reading that fails, at its position. The octets must be one public key, and no more.
    pub fn from_der(octets: &'a [u8]) -> Result<Self, Error> {
        let mut raw = RawPublicKey::EMPTY;
        // SAFETY: pointer and length describe a slice, which the key borrows for 'a.
        answer(unsafe { sys::der_public_key_read(octets.as_ptr(), octets.len(), &mut raw) })?;
        Ok((&raw).into())
    }
}

/// A certificate (RFC 5280, 4.1), borrowed from its octets. Nothing about it is validated: no
/// signature, no chain, no date against a clock. The contents of its extensions are checked only by
/// the calls that read them.
#[derive(Clone, Copy)]
pub struct Certificate<'a>(RawCertificate<'a>);

// SAFETY: a certificate consists of numbers and slices.
unsafe impl Send for Certificate<'_> {}
// SAFETY: as above.
unsafe impl Sync for Certificate<'_> {}

impl<'a> Certificate<'a> {
    /// The certificate that these octets are in DER.
    ///
    /// # Errors
    ///
    /// The first step of reading that fails, at its position. The octets must be one certificate, and
    /// no more.
    pub fn from_der(octets: &'a [u8]) -> Result<Self, Error> {
        let mut raw = RawCertificate::EMPTY;
        // SAFETY: pointer and length describe a slice, which the certificate borrows for 'a.
        answer(unsafe { sys::der_certificate_read(octets.as_ptr(), octets.len(), &mut raw) })?;
        Ok(Certificate(raw))
    }

    /// All octets of the part that the signature covers.
    pub fn signed_part(&self) -> &'a [u8] {
        self.0.signed_part.octets()
    }

    /// The version: 1, 2 or 3.
    pub fn version(&self) -> u8 {
        self.0.version
    }

    /// The serial number, as the octets of an INTEGER. It may be negative.
    pub fn serial_number(&self) -> &'a [u8] {
        self.0.serial_number.octets()
    }

    /// The name of the issuer.
    pub fn issuer(&self) -> Name<'a> {
        Name {
            contents: self.0.issuer.octets(),
        }
    }

    /// The name of the subject.
    pub fn subject(&self) -> Name<'a> {
        Name {
            contents: self.0.subject.octets(),
        }
    }

    /// The first second at which the certificate is valid, counted from 1970-01-01T00:00:00Z.
    pub fn not_before(&self) -> i64 {
        self.0.not_before
    }

    /// The last second at which the certificate is valid, counted from 1970-01-01T00:00:00Z.
    pub fn not_after(&self) -> i64 {
        self.0.not_after
    }

    /// The public key of the subject.
    pub fn public_key(&self) -> PublicKey<'a> {
        (&self.0.public_key).into()
    }

    /// The extensions; none if the certificate has no list of them.
    pub fn extensions(&self) -> Extensions<'a> {
        Extensions {
            contents: self.0.extensions.octets(),
        }
    }

    /// The algorithm of the signature, as the signed part names it.
    pub fn signed_algorithm(&self) -> Algorithm<'a> {
        (&self.0.signed_algorithm).into()
    }

    /// The algorithm of the signature, as it stands outside the signed part.
    pub fn signature_algorithm(&self) -> Algorithm<'a> {
        (&self.0.signature_algorithm).into()
    }

    /// The signature. It is not verified.
    pub fn signature(&self) -> Bits<'a> {
        self.0.signature.into()
    }
}

impl PartialEq for Certificate<'_> {
    fn eq(&self, other: &Self) -> bool {
        let rest = |it: &Self| (it.signature_algorithm(), it.signature());
        self.signed_part() == other.signed_part() && rest(self) == rest(other)
    }
}

impl Eq for Certificate<'_> {}

impl Hash for Certificate<'_> {
    fn hash<H: Hasher>(&self, state: &mut H) {
        (self.signed_part(), self.signature_algorithm(), self.signature()).hash(state);
    }
}

impl fmt::Debug for Certificate<'_> {
    fn fmt(&self, f: &mut fmt::Formatter<'_>) -> fmt::Result {
        f.debug_struct("Certificate")
            .field("version", &self.version())
            .field("serial_number", &crate::octets::Hex(self.serial_number()))
            .field("issuer", &format_args!("{}", self.issuer()))
            .field("subject", &format_args!("{}", self.subject()))
            .field("not_before", &self.not_before())
            .field("not_after", &self.not_after())
            .field("public_key", &self.public_key())
            .field("extensions", &self.extensions())
            .field("signature_algorithm", &self.signature_algorithm())
            .field("signature", &self.signature())
            .finish()
    }
}
