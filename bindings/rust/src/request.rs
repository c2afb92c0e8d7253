//! Certificate requests.
use crate::certificate::{Algorithm, PublicKey};
use crate::error::{Error, answer};
use crate::extension::Extensions;
use crate::name::Name;
use crate::octets::Hex;
use crate::reader::Reader;
use crate::sys::{self, RawRequest};
use crate::tag::Tag;
use crate::value::Bits;
use core::fmt;

/// A certificate request (PKCS #10; RFC 2986, 4), borrowed from its octets. Its signature is not
/// verified.
#[derive(Clone, Copy, PartialEq, Eq, Hash)]
pub struct Request<'a> {
    /// All octets of the part that the signature covers.
    pub signed_part: &'a [u8],
    /// The name of the subject.
    pub subject: Name<'a>,
    /// The public key of the subject.
    pub public_key: PublicKey<'a>,
    /// The contents of the SET OF attributes, which are not checked.
    pub attributes: &'a [u8],
    /// The algorithm of the signature.
    pub signature_algorithm: Algorithm<'a>,
    /// The signature.
    pub signature: Bits<'a>,
}

impl<'a> Request<'a> {
    /// The request that these octets are in DER.
    ///
    /// # Errors
    ///
    /// The first step of reading that fails, at its position. The octets must be one request, and no
    /// more.
    pub fn from_der(octets: &'a [u8]) -> Result<Self, Error> {
        let mut raw = RawRequest::EMPTY;
        // SAFETY: pointer and length describe a slice, which the request borrows for 'a.
        answer(unsafe { sys::der_request_read(octets.as_ptr(), octets.len(), &mut raw) })?;
        Ok(Request {
            signed_part: raw.signed_part.octets(),
            subject: Name {
                contents: raw.subject.octets(),
            },
            public_key: (&raw.public_key).into(),
            attributes: raw.attributes.octets(),
            signature_algorithm: (&raw.signature_algorithm).into(),
            signature: raw.signature.into(),
        })
    }
}

impl<'a> Request<'a> {
    /// The extensions that the attribute extensionRequest asks for (RFC 2985, 5.4.2), if it is there.
    ///
    /// # Errors
    ///
    /// The first attribute that cannot be read: its position counts from the start of `attributes`, as does that of
    /// `Incomplete` if the extensionRequest has no value and of `TrailingData` if it has several.
    /// [`Duplicate`](crate::ErrorKind::Duplicate) if the attribute is there more than once. The error of the extensions:
    /// its position counts from the start of the value.
    pub fn extensions(&self) -> Result<Option<Extensions<'a>>, Error> {
        let (mut attributes, mut found) = (Reader::der(self.attributes)?, None);
        while !attributes.is_finished() {
            let mut attribute = attributes.enter(Tag::SEQUENCE)?;
            let identifier = attribute.oid(Tag::OBJECT_IDENTIFIER)?;
            let mut values = attribute.enter(Tag::SET)?;
            attribute.finish()?;
            if identifier != *"1.2.840.113549.1.9.14" {
                continue;
            }
            let value = values.read()?;
            let extensions = Extensions::from_der(values.octets_of(&value)?)?;
            values.finish()?;
            if found.replace(extensions).is_some() {
                return Err(Error::of_kind(sys::DUPLICATE));
            }
        }
        Ok(found)
    }
}

impl fmt::Debug for Request<'_> {
    fn fmt(&self, f: &mut fmt::Formatter<'_>) -> fmt::Result {
        f.debug_struct("Request")
            .field("subject", &format_args!("{}", self.subject))
            .field("public_key", &self.public_key)
            .field("attributes", &Hex(self.attributes))
            .field("signature_algorithm", &self.signature_algorithm)
            .field("signature", &self.signature)
            .finish()
    }
}
