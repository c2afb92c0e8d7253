//! Private keys.
use crate::certificate::Algorithm;
use crate::error::{Error, answer};
use crate::sys::{self, RawPrivateKey};
use crate::value::Bits;
use core::fmt;

/// A private key with its algorithm (PKCS #8; RFC 5958, 2), borrowed from its octets. An encrypted key
/// is another format, and is refused. That version 1 has no public key is not checked.
#[derive(Clone, Copy)]
pub struct PrivateKey<'a> {
    /// The version: 1 or 2.
    pub version: u8,
    /// The algorithm of the key.
    pub algorithm: Algorithm<'a>,
    /// The key, in the format of its algorithm, which is not checked.
    pub key: &'a [u8],
    /// The contents of the SET OF attributes, if there is one. The contents of their values are not checked.
    pub attributes: Option<&'a [u8]>,
    /// The public key, if there is one. That it belongs to `key` is not checked.
    pub public_key: Option<Bits<'a>>,
}

impl<'a> PrivateKey<'a> {
    /// The private key that these octets are in DER.
    ///
    /// # Errors
    ///
    /// The first step of reading that fails, at its position. The octets must be one key, and no more.
    pub fn from_der(octets: &'a [u8]) -> Result<Self, Error> {
        let mut raw = RawPrivateKey::EMPTY;
        // SAFETY: pointer and length describe a slice, which the key borrows for 'a.
        answer(unsafe { sys::der_private_key_read(octets.as_ptr(), octets.len(), &mut raw) })?;
        Ok(PrivateKey {
            version: raw.version,
            algorithm: (&raw.algorithm).into(),
            key: raw.key.octets(),
            attributes: raw.has_attributes.then(|| raw.attributes.octets()),
            public_key: raw.has_public_key.then(|| raw.public_key.into()),
        })
    }
}

/// Prints no octet of the key.
impl fmt::Debug for PrivateKey<'_> {
    fn fmt(&self, f: &mut fmt::Formatter<'_>) -> fmt::Result {
        f.debug_struct("PrivateKey")
            .field("version", &self.version)
            .field("algorithm", &self.algorithm)
            .field("public_key", &self.public_key)
            .finish_non_exhaustive()
    }
}
