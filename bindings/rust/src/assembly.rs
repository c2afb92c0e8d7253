//! Names, extensions, requests and certificates that are written from parts.
use crate::error::{Error, answer};
use crate::oid::Oid;
use crate::sys::{self, RawCertificateParts, RawSpan};
use crate::tag::Tag;
use crate::writer::Writer;
use core::marker::PhantomData;

/// The parts of a certificate that is written. Each but the serial number is the encoding of one element,
/// which is not checked.
#[derive(Clone, Copy, PartialEq, Eq, Hash, Debug, Default)]
pub struct CertificateParts<'a> {
    /// The contents octets of the serial number, an INTEGER.
    pub serial_number: &'a [u8],
    /// The algorithm of the signature, as [`Writer::algorithm`] writes it.
    pub signature_algorithm: &'a [u8],
    /// The name of the issuer.
    pub issuer: &'a [u8],
    /// The validity, as [`Writer::validity`] writes it.
    pub validity: &'a [u8],
    /// The name of the subject.
    pub subject: &'a [u8],
    /// The SubjectPublicKeyInfo of the subject.
    pub public_key: &'a [u8],
    /// The SEQUENCE of extensions; no octets if there are none.
    pub extensions: &'a [u8],
}

/// Each of these calls writes one element.
///
/// # Errors
///
/// Those of [`Writer::element`]; and [`Value`](crate::ErrorKind::Value) if an OBJECT IDENTIFIER, a text, a time or the
/// serial number is not a value of its type.
impl Writer<'_> {
    /// One level of a name (RFC 5280, 4.1.2.4), with one attribute: its type, and the characters of a string of
    /// the type `string_type`. A name is a SEQUENCE of levels.
    ///
    /// ```
    /// use der_c::{Error, Tag, Writer, id};
    /// # fn main() -> Result<(), Error> {
    /// let mut octets = [0; 64];
    /// let mut writer = Writer::new(&mut octets);
    /// writer.inside(Tag::SEQUENCE, |name| {
    ///     name.name_attribute(id::COUNTRY_NAME, Tag::PRINTABLE_STRING, b"DE")?;
    ///     name.name_attribute(id::COMMON_NAME, Tag::UTF8_STRING, b"example.org")
    /// })?;
    /// assert_eq!(writer.finish()?.len(), 37);
    /// # Ok(())
    /// # }
    /// ```
    pub fn name_attribute(&mut self, identifier: Oid<'_>, string_type: Tag, text: &[u8]) -> Result<(), Error> {
        let (id, length) = (identifier.contents.as_ptr(), identifier.contents.len());
        // SAFETY: pointers and lengths describe slices, and the call only reads them.
        answer(unsafe {
            sys::der_write_name_attribute(&mut self.0, id, length, string_type.0, text.as_ptr(), text.len())
        })
    }

    /// An extension (RFC 5280, 4.1) with the encoding of its value, which is not checked.
    pub fn extension(&mut self, identifier: Oid<'_>, critical: bool, value: &[u8]) -> Result<(), Error> {
        let (id, length) = (identifier.contents.as_ptr(), identifier.contents.len());
        // SAFETY: pointers and lengths describe slices, and the call only reads them.
        answer(unsafe { sys::der_write_extension(&mut self.0, id, length, critical, value.as_ptr(), value.len()) })
    }

    /// An algorithm (RFC 5280, 4.1.1.2) with NULL parameters, as RSA has them, or with none. Other parameters, such as the
    /// curve of `id::EC_PUBLIC_KEY`, cannot be written with this call.
    pub fn algorithm(&mut self, identifier: Oid<'_>, null_parameters: bool) -> Result<(), Error> {
        let (id, length) = (identifier.contents.as_ptr(), identifier.contents.len());
        // SAFETY: pointer and length describe a slice, and the call only reads it.
        answer(unsafe { sys::der_write_algorithm(&mut self.0, id, length, null_parameters) })
    }

    /// The part of a certification request that is signed (RFC 2986, 4.1). The arguments are the encodings of a name, of a
    /// SubjectPublicKeyInfo, and of a SEQUENCE of extensions. If `extensions` has no octets, none are requested. They are
    /// not checked.
    pub fn request_part(&mut self, subject: &[u8], public_key: &[u8], extensions: &[u8]) -> Result<(), Error> {
        let (key, key_length) = (public_key.as_ptr(), public_key.len());
        let (more, more_length) = (extensions.as_ptr(), extensions.len());
        // SAFETY: pointers and lengths describe slices, and the call only reads them.
        answer(unsafe {
            let (name, name_length) = (subject.as_ptr(), subject.len());
            sys::der_write_request_part(&mut self.0, name, name_length, key, key_length, more, more_length)
        })
    }

    /// The validity of a certificate (RFC 5280, 4.1.2.5), in seconds since 1970-01-01T00:00:00Z. Times from 1950 to 2049
    /// are UTCTimes, others GeneralizedTimes. `Value` if a year is not from 0 to 9999. That `not_before` is first is not
    /// checked.
    pub fn validity(&mut self, not_before: i64, not_after: i64) -> Result<(), Error> {
        answer(sys::der_write_validity(&mut self.0, not_before, not_after))
    }

    /// The part of a certificate of version 3 that is signed (RFC 5280, 4.1).
    pub fn certificate_part(&mut self, parts: &CertificateParts<'_>) -> Result<(), Error> {
        let mut raw = RawCertificateParts::EMPTY;
        raw.serial_number = span(parts.serial_number);
        raw.signature_algorithm = span(parts.signature_algorithm);
        raw.issuer = span(parts.issuer);
        raw.validity = span(parts.validity);
        raw.subject = span(parts.subject);
        raw.public_key = span(parts.public_key);
        raw.extensions = span(parts.extensions);
        answer(sys::der_write_certificate_part(&mut self.0, &raw))
    }

    /// A certificate, a revocation list or a request: the encodings of the part that is signed and of the
    /// algorithm, which are not checked, and the octets of the signature.
    pub fn signed(&mut self, part: &[u8], algorithm: &[u8], signature: &[u8]) -> Result<(), Error> {
        let (algorithm, algorithm_length) = (algorithm.as_ptr(), algorithm.len());
        let (signature, signature_length) = (signature.as_ptr(), signature.len());
        // SAFETY: pointers and lengths describe slices, and the call only reads them.
        answer(unsafe {
            let (part, part_length) = (part.as_ptr(), part.len());
            sys::der_write_signed(
                &mut self.0,
                part,
                part_length,
                algorithm,
                algorithm_length,
                signature,
                signature_length,
            )
        })
    }
}

fn span(octets: &[u8]) -> RawSpan<'_> {
    RawSpan {
        octets: octets.as_ptr(),
        length: octets.len(),
        borrow: PhantomData,
    }
}
