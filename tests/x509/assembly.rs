//! Certificates and requests that are assembled from their parts.
use super::certificates::SELF_SIGNED;
use super::extension_octets::REQUEST;
use crate::checks::{holds, same_at};
use der::{Encode, Error, ErrorKind, Length, Tag};
use der_asn1::{
    AnyRef, BitStringRef, DateTime, Defaulted, Explicit, Ia5StringRef, Implicit, IntRef, NamedBitsRef,
    NamedInteger, ObjectIdentifierRef, OctetStringRef, Optional, UtcTime,
};
use der_asn1::assembly::{sequence_of, set_of};
use spki::{AlgorithmIdentifierRef, SubjectPublicKeyInfoRef};
use std::alloc::Global;
use x509::{
    Attribute, AttributeTypeAndValue, AuthorityKeyIdentifier, BasicConstraints, CertReq, CertReqInfo,
    CertReqVersion, Certificate, Extension, Extensions, GeneralName, Name, RelativeDistinguishedName,
    TbsCertificate, Time, Validity, Version, attr, attribute_of, ext, extension_of, values,
};

// The identifier of Ed25519, 1.3.101.112, and no parameters.
fn ed25519() -> Option<AlgorithmIdentifierRef<'static>> {
    let oid = ObjectIdentifierRef::new(&[0x2B, 0x65, 0x70])?;
    Some(AlgorithmIdentifierRef {
        oid,
        parameters: Optional(None),
    })
}

// The public key of these octets, before which there is the number of unused bits.
fn public_key(bits: &[u8]) -> Option<SubjectPublicKeyInfoRef<'_>> {
    Some(SubjectPublicKeyInfoRef {
        algorithm: ed25519()?,
        subject_public_key: BitStringRef::new(bits)?,
    })
}

// The time at this year, on 25 November, at 20:15:49.
fn time_in(year: u16) -> Option<Time> {
    let time = DateTime {
        year,
        month: 11,
        day: 25,
        hour: 20,
        minute: 15,
        second: 49,
    };
    Some(Time::UtcTime(UtcTime::new(time)?))
}

// A level with one attribute.
fn level<'b>(
    alloc: Global,
    oid: ObjectIdentifierRef<'b>,
    tag: Tag,
    contents: &'b [u8],
    buffer: &'b mut [u8],
) -> Option<RelativeDistinguishedName<'b>> {
    let value = AnyRef { tag, contents };
    let attributes = set_of(alloc, &[AttributeTypeAndValue { oid, value }], buffer).ok()?;
    Some(RelativeDistinguishedName { attributes })
}

// The signed part of a certificate, with this name for issuer and subject.
fn signed_part<'b>(
    name: Name<'b>,
    key: &'b [u8],
    extensions: Extensions<'b>,
) -> Option<TbsCertificate<'b>> {
    Some(TbsCertificate {
        version: Defaulted(Explicit(Version::new(&[2])?)),
        serial_number: IntRef::new(&[0x4A, 0x7B])?,
        signature: ed25519()?,
        issuer: name,
        validity: Validity {
            not_before: time_in(2026)?,
            not_after: time_in(2027)?,
        },
        subject: name,
        subject_public_key_info: public_key(key)?,
        issuer_unique_id: Optional(None),
        subject_unique_id: Optional(None),
        extensions: Optional(Some(Explicit(extensions))),
    })
}

// The certificate `SELF_SIGNED`, whose fields are as `openssl x509 -text` prints them: the key is at
// octet 114, its identifier at octet 162, and the signature at octet 257.
fn certificate(alloc: Global) -> Option<bool> {
    let (mut first, mut second, mut third) = ([0; 64], [0; 64], [0; 512]);
    let common = level(alloc, values::id_at_common_name(), Tag::Utf8String, b"example.org", &mut first)?;
    let levels = sequence_of(alloc, &[common], &mut second).ok()?;
    let identifier = OctetStringRef::new(&SELF_SIGNED[162..182])?;
    let (mut one, mut two, mut three, mut four) = ([0; 32], [0; 32], [0; 32], [0; 32]);
    let of_key = extension_of::<ext::SubjectKeyIdentifier>(false, &identifier, &mut one).ok()?;
    let issuer_key = AuthorityKeyIdentifier {
        key_identifier: Optional(Some(Implicit(identifier))),
        authority_cert_issuer: Optional(None),
        authority_cert_serial_number: Optional(None),
    };
    let of_issuer = extension_of::<ext::AuthorityKeyIdentifier>(false, &issuer_key, &mut two).ok()?;
    let basic = BasicConstraints {
        ca: Defaulted(der_asn1::BooleanRef::new(&[0xFF])?),
        path_len_constraint: Optional(None),
    };
    let constraints = extension_of::<ext::BasicConstraints>(true, &basic, &mut three).ok()?;
    let signing = NamedBitsRef::new(&[7, 0x80])?;
    let usage = extension_of::<ext::KeyUsage>(true, &signing, &mut four).ok()?;
    let list = [of_key, of_issuer, constraints, usage];
    let items = sequence_of(alloc, &list, &mut third).ok()?;
    let tbs_certificate = signed_part(Name { levels }, &SELF_SIGNED[114..147], Extensions { items })?;
    let signed = tbs_certificate.to_der(alloc).ok()?;
    let whole = Certificate {
        tbs_certificate,
        signature_algorithm: ed25519()?,
        signature: BitStringRef::new(&SELF_SIGNED[257..])?,
    };
    let written = whole.to_der(alloc).ok()?;
    Some(signed.as_slice() == &SELF_SIGNED[4..248] && written.as_slice() == SELF_SIGNED.as_slice())
}

#[test]
fn a_certificate_is_assembled_as_openssl_makes_it(rt: HostRuntime) {
    holds(&rt, certificate(rt.alloc()) == Some(true));
}

// The attribute for a keyUsage and a subjectAltName.
fn requested<'b>(
    alloc: Global,
    small: &'b mut [u8],
    large: &'b mut [u8],
    list: &'b mut [u8],
    values_of: &'b mut [u8],
    names: &'b mut [u8],
) -> Option<Attribute<'b>> {
    let signing = NamedBitsRef::new(&[7, 0x80])?;
    let usage = extension_of::<ext::KeyUsage>(true, &signing, small).ok()?;
    let host = GeneralName::DnsName(Implicit(Ia5StringRef::new(b"example.org")?));
    let hosts = sequence_of(alloc, &[host], names).ok()?;
    let alternatives = extension_of::<ext::SubjectAltName>(false, &hosts, large).ok()?;
    let items = sequence_of::<Extension<'b>>(alloc, &[usage, alternatives], list).ok()?;
    attribute_of::<attr::ExtensionRequest>(alloc, &Extensions { items }, values_of).ok()
}

// The request `REQUEST`: the key is at octet 119, and the signature at octet 220.
fn request(alloc: Global) -> Option<bool> {
    let (mut a, mut b, mut c, mut d, mut e) = ([0; 64], [0; 64], [0; 64], [0; 64], [0; 64]);
    let levels = [
        level(alloc, values::id_at_country_name(), Tag::PrintableString, b"DE", &mut a)?,
        level(alloc, values::id_at_organization_name(), Tag::TeletexString, b"B\xFCcher", &mut b)?,
        level(alloc, values::id_at_organizational_unit_name(), Tag::PrintableString, b"one", &mut c)?,
        level(alloc, values::id_at_common_name(), Tag::PrintableString, b"example.org", &mut d)?,
        level(alloc, values::id_email_address(), Tag::Ia5String, b"a@example.org", &mut e)?,
    ];
    let mut name = [0; 128];
    let (mut f, mut g, mut h, mut i, mut j) = ([0; 64], [0; 64], [0; 64], [0; 64], [0; 64]);
    let attribute = requested(alloc, &mut f, &mut g, &mut h, &mut i, &mut j)?;
    let mut attributes = [0; 128];
    let info = CertReqInfo {
        version: NamedInteger::new(CertReqVersion::V1),
        subject: Name {
            levels: sequence_of(alloc, &levels, &mut name).ok()?,
        },
        public_key: public_key(&REQUEST[119..152])?,
        attributes: Implicit(set_of(alloc, &[attribute], &mut attributes).ok()?),
    };
    let signed = info.to_der(alloc).ok()?;
    let whole = CertReq {
        info,
        algorithm: ed25519()?,
        signature: BitStringRef::new(&REQUEST[220..])?,
    };
    let written = whole.to_der(alloc).ok()?;
    Some(signed.as_slice() == &REQUEST[4..211] && written.as_slice() == REQUEST.as_slice())
}

#[test]
fn a_request_is_assembled_as_openssl_makes_it(rt: HostRuntime) {
    holds(&rt, request(rt.alloc()) == Some(true));
}

// The error of the set of these numbers of one octet each, in a buffer of so many octets.
fn set_refusal(alloc: Global, first: u8, second: u8, space: usize) -> Option<Error> {
    let (one, two) = ([first], [second]);
    let items = [IntRef::new(&one)?, IntRef::new(&two)?];
    let mut buffer = [0; 8];
    set_of(alloc, &items, &mut buffer[..space]).err()
}

// Each number takes up three octets. The first that does not fit ends after the space.
#[test]
fn sets_out_of_order_and_short_buffers_are_refused(rt: HostRuntime) {
    let alloc = rt.alloc();
    same_at(&rt, "ascending", set_refusal(alloc, 1, 2, 6), None);
    same_at(&rt, "equal", set_refusal(alloc, 2, 2, 8), None);
    let order = ErrorKind::SetOrdering.at(Length::new(3));
    same_at(&rt, "descending", set_refusal(alloc, 2, 1, 6), Some(order));
    let space = ErrorKind::Overlength.at(Length::new(6));
    same_at(&rt, "short", set_refusal(alloc, 1, 2, 5), Some(space));
}
