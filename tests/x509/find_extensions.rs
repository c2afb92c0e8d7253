//! Extensions and attributes that are found by their type.
use super::extension_octets::{CERTIFICATE, LIST, REQUEST};
use crate::checks::{holds, holds_at, same_at};
use crate::fixtures::errors::{incomplete, trailing, unexpected};
use der::{DecodeBytes, DecodeValue, Encode, Error, ErrorKind, Length, SliceReader, Tag};
use der_asn1::ObjectIdentifierRef;
use std::alloc::Global;
use x509::{
    Certificate, CertReq, CertReqInfo, CertificateList, CrlReason, Extension, Extensions, FindError,
    KeyUsageBit, KnownExtension, Occurrence, attr, ext, values,
};

// Whether the extension of this type occurs once, has this flag, and its value is written as the
// contents that it was read from.
fn is_written_back<'a, K: KnownExtension<'a>>(
    alloc: Global,
    extensions: &Extensions<'a>,
    critical: bool,
) -> bool
where
    K::Value: DecodeValue<SliceReader<'a>, Error = Error>,
{
    let Ok(Some(known)) = extensions.find::<K>(alloc) else {
        return false;
    };
    let Ok(written) = known.value.to_der(alloc) else {
        return false;
    };
    match extensions.get(alloc, &K::identifier()) {
        Occurrence::Once(extension) => {
            known.critical == critical && written.as_slice() == extension.extn_value.octets()
        }
        _ => false,
    }
}

// Which of the extensions on keys, policies and names are read.
fn on_keys_and_names<'a>(alloc: Global, list: &Extensions<'a>) -> [bool; 8] {
    [
        is_written_back::<ext::AuthorityKeyIdentifier>(alloc, list, false),
        is_written_back::<ext::SubjectKeyIdentifier>(alloc, list, false),
        is_written_back::<ext::KeyUsage>(alloc, list, true),
        is_written_back::<ext::CertificatePolicies>(alloc, list, false),
        is_written_back::<ext::PolicyMappings>(alloc, list, false),
        is_written_back::<ext::SubjectAltName>(alloc, list, false),
        is_written_back::<ext::IssuerAltName>(alloc, list, false),
        is_written_back::<ext::SubjectDirectoryAttributes>(alloc, list, false),
    ]
}

// Which of the extensions on paths and on further information are read.
fn on_paths<'a>(alloc: Global, list: &Extensions<'a>) -> [bool; 10] {
    [
        is_written_back::<ext::BasicConstraints>(alloc, list, true),
        is_written_back::<ext::NameConstraints>(alloc, list, true),
        is_written_back::<ext::PolicyConstraints>(alloc, list, false),
        is_written_back::<ext::ExtKeyUsage>(alloc, list, false),
        is_written_back::<ext::CrlDistributionPoints>(alloc, list, false),
        is_written_back::<ext::InhibitAnyPolicy>(alloc, list, false),
        is_written_back::<ext::FreshestCrl>(alloc, list, false),
        is_written_back::<ext::AuthorityInfoAccess>(alloc, list, false),
        is_written_back::<ext::SubjectInfoAccess>(alloc, list, false),
        is_written_back::<ext::SignedCertificateTimestamps>(alloc, list, false),
    ]
}

#[test]
fn every_extension_of_a_certificate_is_found_and_written_as_it_was(rt: HostRuntime) {
    let alloc = rt.alloc();
    let Ok(certificate) = Certificate::from_der(alloc, &CERTIFICATE) else {
        holds(&rt, false);
        return;
    };
    let Some(extensions) = &certificate.tbs_certificate.extensions.0 else {
        holds(&rt, false);
        return;
    };
    for (at, is_read) in on_keys_and_names(alloc, &extensions.0).into_iter().enumerate() {
        holds_at(&rt, at, is_read);
    }
    for (at, is_read) in on_paths(alloc, &extensions.0).into_iter().enumerate() {
        holds_at(&rt, at, is_read);
    }
    holds(&rt, matches!(extensions.0.find::<ext::CrlNumber>(alloc), Ok(None)));
}

// Certificate signing and list signing are the bits 5 and 6; the path may be three long.
#[test]
fn values_of_extensions_are_those_that_openssl_prints(rt: HostRuntime) {
    let alloc = rt.alloc();
    let Ok(certificate) = Certificate::from_der(alloc, &CERTIFICATE) else {
        holds(&rt, false);
        return;
    };
    let Some(extensions) = &certificate.tbs_certificate.extensions.0 else {
        holds(&rt, false);
        return;
    };
    match extensions.0.find::<ext::KeyUsage>(alloc) {
        Ok(Some(usage)) => {
            let bits = usage.value;
            holds(&rt, bits.has_bit(KeyUsageBit::KeyCertSign as u32));
            holds(&rt, bits.has_bit(KeyUsageBit::CrlSign as u32));
            holds(&rt, !bits.has_bit(KeyUsageBit::DigitalSignature as u32));
        }
        _ => holds(&rt, false),
    }
    match extensions.0.find::<ext::BasicConstraints>(alloc) {
        Ok(Some(basic)) => {
            holds(&rt, basic.value.ca.0.is_true());
            let length = basic.value.path_len_constraint.0;
            holds(&rt, length.is_some_and(|length| length.octets() == [3].as_slice()));
        }
        _ => holds(&rt, false),
    }
}

#[test]
fn host_names_of_a_certificate_are_in_order(rt: HostRuntime) {
    let alloc = rt.alloc();
    let Ok(certificate) = Certificate::from_der(alloc, &CERTIFICATE) else {
        holds(&rt, false);
        return;
    };
    let Some(extensions) = &certificate.tbs_certificate.extensions.0 else {
        holds(&rt, false);
        return;
    };
    let Ok(Some(names)) = extensions.0.find::<ext::SubjectAltName>(alloc) else {
        holds(&rt, false);
        return;
    };
    let mut hosts = 0;
    for name in names.value.iter(alloc) {
        if let Some(host) = name.dns_name() {
            let expected = if hosts == 0 { b"example.org".as_slice() } else { b"www.example.org".as_slice() };
            holds_at(&rt, hosts, host.octets() == expected);
            hosts += 1;
        }
        if let Some(address) = name.ip_address() {
            holds(&rt, address.octets() == [192, 0, 2, 1].as_slice());
        }
        if let Some(uri) = name.uri() {
            holds(&rt, uri.octets() == b"https://example.org/".as_slice());
        }
        if let Some(mail) = name.mail_name() {
            holds(&rt, mail.octets() == b"a@example.org".as_slice());
        }
        if let Some(directory) = name.directory_name() {
            holds(&rt, directory.levels.octets().len() == 14);
        }
    }
    same_at(&rt, "hosts", hosts, 2);
}

#[test]
fn every_extension_of_a_revocation_list_is_found_and_written_as_it_was(rt: HostRuntime) {
    let alloc = rt.alloc();
    let Ok(list) = CertificateList::from_der(alloc, &LIST) else {
        holds(&rt, false);
        return;
    };
    let Some(extensions) = &list.tbs_cert_list.crl_extensions.0 else {
        holds(&rt, false);
        return;
    };
    let extensions = &extensions.0;
    holds(&rt, is_written_back::<ext::AuthorityKeyIdentifier>(alloc, extensions, false));
    holds(&rt, is_written_back::<ext::IssuerAltName>(alloc, extensions, false));
    holds(&rt, is_written_back::<ext::CrlNumber>(alloc, extensions, false));
    holds(&rt, is_written_back::<ext::DeltaCrlIndicator>(alloc, extensions, false));
    holds(&rt, is_written_back::<ext::IssuingDistributionPoint>(alloc, extensions, true));
    holds(&rt, is_written_back::<ext::FreshestCrl>(alloc, extensions, false));
    holds(&rt, is_written_back::<ext::AuthorityInfoAccess>(alloc, extensions, false));
}

// The reasons are keyCompromise (1) and certificateHold (6), and the first entry has a date.
#[test]
fn extensions_of_entries_are_found(rt: HostRuntime) {
    let alloc = rt.alloc();
    let Ok(list) = CertificateList::from_der(alloc, &LIST) else {
        holds(&rt, false);
        return;
    };
    let Some(entries) = &list.tbs_cert_list.revoked_certificates.0 else {
        holds(&rt, false);
        return;
    };
    let mut at = 0;
    for entry in entries.iter(alloc) {
        let Some(extensions) = entry.crl_entry_extensions.0 else {
            holds(&rt, false);
            return;
        };
        let expected = if at == 0 { CrlReason::KeyCompromise } else { CrlReason::CertificateHold };
        match extensions.find::<ext::ReasonCode>(alloc) {
            Ok(Some(reason)) => holds_at(&rt, at, reason.value.item() == expected),
            _ => holds(&rt, false),
        }
        match extensions.find::<ext::InvalidityDate>(alloc) {
            Ok(Some(date)) => holds(&rt, at == 0 && date.value.date_time().month == 11),
            Ok(None) => holds(&rt, at == 1),
            Err(_) => holds(&rt, false),
        }
        at += 1;
    }
    same_at(&rt, "entries", at, 2);
}

// The error of the lookup of keyUsage in this list, if there is one.
fn refusal(alloc: Global, octets: &[u8]) -> Option<FindError> {
    let Ok(list) = Extensions::from_der(alloc, octets) else {
        return None;
    };
    list.find::<ext::KeyUsage>(alloc).err()
}

// keyUsage (2.5.29.15) twice, the second time critical, and certificateIssuer (2.5.29.29) between.
static TWICE: [u8; 42] = [
    0x30, 0x28, //
    0x30, 0x0B, 0x06, 0x03, 0x55, 0x1D, 0x0F, 0x04, 0x04, 0x03, 0x02, 0x07, 0x80, //
    0x30, 0x09, 0x06, 0x03, 0x55, 0x1D, 0x1D, 0x04, 0x02, 0x30, 0x00, //
    0x30, 0x0E, 0x06, 0x03, 0x55, 0x1D, 0x0F, 0x01, 0x01, 0xFF, 0x04, 0x04, 0x03, 0x02, 0x07, 0x80,
];

#[test]
fn an_extension_that_occurs_twice_is_an_error(rt: HostRuntime) {
    let alloc = rt.alloc();
    same_at(&rt, "twice", refusal(alloc, &TWICE), Some(FindError::Repeated));
    let Ok(list) = Extensions::from_der(alloc, &TWICE) else {
        holds(&rt, false);
        return;
    };
    holds(&rt, matches!(list.get(alloc, &values::id_ce_key_usage()), Occurrence::Several));
    holds(&rt, is_written_back::<ext::CertificateIssuer>(alloc, &list, false));
    holds(&rt, matches!(list.find::<ext::SubjectAltName>(alloc), Ok(None)));
    same_at(&rt, "no extensions", refusal(alloc, &[0x30, 0x00]), None);
}

// The contents of a keyUsage, which begin at octet 11 of the list, in place of 03 02 07 80.
fn refusal_of(alloc: Global, contents: [u8; 4]) -> Option<FindError> {
    let mut octets = [
        0x30, 0x0D, 0x30, 0x0B, 0x06, 0x03, 0x55, 0x1D, 0x0F, 0x04, 0x04, 0, 0, 0, 0,
    ];
    octets[11..].copy_from_slice(&contents);
    refusal(alloc, &octets)
}

// Positions count from the first octet of the contents: a BIT STRING with eight unused bits ends at
// octet 4; one of one octet ends at octet 3, before another octet; one of three octets would end at
// octet 5.
#[test]
fn wrong_contents_of_an_extension_are_refused_where_they_are(rt: HostRuntime) {
    let alloc = rt.alloc();
    let value = ErrorKind::Value {
        tag: Tag::BitString,
    };
    let cases = [
        ([0x03, 0x02, 0x07, 0x80], None),
        ([0x03, 0x02, 0x08, 0x80], Some(value.at(Length::new(4)))),
        ([0x03, 0x01, 0x00, 0x80], Some(trailing(3, 1))),
        ([0x03, 0x03, 0x07, 0x80], Some(incomplete(5, 4, 4))),
        ([0x04, 0x02, 0x07, 0x80], Some(unexpected(Tag::BitString, Tag::OctetString))),
    ];
    for (contents, expected) in cases {
        let answer = refusal_of(alloc, contents);
        same_at(&rt, contents[1], answer, expected.map(FindError::Contents));
    }
}

#[test]
fn requested_extensions_are_found(rt: HostRuntime) {
    let alloc = rt.alloc();
    let Ok(request) = CertReq::from_der(alloc, &REQUEST) else {
        holds(&rt, false);
        return;
    };
    let Ok(Some(extensions)) = request.info.find_attribute::<attr::ExtensionRequest>(alloc) else {
        holds(&rt, false);
        return;
    };
    holds(&rt, is_written_back::<ext::KeyUsage>(alloc, &extensions, true));
    holds(&rt, is_written_back::<ext::SubjectAltName>(alloc, &extensions, false));
    holds(&rt, matches!(extensions.find::<ext::BasicConstraints>(alloc), Ok(None)));
}

// The part of a request with these attributes: version 1, no name, and a key of no octets for
// 1.2.3.4.
fn attribute_refusal(alloc: Global, attributes: &[u8]) -> Option<FindError> {
    let begin = [
        0x30, 0x11, 0x02, 0x01, 0x00, 0x30, 0x00, 0x30, 0x0A, 0x30, 0x05, 0x06, 0x03, 0x2A, 0x03, 0x04,
        0x03, 0x01, 0x00,
    ];
    let mut octets = [0; 64];
    let end = begin.len() + attributes.len();
    octets[..begin.len()].copy_from_slice(&begin);
    octets[begin.len()..end].copy_from_slice(attributes);
    octets[1] += attributes.len() as u8;
    let Ok(info) = CertReqInfo::from_der(alloc, &octets[..end]) else {
        return Some(FindError::Repeated);
    };
    info.find_attribute::<attr::ExtensionRequest>(alloc).err()
}

// Of extensionRequest (1.2.840.113549.1.9.14): without a value, with an empty list, with two, and
// with a SET in place of a list.
#[test]
fn an_attribute_must_have_one_value(rt: HostRuntime) {
    let alloc = rt.alloc();
    let type_of = [0x06, 0x09, 0x2A, 0x86, 0x48, 0x86, 0xF7, 0x0D, 0x01, 0x09, 0x0E];
    let mut octets = [0; 21];
    octets[..4].copy_from_slice(&[0xA0, 0x11, 0x30, 0x0F]);
    octets[4..15].copy_from_slice(&type_of);
    let cases: [([u8; 6], Option<FindError>); 3] = [
        ([0x31, 0x04, 0x30, 0x00, 0x30, 0x00], Some(FindError::Contents(trailing(2, 2)))),
        ([0x31, 0x04, 0x30, 0x02, 0x05, 0x00], Some(FindError::Contents(unexpected(Tag::Sequence, Tag::Null)))),
        ([0x31, 0x04, 0x31, 0x02, 0x05, 0x00], Some(FindError::Contents(unexpected(Tag::Sequence, Tag::Set)))),
    ];
    for (values, expected) in cases {
        octets[15..].copy_from_slice(&values);
        octets[1] = 19;
        octets[3] = 17;
        same_at(&rt, values[2], attribute_refusal(alloc, &octets), expected);
    }
    octets[1] = 15;
    octets[3] = 13;
    octets[16] = 0;
    let none = Some(FindError::Contents(incomplete(1, 0, 0)));
    same_at(&rt, "no value", attribute_refusal(alloc, &octets[..17]), none);
    octets[1] = 17;
    octets[3] = 15;
    octets[15..19].copy_from_slice(&[0x31, 0x02, 0x30, 0x00]);
    same_at(&rt, "one value", attribute_refusal(alloc, &octets[..19]), None);
    same_at(&rt, "no attributes", attribute_refusal(alloc, &[0xA0, 0x00]), None);
}

// The identifier 1.2.3 has no extension, and 2.5.29.14 has one of 22 octets.
#[test]
fn an_extension_of_any_type_is_found(rt: HostRuntime) {
    let alloc = rt.alloc();
    let Ok(certificate) = Certificate::from_der(alloc, &CERTIFICATE) else {
        holds(&rt, false);
        return;
    };
    let (Some(extensions), Some(other)) = (
        &certificate.tbs_certificate.extensions.0,
        ObjectIdentifierRef::new(&[0x2A, 0x03]),
    ) else {
        holds(&rt, false);
        return;
    };
    holds(&rt, matches!(extensions.0.get(alloc, &other), Occurrence::Absent));
    match extensions.0.get(alloc, &values::id_ce_subject_key_identifier()) {
        Occurrence::Once(extension) => holds(&rt, extension.extn_value.octets().len() == 22),
        _ => holds(&rt, false),
    }
}

// A keyUsage whose value is in one segment (X.690 8.7.3). In one piece it would be another value.
#[test]
fn a_value_in_segments_is_refused(rt: HostRuntime) {
    let octets = [
        0x30, 0x0D, 0x06, 0x03, 0x55, 0x1D, 0x0F, 0x24, 0x06, 0x04, 0x04, 0x03, 0x02, 0x05, 0xA0,
    ];
    let read: Result<Extension<'_>, Error> = Extension::from_ber(rt.alloc(), &octets);
    let kind = ErrorKind::Noncanonical { tag: Tag::OctetString };
    same_at(&rt, 0, read.map(|_| ()), Err(kind.at(Length::new(8))));
}
