//! A message with what RFC 5652 allows beside certificates, lists and keys of its own.
use super::encrypted_octets::ORIGINATOR;
use crate::checks::{holds, same, same_octets};
use crate::fixtures::again::is_same;
use cms::{
    CertificateChoices, EnvelopedData, KeyAgreeRecipientIdentifier, OriginatorIdentifierOrKey,
    OriginatorInfo, RecipientInfo, RevocationInfoChoice,
};
use der::{DecodeBytes, Tag};
use der_asn1::AnyRef;

// `openssl asn1parse` lists the message at octet 17 and its originator, here with the tag of a
// SEQUENCE, at 23.
#[test]
fn a_message_with_an_originator_is_written_as_it_was(rt: HostRuntime) {
    holds(&rt, is_same::<EnvelopedData>(rt.alloc(), &ORIGINATOR[17..]));
    let mut octets = ORIGINATOR;
    octets[23] = 0x30;
    holds(&rt, is_same::<OriginatorInfo>(rt.alloc(), &octets[23..71]));
}

// The kind of a certificate, and its octets if it is of no known kind.
fn kind_of<'a>(certificate: &CertificateChoices<'a>) -> (u8, &'a [u8]) {
    match certificate {
        CertificateChoices::Certificate(_) => (9, &[]),
        CertificateChoices::ExtendedCertificate(other) => (0, other.0.octets()),
        CertificateChoices::V1AttrCert(other) => (1, other.0.octets()),
        CertificateChoices::V2AttrCert(other) => (2, other.0.octets()),
        CertificateChoices::Other(other) => (3, other.0.value.contents),
    }
}

#[test]
fn certificates_of_other_kinds_are_octets(rt: HostRuntime) {
    let alloc = rt.alloc();
    let Ok(data) = EnvelopedData::from_der(alloc, &ORIGINATOR[17..]) else {
        holds(&rt, false);
        return;
    };
    same(&rt, data.version.to_number::<u8>(), Some(4));
    let Some(originator) = data.originator_info.0 else {
        holds(&rt, false);
        return;
    };
    let Some(certificates) = originator.0.certs.0 else {
        holds(&rt, false);
        return;
    };
    let mut number = 0;
    for certificate in certificates.0.items.iter(alloc) {
        let (kind, octets) = kind_of(&certificate);
        same(&rt, kind, number);
        let expected: &[u8] = if number == 3 { b"o" } else { &[2, 1, 1] };
        same_octets(&rt, octets, expected);
        number += 1;
    }
    same(&rt, number, 4);
}

// `openssl cms -cmsout -print` prints the type 1.3.6.1.5.5.7.16.2, a response of OCSP.
#[test]
fn information_of_another_kind_has_a_type(rt: HostRuntime) {
    let alloc = rt.alloc();
    let Ok(data) = EnvelopedData::from_der(alloc, &ORIGINATOR[17..]) else {
        holds(&rt, false);
        return;
    };
    let Some(originator) = data.originator_info.0 else {
        holds(&rt, false);
        return;
    };
    let Some(lists) = originator.0.crls.0 else {
        holds(&rt, false);
        return;
    };
    let response = AnyRef {
        tag: Tag::Sequence,
        contents: &[0x0A, 1, 1],
    };
    for list in lists.0.items.iter(alloc) {
        match list {
            RevocationInfoChoice::Other(other) => {
                same_octets(
                    &rt,
                    other.0.oid.octets(),
                    b"\x2B\x06\x01\x05\x05\x07\x10\x02",
                );
                holds(&rt, other.0.value == response);
            }
            RevocationInfoChoice::Crl(_) => holds(&rt, false),
        }
    }
}

// `openssl cms -cmsout -print` prints the identifier of the originator's key, its octets, and the
// type of the other recipient.
#[test]
fn an_agreement_names_the_key_of_the_originator(rt: HostRuntime) {
    let alloc = rt.alloc();
    let Ok(data) = EnvelopedData::from_der(alloc, &ORIGINATOR[17..]) else {
        holds(&rt, false);
        return;
    };
    let mut recipients = data.recipient_infos.items.iter(alloc);
    let (Some(RecipientInfo::Kari(agreed)), Some(RecipientInfo::Ori(other))) = (
        recipients.next(),
        recipients.next(),
    ) else {
        holds(&rt, false);
        return;
    };
    same_octets(&rt, other.0.oid.octets(), &[42, 3, 7]);
    same(&rt, other.0.value.tag, Tag::Null);
    match agreed.0.originator.0.value {
        OriginatorIdentifierOrKey::SubjectKeyIdentifier(key) => {
            same_octets(&rt, key.0.octets(), &[0x0A, 0x0B]);
        }
        _ => holds(&rt, false),
    }
    match agreed.0.ukm.0 {
        Some(octets) => same_octets(&rt, octets.0.octets(), &[0x0C, 0x0D, 0x0E]),
        None => holds(&rt, false),
    }
}

// `openssl cms -cmsout -print` prints the identifier, the time, the type 1.2.3.4 and no keyAttr.
#[test]
fn an_agreement_names_the_key_of_the_recipient(rt: HostRuntime) {
    let alloc = rt.alloc();
    let Ok(data) = EnvelopedData::from_der(alloc, &ORIGINATOR[17..]) else {
        holds(&rt, false);
        return;
    };
    let Some(RecipientInfo::Kari(agreed)) = data.recipient_infos.items.iter(alloc).next() else {
        holds(&rt, false);
        return;
    };
    for key in agreed.0.recipient_encrypted_keys.iter(alloc) {
        same_octets(&rt, key.encrypted_key.octets(), &[0x0F, 0x10]);
        let KeyAgreeRecipientIdentifier::RKeyId(identifier) = key.rid else {
            holds(&rt, false);
            return;
        };
        same_octets(&rt, identifier.0.key_identifier.octets(), &[0x11, 0x12]);
        let (Some(date), Some(kind)) = (identifier.0.date.0, identifier.0.other.0) else {
            holds(&rt, false);
            return;
        };
        same(&rt, date.date_time().hour, 12);
        same_octets(&rt, kind.oid.octets(), &[42, 3, 4]);
        holds(&rt, kind.parameters.0.is_none());
    }
}

#[test]
fn a_message_may_lack_its_octets_and_have_attributes(rt: HostRuntime) {
    let alloc = rt.alloc();
    let Ok(data) = EnvelopedData::from_der(alloc, &ORIGINATOR[17..]) else {
        holds(&rt, false);
        return;
    };
    holds(
        &rt,
        data.encrypted_content_info.encrypted_content.0.is_none(),
    );
    let Some(attributes) = data.unprotected_attrs.0 else {
        holds(&rt, false);
        return;
    };
    for attribute in attributes.0.iter(alloc) {
        same_octets(&rt, attribute.oid.octets(), &[42, 3, 5]);
        same_octets(&rt, attribute.values.octets(), &[2, 1, 1, 2, 1, 2]);
    }
}
