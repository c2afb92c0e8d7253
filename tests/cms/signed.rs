//! Signed messages.
use super::signed_octets::{ATTACHED, BY_KEY, CADES, DEGENERATE, TWO};
use crate::checks::{holds, same, same_octets};
use crate::fixtures::again::is_same;
use cms::asn1::values::{id_data, id_sha256, id_signed_data};
use cms::{CertificateChoices, ContentInfo, RevocationInfoChoice, SignedData, SignerIdentifier};
use der::{DecodeBytes, Tag};
use der_asn1::AnyRef;
use std::alloc::Global;

#[test]
fn signed_messages_are_written_as_they_were(rt: HostRuntime) {
    let alloc = rt.alloc();
    holds(&rt, is_same::<ContentInfo>(alloc, &ATTACHED));
    holds(&rt, is_same::<ContentInfo>(alloc, &BY_KEY));
    holds(&rt, is_same::<ContentInfo>(alloc, &TWO));
    holds(&rt, is_same::<ContentInfo>(alloc, &CADES));
    holds(&rt, is_same::<ContentInfo>(alloc, &DEGENERATE));
    holds(&rt, is_same::<SignedData>(alloc, &ATTACHED[19..]));
    holds(&rt, is_same::<SignedData>(alloc, &BY_KEY[19..]));
    holds(&rt, is_same::<SignedData>(alloc, &TWO[19..]));
    holds(&rt, is_same::<SignedData>(alloc, &CADES[19..]));
    holds(&rt, is_same::<SignedData>(alloc, &DEGENERATE[19..]));
}

// `openssl asn1parse` lists the content at octet 19, with a header of four octets.
#[test]
fn a_message_has_a_type_and_a_content(rt: HostRuntime) {
    let Ok(message) = ContentInfo::from_der(rt.alloc(), &ATTACHED) else {
        holds(&rt, false);
        return;
    };
    holds(&rt, message.content_type == id_signed_data());
    same(&rt, message.content.0.tag, Tag::Sequence);
    same_octets(&rt, message.content.0.contents, &ATTACHED[23..]);
}

#[test]
fn a_signed_message_has_a_content_and_a_certificate(rt: HostRuntime) {
    let alloc = rt.alloc();
    let Ok(data) = SignedData::from_der(alloc, &ATTACHED[19..]) else {
        holds(&rt, false);
        return;
    };
    same(&rt, data.version.to_number::<u8>(), Some(1));
    same(&rt, data.digest_algorithms.iter(alloc).count(), 1);
    for algorithm in data.digest_algorithms.iter(alloc) {
        holds(&rt, algorithm.oid == id_sha256());
        holds(&rt, algorithm.parameters.0.is_none());
    }
    holds(&rt, data.encap_content_info.e_content_type == id_data());
    match data.encap_content_info.e_content.0 {
        Some(content) => same_octets(&rt, content.0.octets(), b"hello\n"),
        None => holds(&rt, false),
    }
    holds(&rt, data.crls.0.is_none());
    let Some(certificates) = data.certificates.0 else {
        holds(&rt, false);
        return;
    };
    same_octets(&rt, certificates.0.items.octets(), &ATTACHED[68..384]);
    for choice in certificates.0.items.iter(alloc) {
        let CertificateChoices::Certificate(certificate) = choice else {
            holds(&rt, false);
            return;
        };
        let serial = certificate.tbs_certificate.serial_number;
        same(&rt, serial.to_number::<u8>(), Some(2));
    }
}

// `openssl asn1parse` lists the signer's issuer at octet 395, the algorithm of the signature at 534
// and the signature at 544.
#[test]
fn a_signer_is_named_by_issuer_and_serial_number(rt: HostRuntime) {
    let alloc = rt.alloc();
    let Ok(data) = SignedData::from_der(alloc, &ATTACHED[19..]) else {
        holds(&rt, false);
        return;
    };
    same(&rt, data.signer_infos.iter(alloc).count(), 1);
    for signer in data.signer_infos.iter(alloc) {
        same(&rt, signer.version.to_number::<u8>(), Some(1));
        match signer.sid {
            SignerIdentifier::IssuerAndSerialNumber(name) => {
                same_octets(&rt, name.issuer.levels.octets(), &ATTACHED[397..409]);
                same(&rt, name.serial_number.to_number::<u8>(), Some(2));
            }
            SignerIdentifier::SubjectKeyIdentifier(_) => holds(&rt, false),
        }
        holds(&rt, signer.digest_algorithm.oid == id_sha256());
        same_octets(
            &rt,
            signer.signature_algorithm.oid.octets(),
            &ATTACHED[536..544],
        );
        same_octets(&rt, signer.signature.octets(), &ATTACHED[546..]);
        holds(&rt, signer.unsigned_attrs.0.is_none());
    }
}

// `openssl asn1parse` lists the identifier of the key at octet 63.
#[test]
fn a_detached_signature_has_no_content(rt: HostRuntime) {
    let alloc = rt.alloc();
    let Ok(data) = SignedData::from_der(alloc, &BY_KEY[19..]) else {
        holds(&rt, false);
        return;
    };
    same(&rt, data.version.to_number::<u8>(), Some(3));
    holds(&rt, data.encap_content_info.e_content_type == id_data());
    holds(&rt, data.encap_content_info.e_content.0.is_none());
    holds(&rt, data.certificates.0.is_none());
    for signer in data.signer_infos.iter(alloc) {
        same(&rt, signer.version.to_number::<u8>(), Some(3));
        match signer.sid {
            SignerIdentifier::SubjectKeyIdentifier(key) => {
                same_octets(&rt, key.0.octets(), &BY_KEY[65..85]);
            }
            SignerIdentifier::IssuerAndSerialNumber(_) => holds(&rt, false),
        }
    }
}

// The serial number of the certificate that a signer names; 0 if it names a key.
fn serial_number(signer: &SignerIdentifier<'_>) -> u8 {
    match signer {
        SignerIdentifier::IssuerAndSerialNumber(name) => {
            name.serial_number.to_number::<u8>().unwrap_or(0)
        }
        SignerIdentifier::SubjectKeyIdentifier(_) => 0,
    }
}

#[test]
fn two_signers_are_in_ascending_order(rt: HostRuntime) {
    let alloc = rt.alloc();
    let Ok(data) = SignedData::from_der(alloc, &TWO[19..]) else {
        holds(&rt, false);
        return;
    };
    same(&rt, data.digest_algorithms.iter(alloc).count(), 1);
    let mut signers = data.signer_infos.iter(alloc);
    let (Some(first), Some(second)) = (signers.next(), signers.next()) else {
        holds(&rt, false);
        return;
    };
    same(&rt, serial_number(&first.sid), 2);
    same(&rt, serial_number(&second.sid), 4);
    holds(&rt, first.signed_attrs.0.is_none());
    holds(&rt, second.signed_attrs.0.is_none());
    holds(&rt, signers.next().is_none());
}

// `openssl crl -text` prints the number 1 of the list, and one entry with the serial number 7.
#[test]
fn a_message_without_signers_has_a_certificate_and_a_list(rt: HostRuntime) {
    let alloc = rt.alloc();
    let Ok(data) = SignedData::from_der(alloc, &DEGENERATE[19..]) else {
        holds(&rt, false);
        return;
    };
    same_octets(&rt, data.digest_algorithms.octets(), &[]);
    same_octets(&rt, data.signer_infos.octets(), &[]);
    let (Some(certificates), Some(lists)) = (data.certificates.0, data.crls.0) else {
        holds(&rt, false);
        return;
    };
    same(&rt, certificates.0.items.iter(alloc).count(), 1);
    same(&rt, lists.0.items.iter(alloc).count(), 1);
    for choice in lists.0.items.iter(alloc) {
        let RevocationInfoChoice::Crl(list) = choice else {
            holds(&rt, false);
            return;
        };
        let Some(entries) = list.tbs_cert_list.revoked_certificates.0 else {
            holds(&rt, false);
            return;
        };
        for entry in entries.iter(alloc) {
            same(&rt, entry.user_certificate.to_number::<u8>(), Some(7));
        }
    }
}

// Whether a content with this tag and these contents is read as a message, and written again.
fn has_content(alloc: Global, octets: &[u8], content: AnyRef<'_>) -> bool {
    match ContentInfo::from_der(alloc, octets) {
        Ok(message) => message.content.0 == content && is_same::<ContentInfo>(alloc, octets),
        Err(_) => false,
    }
}

// In PKCS #7, messages of the type id-data have an OCTET STRING: `openssl cms -data_create`.
#[test]
fn a_content_has_any_tag(rt: HostRuntime) {
    let data = b"\x30\x15\x06\x09\x2A\x86\x48\x86\xF7\x0D\x01\x07\x01\xA0\x08\x04\x06hello\n";
    let content = AnyRef {
        tag: Tag::OctetString,
        contents: b"hello\n",
    };
    holds(&rt, has_content(rt.alloc(), data, content));
    let null = AnyRef {
        tag: Tag::Null,
        contents: &[],
    };
    holds(
        &rt,
        has_content(rt.alloc(), b"\x30\x07\x06\x01\x2A\xA0\x02\x05\x00", null),
    );
}
