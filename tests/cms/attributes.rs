//! Attributes of signatures, and the values of those that RFC 5652 and RFC 5035 define.
use super::signed_octets::{ATTACHED, CADES, TWO};
use super::timestamp_octets::{RESPONSE, SHORT_RESPONSE};
use crate::checks::{holds, same, same_octets};
use crate::fixtures::again::{is_same, refusal};
use crate::fixtures::errors::{trailing, unexpected};
use cms::asn1::values::{
    id_aa_signing_certificate_v2, id_content_type, id_data, id_message_digest, id_sha256,
    id_signing_time,
};
use cms::{
    ContentType, Countersignature, EssCertIdV2, MessageDigest, SignedData, SigningCertificate,
    SigningCertificateV2, SigningTime,
};
use der::{DecodeBytes, ErrorKind, Length, Tag};
use x509::{GeneralName, Time};

// `openssl asn1parse` lists the three attributes at the octets 427, 453 and 483.
#[test]
fn attributes_are_in_ascending_order(rt: HostRuntime) {
    let alloc = rt.alloc();
    let Ok(data) = SignedData::from_der(alloc, &ATTACHED[19..]) else {
        holds(&rt, false);
        return;
    };
    for signer in data.signer_infos.iter(alloc) {
        let Some(attributes) = signer.signed_attrs.0 else {
            holds(&rt, false);
            return;
        };
        same_octets(&rt, attributes.0.octets(), &ATTACHED[427..532]);
        let mut items = attributes.0.iter(alloc);
        let (Some(kind), Some(time), Some(digest)) = (items.next(), items.next(), items.next())
        else {
            holds(&rt, false);
            return;
        };
        holds(&rt, kind.oid == id_content_type());
        same_octets(&rt, kind.values.octets(), &ATTACHED[442..453]);
        holds(&rt, time.oid == id_signing_time());
        same_octets(&rt, time.values.octets(), &ATTACHED[468..483]);
        holds(&rt, digest.oid == id_message_digest());
        same_octets(&rt, digest.values.octets(), &ATTACHED[498..532]);
        holds(&rt, items.next().is_none());
    }
}

// `openssl cms -cmsout -print` prints the time and the digest of the content, which is that of
// `openssl dgst -sha256 msg`.
#[test]
fn values_of_attributes_are_read(rt: HostRuntime) {
    let alloc = rt.alloc();
    match ContentType::from_der(alloc, &ATTACHED[442..453]) {
        Ok(kind) => holds(&rt, kind == id_data()),
        Err(_) => holds(&rt, false),
    }
    match SigningTime::from_der(alloc, &ATTACHED[468..483]) {
        Ok(Time::UtcTime(time)) => {
            let date = time.date_time();
            same(&rt, (date.year, date.month, date.day), (2026, 11, 27));
            same(&rt, (date.hour, date.minute, date.second), (4, 31, 56));
        }
        _ => holds(&rt, false),
    }
    let expected = b"\x58\x91\xB5\xB5\x22\xD5\xDF\x08\x6D\x0F\xF0\xB1\x10\xFB\xD9\xD2\
        \x1B\xB4\xFC\x71\x63\xAF\x34\xD0\x82\x86\xA2\xE8\x46\xF6\xBE\x03";
    match MessageDigest::from_der(alloc, &ATTACHED[498..532]) {
        Ok(digest) => same_octets(&rt, digest.octets(), expected),
        Err(_) => holds(&rt, false),
    }
}

// `openssl asn1parse` lists the value at octet 222, the hash at 228 and the issuer at 264.
#[test]
fn a_signing_certificate_has_a_hash_by_sha256(rt: HostRuntime) {
    let alloc = rt.alloc();
    same_octets(
        &rt,
        id_aa_signing_certificate_v2().octets(),
        &CADES[209..220],
    );
    holds(
        &rt,
        is_same::<SigningCertificateV2>(alloc, &CADES[222..285]),
    );
    let Ok(value) = SigningCertificateV2::from_der(alloc, &CADES[222..285]) else {
        holds(&rt, false);
        return;
    };
    holds(&rt, value.policies.0.is_none());
    same_octets(&rt, value.certs.octets(), &CADES[226..285]);
    for certificate in value.certs.iter(alloc) {
        holds(&rt, certificate.hash_algorithm.0.oid == id_sha256());
        holds(&rt, certificate.hash_algorithm.0.parameters.0.is_none());
        same_octets(&rt, certificate.cert_hash.octets(), &CADES[230..262]);
        let Some(issuer) = certificate.issuer_serial.0 else {
            holds(&rt, false);
            return;
        };
        same(&rt, issuer.serial_number.to_number::<u8>(), Some(2));
        for name in issuer.issuer.iter(alloc) {
            match name {
                GeneralName::DirectoryName(name) => {
                    same_octets(&rt, name.0.levels.octets(), &CADES[270..282]);
                }
                _ => holds(&rt, false),
            }
        }
    }
}

// `openssl asn1parse` lists the value of the timestamp's attribute at octet 716, with a hash alone.
#[test]
fn the_issuer_of_a_signing_certificate_is_optional(rt: HostRuntime) {
    let alloc = rt.alloc();
    let octets = &RESPONSE[716..756];
    holds(&rt, is_same::<SigningCertificateV2>(alloc, octets));
    let Ok(value) = SigningCertificateV2::from_der(alloc, octets) else {
        holds(&rt, false);
        return;
    };
    for certificate in value.certs.iter(alloc) {
        same_octets(&rt, certificate.cert_hash.octets(), &octets[8..40]);
        holds(&rt, certificate.issuer_serial.0.is_none());
    }
}

// `openssl asn1parse` lists the value of the timestamp's attribute at octet 276, and its hash,
// which is that of `openssl x509 -fingerprint -sha1`, at 282.
#[test]
fn a_signing_certificate_has_a_hash_by_sha1(rt: HostRuntime) {
    let alloc = rt.alloc();
    let octets = &SHORT_RESPONSE[276..304];
    holds(&rt, is_same::<SigningCertificate>(alloc, octets));
    let Ok(value) = SigningCertificate::from_der(alloc, octets) else {
        holds(&rt, false);
        return;
    };
    holds(&rt, value.policies.0.is_none());
    same(&rt, value.certs.iter(alloc).count(), 1);
    for certificate in value.certs.iter(alloc) {
        same_octets(&rt, certificate.cert_hash.octets(), &octets[8..28]);
        holds(&rt, certificate.issuer_serial.0.is_none());
    }
}

// SHA-512 and a hash of one octet (RFC 5035, 4).
static BY_SHA512: [u8; 18] = [
    0x30, 0x10, 0x30, 0x0B, 0x06, 0x09, 0x60, 0x86, 0x48, 0x01, 0x65, 0x03, 0x04, 0x02, 0x03, 0x04,
    0x01, 0x7F,
];

// X.690, 11.5: SHA-256 without parameters is the default, which is not written. The algorithm ends
// at octet 15.
#[test]
fn the_hash_algorithm_is_written_if_it_is_another_one(rt: HostRuntime) {
    let alloc = rt.alloc();
    let Ok(value) = EssCertIdV2::from_der(alloc, &BY_SHA512) else {
        holds(&rt, false);
        return;
    };
    same_octets(&rt, value.hash_algorithm.0.oid.octets(), &BY_SHA512[6..15]);
    holds(&rt, is_same::<EssCertIdV2>(alloc, &BY_SHA512));
    let mut octets = BY_SHA512;
    octets[14] = 0x01;
    let tag = Tag::Sequence;
    same(
        &rt,
        refusal::<EssCertIdV2>(alloc, &octets),
        Some(ErrorKind::Noncanonical { tag }.at(Length::new(15))),
    );
}

// Both fields are SEQUENCEs: policies that are absent are not certificates.
#[test]
fn other_octets_are_no_signing_certificate(rt: HostRuntime) {
    let alloc = rt.alloc();
    holds(
        &rt,
        is_same::<SigningCertificate>(alloc, &[0x30, 2, 0x30, 0]),
    );
    holds(
        &rt,
        is_same::<SigningCertificate>(alloc, &[0x30, 4, 0x30, 0, 0x30, 0]),
    );
    same(
        &rt,
        refusal::<SigningCertificate>(alloc, &[0x30, 4, 0x30, 0, 0x31, 0]),
        Some(trailing(4, 2)),
    );
    same(
        &rt,
        refusal::<SigningCertificate>(alloc, &[0x30, 4, 0x31, 0, 0x30, 0]),
        Some(unexpected(Tag::Sequence, Tag::Set)),
    );
}

// `openssl asn1parse` lists the signer at octet 57. A countersignature has its form (RFC 5652,
// 11.4).
#[test]
fn a_countersignature_is_a_signature_of_a_signature(rt: HostRuntime) {
    holds(&rt, is_same::<Countersignature>(rt.alloc(), &TWO[57..178]));
    holds(&rt, is_same::<Countersignature>(rt.alloc(), &TWO[178..]));
}
