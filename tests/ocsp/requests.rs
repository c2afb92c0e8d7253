//! Requests for the status of certificates.
use super::octets::{REQUEST, SIGNED};
use crate::checks::{holds, same, same_at, same_octets};
use crate::fixtures::again::{is_same, refusal};
use crate::fixtures::errors::{incomplete, trailing, unexpected};
use der::{DecodeBytes, Error, ErrorKind, Length, Tag, TagNumber};
use ocsp::asn1::values::id_pkix_ocsp_nonce;
use ocsp::{Nonce, OcspRequest};
use std::alloc::Global;
use x509::GeneralName;

#[test]
fn requests_are_written_as_they_were(rt: HostRuntime) {
    holds(&rt, is_same::<OcspRequest>(rt.alloc(), &REQUEST));
    holds(&rt, is_same::<OcspRequest>(rt.alloc(), &SIGNED));
}

// `openssl asn1parse` lists the hashes at octets 21 and 43, and the serial number at octet 65.
#[test]
fn a_request_identifies_its_certificate(rt: HostRuntime) {
    let alloc = rt.alloc();
    let Ok(request) = OcspRequest::from_der(alloc, &REQUEST) else {
        holds(&rt, false);
        return;
    };
    holds(&rt, request.optional_signature.0.is_none());
    same(&rt, request.tbs_request.version.0.0.value.number, 0);
    holds(&rt, request.tbs_request.requestor_name.0.is_none());
    holds(&rt, request.tbs_request.request_extensions.0.is_none());
    same(&rt, request.tbs_request.request_list.iter(alloc).count(), 1);
    for one in request.tbs_request.request_list.iter(alloc) {
        same_octets(&rt, one.req_cert.hash_algorithm.oid.octets(), &[0x2B, 0x0E, 3, 2, 0x1A]);
        same_octets(&rt, one.req_cert.issuer_name_hash.octets(), &REQUEST[23..43]);
        same_octets(&rt, one.req_cert.issuer_key_hash.octets(), &REQUEST[45..65]);
        same(&rt, one.req_cert.serial_number.to_number::<u8>(), Some(3));
        holds(&rt, one.single_request_extensions.0.is_none());
    }
}

// `openssl asn1parse` lists the requestor's name at octet 11, with its first level at 13, and the
// value of the nonce at octet 168.
#[test]
fn a_signed_request_names_its_requestor(rt: HostRuntime) {
    let alloc = rt.alloc();
    let Ok(request) = OcspRequest::from_der(alloc, &SIGNED) else {
        holds(&rt, false);
        return;
    };
    let (Some(name), Some(extensions)) = (
        request.tbs_request.requestor_name.0,
        request.tbs_request.request_extensions.0,
    ) else {
        holds(&rt, false);
        return;
    };
    match name.0.value {
        GeneralName::DirectoryName(name) => {
            same_octets(&rt, name.0.levels.octets(), &SIGNED[13..25]);
        }
        _ => holds(&rt, false),
    }
    let mut serial = 3;
    for one in request.tbs_request.request_list.iter(alloc) {
        same(&rt, one.req_cert.serial_number.to_number::<u8>(), Some(serial));
        serial += 1;
    }
    same(&rt, serial, 5);
    for extension in extensions.0.items.iter(alloc) {
        holds(&rt, extension.extn_id == id_pkix_ocsp_nonce());
        match Nonce::from_der(alloc, extension.extn_value.octets()) {
            Ok(nonce) => same_octets(&rt, nonce.octets(), &SIGNED[172..188]),
            Err(_) => holds(&rt, false),
        }
    }
}

// `openssl asn1parse` lists the algorithm at octet 198, the signature at 203 and the certificate at
// 276, whose serial number is 1.
#[test]
fn a_signature_has_a_certificate(rt: HostRuntime) {
    let alloc = rt.alloc();
    let Ok(request) = OcspRequest::from_der(alloc, &SIGNED) else {
        holds(&rt, false);
        return;
    };
    let Some(signature) = request.optional_signature.0 else {
        holds(&rt, false);
        return;
    };
    same_octets(&rt, signature.0.signature_algorithm.oid.octets(), &[0x2B, 0x65, 0x70]);
    same_octets(&rt, signature.0.signature.octets(), &SIGNED[205..270]);
    let Some(certificates) = signature.0.certs.0 else {
        holds(&rt, false);
        return;
    };
    same(&rt, certificates.0.items.iter(alloc).count(), 1);
    for certificate in certificates.0.items.iter(alloc) {
        same_octets(&rt, certificate.tbs_certificate.serial_number.octets(), &[1]);
        same_octets(&rt, certificate.signature.octets(), &SIGNED[406..471]);
    }
}

// No certificates, and this version.
fn versioned(version: u8) -> [u8; 11] {
    [0x30, 9, 0x30, 7, 0xA0, 3, 2, 1, version, 0x30, 0]
}

// The version is octets 4 to 8.
#[test]
fn version_1_is_absent(rt: HostRuntime) {
    let alloc = rt.alloc();
    holds(&rt, is_same::<OcspRequest>(alloc, &[0x30, 4, 0x30, 2, 0x30, 0]));
    holds(&rt, is_same::<OcspRequest>(alloc, &versioned(1)));
    match OcspRequest::from_der(alloc, &versioned(1)) {
        Ok(request) => same(&rt, request.tbs_request.version.0.0.value.number, 1),
        Err(_) => holds(&rt, false),
    }
    let tag = Tag::ContextSpecific {
        constructed: true,
        number: TagNumber(0),
    };
    same(
        &rt,
        refusal::<OcspRequest>(alloc, &versioned(0)),
        Some(ErrorKind::Noncanonical { tag }.at(Length::new(9))),
    );
}

// The error of the request with another octet at a place.
fn refusal_with(alloc: Global, place: usize, octet: u8) -> Option<Error> {
    let mut octets = REQUEST;
    octets[place] = octet;
    refusal::<OcspRequest>(alloc, &octets)
}

// The algorithm begins at octet 10, the hash of the name at octet 21 and the serial number at 65,
// with its length at 66.
#[test]
fn other_octets_are_no_request(rt: HostRuntime) {
    let alloc = rt.alloc();
    same_at(
        &rt,
        "an algorithm that is a SET",
        refusal_with(alloc, 10, 0x31),
        Some(unexpected(Tag::Sequence, Tag::Set)),
    );
    same_at(
        &rt,
        "a hash that is a BIT STRING",
        refusal_with(alloc, 21, 0x03),
        Some(unexpected(Tag::OctetString, Tag::BitString)),
    );
    same_at(
        &rt,
        "a serial number with two octets of one",
        refusal_with(alloc, 66, 2),
        Some(incomplete(69, 68, 68)),
    );
    same_at(
        &rt,
        "a serial number of no octets",
        refusal_with(alloc, 66, 0),
        Some(ErrorKind::Value { tag: Tag::Integer }.at(Length::new(67))),
    );
}

// The requestor's name begins at octet 9, and the certificates at 270, 201 octets from the end.
#[test]
fn other_octets_are_no_signed_request(rt: HostRuntime) {
    let mut octets = SIGNED;
    octets[9] = 0xA9;
    let choice = ErrorKind::TagUnexpected {
        expected: None,
        actual: Tag::ContextSpecific {
            constructed: true,
            number: TagNumber(9),
        },
    };
    same_at(
        &rt,
        "a form of names that there is not",
        refusal::<OcspRequest>(rt.alloc(), &octets),
        Some(choice.at(Length::new(9))),
    );
    octets = SIGNED;
    octets[270] = 0xA1;
    same_at(
        &rt,
        "certificates with tag 1",
        refusal::<OcspRequest>(rt.alloc(), &octets),
        Some(trailing(270, 201)),
    );
}
