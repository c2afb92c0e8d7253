//! Responses.
use super::octets::{BY_KEY, RESPONSE};
use crate::checks::{holds, same, same_at, same_octets};
use crate::fixtures::again::{is_same, refusal};
use crate::fixtures::errors::{trailing, unexpected};
use der::{DecodeBytes, Error, ErrorKind, Length, Tag};
use der_asn1::DateTime;
use ocsp::asn1::values::{id_pkix_ocsp_basic, id_pkix_ocsp_nonce};
use ocsp::{BasicOcspResponse, OcspResponse, OcspResponseStatus, ResponderId};
use std::alloc::Global;

#[test]
fn responses_are_written_as_they_were(rt: HostRuntime) {
    holds(&rt, is_same::<OcspResponse>(rt.alloc(), &RESPONSE));
    holds(&rt, is_same::<OcspResponse>(rt.alloc(), &BY_KEY));
    holds(&rt, is_same::<BasicOcspResponse>(rt.alloc(), &RESPONSE[30..709]));
    holds(&rt, is_same::<BasicOcspResponse>(rt.alloc(), &BY_KEY[26..229]));
}

// `openssl asn1parse` lists the octets of the basic response at octet 26.
#[test]
fn a_successful_response_has_a_basic_one(rt: HostRuntime) {
    let Ok(response) = OcspResponse::from_der(rt.alloc(), &RESPONSE) else {
        holds(&rt, false);
        return;
    };
    same(&rt, response.response_status.item(), OcspResponseStatus::Successful);
    let Some(bytes) = response.response_bytes.0 else {
        holds(&rt, false);
        return;
    };
    holds(&rt, bytes.0.response_type == id_pkix_ocsp_basic());
    same_octets(&rt, bytes.0.response.octets(), &RESPONSE[30..709]);
}

// RFC 6960, 4.2.1: 4 is not used.
#[test]
fn a_response_without_success_has_a_status_alone(rt: HostRuntime) {
    for (row, number, status) in [
        ("malformedRequest", 1, OcspResponseStatus::MalformedRequest),
        ("internalError", 2, OcspResponseStatus::InternalError),
        ("tryLater", 3, OcspResponseStatus::TryLater),
        ("sigRequired", 5, OcspResponseStatus::SigRequired),
        ("unauthorized", 6, OcspResponseStatus::Unauthorized),
    ] {
        let octets = [0x30, 3, 0x0A, 1, number];
        holds(&rt, is_same::<OcspResponse>(rt.alloc(), &octets));
        match OcspResponse::from_der(rt.alloc(), &octets) {
            Ok(response) => {
                same_at(&rt, row, response.response_status.item(), status);
                holds(&rt, response.response_bytes.0.is_none());
            }
            Err(_) => holds(&rt, false),
        }
    }
    let value = ErrorKind::Value {
        tag: Tag::Enumerated,
    };
    for number in [4, 7, 0xFF] {
        let octets = [0x30, 3, 0x0A, 1, number];
        let refused = refusal::<OcspResponse>(rt.alloc(), &octets);
        same_at(&rt, number, refused, Some(value.at(Length::new(5))));
    }
}

// The status is octet 6 of the file.
#[test]
fn a_response_belongs_to_success_alone(rt: HostRuntime) {
    let mut octets = RESPONSE;
    for (number, expected) in [(0, true), (1, false), (2, false), (3, false), (5, false), (6, false)] {
        octets[6] = number;
        match OcspResponse::from_der(rt.alloc(), &octets) {
            Ok(response) => same_at(&rt, number, response.has_response_of_status(), expected),
            Err(_) => holds(&rt, false),
        }
        match OcspResponse::from_der(rt.alloc(), &[0x30, 3, 0x0A, 1, number]) {
            Ok(response) => same_at(&rt, number, response.has_response_of_status(), !expected),
            Err(_) => holds(&rt, false),
        }
    }
}

// 2026-11-26 18:34:34, when both responses were made.
fn made() -> DateTime {
    DateTime {
        year: 2026,
        month: 11,
        day: 26,
        hour: 18,
        minute: 34,
        second: 34,
    }
}

// In the basic response, `openssl asn1parse` lists the first level of the responder's name at octet
// 12, and the value of the nonce at octet 384.
#[test]
fn a_responder_has_a_name(rt: HostRuntime) {
    let alloc = rt.alloc();
    let octets = &RESPONSE[30..709];
    let Ok(response) = BasicOcspResponse::from_der(alloc, octets) else {
        holds(&rt, false);
        return;
    };
    let data = &response.tbs_response_data;
    same(&rt, data.version.0.0.value.number, 0);
    match data.responder_id {
        ResponderId::ByName(name) => same_octets(&rt, name.0.levels.octets(), &octets[12..24]),
        ResponderId::ByKey(_) => holds(&rt, false),
    }
    same(&rt, data.produced_at.date_time(), made());
    same(&rt, data.responses.iter(alloc).count(), 3);
    let Some(extensions) = &data.response_extensions.0 else {
        holds(&rt, false);
        return;
    };
    for extension in extensions.0.items.iter(alloc) {
        holds(&rt, extension.extn_id == id_pkix_ocsp_nonce());
        same_octets(&rt, extension.extn_value.octets(), &octets[386..404]);
    }
}

// In the basic response, `openssl asn1parse` lists the signature at octet 411, and a certificate at
// octet 484.
#[test]
fn a_response_is_signed(rt: HostRuntime) {
    let alloc = rt.alloc();
    let octets = &RESPONSE[30..709];
    let Ok(response) = BasicOcspResponse::from_der(alloc, octets) else {
        holds(&rt, false);
        return;
    };
    same_octets(&rt, response.signature_algorithm.oid.octets(), &[0x2B, 0x65, 0x70]);
    same_octets(&rt, response.signature.octets(), &octets[413..478]);
    let Some(certificates) = response.certs.0 else {
        holds(&rt, false);
        return;
    };
    same_octets(&rt, certificates.0.items.octets(), &octets[484..679]);
    same(&rt, certificates.0.items.iter(alloc).count(), 1);
}

// In the basic response, `openssl asn1parse` lists the hash of the key at octet 7.
#[test]
fn a_responder_has_a_key(rt: HostRuntime) {
    let octets = &BY_KEY[26..229];
    let Ok(response) = BasicOcspResponse::from_der(rt.alloc(), octets) else {
        holds(&rt, false);
        return;
    };
    match response.tbs_response_data.responder_id {
        ResponderId::ByKey(hash) => same_octets(&rt, hash.0.octets(), &octets[9..29]),
        ResponderId::ByName(_) => holds(&rt, false),
    }
    same(&rt, response.tbs_response_data.produced_at.date_time(), made());
    holds(&rt, response.tbs_response_data.response_extensions.0.is_none());
    holds(&rt, response.certs.0.is_none());
}

// The error of the basic response with another octet at a place.
fn refusal_with(alloc: Global, place: usize, octet: u8) -> Option<Error> {
    let mut octets = RESPONSE;
    octets[30 + place] = octet;
    refusal::<BasicOcspResponse>(alloc, &octets[30..709])
}

// The responder begins at octet 8, the time at octet 24 with its month at 30, the extensions at
// 367, where the data end at 404, and the certificates at 478.
#[test]
fn other_octets_are_no_response(rt: HostRuntime) {
    let alloc = rt.alloc();
    same_at(
        &rt,
        "a UTCTime",
        refusal_with(alloc, 24, 0x17),
        Some(unexpected(Tag::GeneralizedTime, Tag::UtcTime)),
    );
    let time = ErrorKind::Value {
        tag: Tag::GeneralizedTime,
    };
    same_at(
        &rt,
        "month 13",
        refusal_with(alloc, 31, 0x33),
        Some(time.at(Length::new(41))),
    );
    same_at(
        &rt,
        "extensions with tag 2",
        refusal_with(alloc, 367, 0xA2),
        Some(trailing(367, 37)),
    );
    same_at(
        &rt,
        "certificates with tag 1",
        refusal_with(alloc, 478, 0xA1),
        Some(trailing(478, 201)),
    );
    let choice = ErrorKind::TagUnexpected {
        expected: None,
        actual: Tag::Set,
    };
    same_at(
        &rt,
        "a responder that is a SET",
        refusal_with(alloc, 8, 0x31),
        Some(choice.at(Length::new(8))),
    );
}
