//! The status of a certificate.
use super::octets::RESPONSE;
use crate::checks::{holds, same, same_at, same_octets};
use crate::fixtures::again::{is_same, refusal};
use crate::fixtures::errors::{trailing, unexpected};
use der::{DecodeBytes, Error, ErrorKind, Length, Tag, TagNumber};
use der_asn1::DateTime;
use ocsp::{BasicOcspResponse, CertStatus, RevokedInfo, SingleResponse};
use std::alloc::Global;
use x509::CrlReason;

// 1 if the status is good, 2 if it is revoked, 3 if it is unknown.
fn number_of(status: &CertStatus) -> u8 {
    match status {
        CertStatus::Good(_) => 1,
        CertStatus::Revoked(_) => 2,
        CertStatus::Unknown(_) => 3,
    }
}

// What `openssl ocsp -respin -text` prints: certificate 3 is good, certificate 4 is revoked, and
// certificate 5 is unknown; all were known to be so when the response was made, and will be known
// anew seven days later.
#[test]
fn each_certificate_has_a_status(rt: HostRuntime) {
    let alloc = rt.alloc();
    let Ok(response) = BasicOcspResponse::from_der(alloc, &RESPONSE[30..709]) else {
        holds(&rt, false);
        return;
    };
    let mut status = 1;
    for single in response.tbs_response_data.responses.iter(alloc) {
        same(&rt, single.cert_id.serial_number.to_number::<u8>(), Some(status + 2));
        same(&rt, number_of(&single.cert_status), status);
        same(&rt, single.this_update.date_time().day, 26);
        match single.next_update.0 {
            Some(time) => same(&rt, time.0.date_time().day, 3),
            None => holds(&rt, false),
        }
        holds(&rt, single.single_extensions.0.is_none());
        status += 1;
    }
    same(&rt, status, 4);
}

// In the basic response, `openssl asn1parse` lists the three at octets 45, 145 and 267, and the end
// of the last at 367; so these are octets of the file that are 30 higher.
#[test]
fn a_single_status_is_written_as_it_was(rt: HostRuntime) {
    holds(&rt, is_same::<SingleResponse>(rt.alloc(), &RESPONSE[75..175]));
    holds(&rt, is_same::<SingleResponse>(rt.alloc(), &RESPONSE[175..297]));
    holds(&rt, is_same::<SingleResponse>(rt.alloc(), &RESPONSE[297..397]));
}

// The second status is octets 207 to 230 of the basic response. As a SEQUENCE it begins with 0x30.
fn revoked() -> [u8; 24] {
    let mut octets = [0; 24];
    octets.copy_from_slice(&RESPONSE[237..261]);
    octets
}

#[test]
fn a_revoked_certificate_has_a_time_and_a_reason(rt: HostRuntime) {
    let octets = revoked();
    holds(&rt, is_same::<CertStatus>(rt.alloc(), &octets));
    match CertStatus::from_der(rt.alloc(), &octets) {
        Ok(CertStatus::Revoked(info)) => {
            let since = DateTime {
                year: 2026,
                month: 11,
                day: 1,
                hour: 12,
                minute: 0,
                second: 0,
            };
            same(&rt, info.0.revocation_time.date_time(), since);
            match info.0.revocation_reason.0 {
                Some(reason) => same(&rt, reason.0.item(), CrlReason::KeyCompromise),
                None => holds(&rt, false),
            }
        }
        _ => holds(&rt, false),
    }
}

#[test]
fn a_status_alone_has_no_contents(rt: HostRuntime) {
    holds(&rt, is_same::<CertStatus>(rt.alloc(), &[0x80, 0]));
    holds(&rt, is_same::<CertStatus>(rt.alloc(), &[0x82, 0]));
    let null = ErrorKind::Value { tag: Tag::Null };
    same(
        &rt,
        refusal::<CertStatus>(rt.alloc(), &[0x80, 1, 0]),
        Some(null.at(Length::new(3))),
    );
    let choice = ErrorKind::TagUnexpected {
        expected: None,
        actual: Tag::ContextSpecific {
            constructed: false,
            number: TagNumber(3),
        },
    };
    same(
        &rt,
        refusal::<CertStatus>(rt.alloc(), &[0x83, 0]),
        Some(choice.at(Length::new(0))),
    );
}

// A revocation without a reason: 2026-11-01 12:00:00.
static WITHOUT_REASON: [u8; 19] = *b"\x30\x11\x18\x0F20261101120000Z";

#[test]
fn a_reason_is_optional(rt: HostRuntime) {
    holds(&rt, is_same::<RevokedInfo>(rt.alloc(), &WITHOUT_REASON));
    match RevokedInfo::from_der(rt.alloc(), &WITHOUT_REASON) {
        Ok(info) => holds(&rt, info.revocation_reason.0.is_none()),
        Err(_) => holds(&rt, false),
    }
}

// The error of the second status with another octet at a place.
fn refusal_with(alloc: Global, place: usize, octet: u8) -> Option<Error> {
    let mut octets = revoked();
    octets[place] = octet;
    refusal::<CertStatus>(alloc, &octets)
}

// The time is octets 2 to 18, the reason octets 19 to 23.
#[test]
fn other_octets_are_no_revocation(rt: HostRuntime) {
    let alloc = rt.alloc();
    same_octets(&rt, &revoked()[19..24], &[0xA0, 3, 0x0A, 1, 1]);
    let reason = ErrorKind::Value {
        tag: Tag::Enumerated,
    };
    same_at(
        &rt,
        "reason 7, which there is not",
        refusal_with(alloc, 23, 7),
        Some(reason.at(Length::new(24))),
    );
    same_at(
        &rt,
        "a reason that is an INTEGER",
        refusal_with(alloc, 21, 0x02),
        Some(unexpected(Tag::Enumerated, Tag::Integer)),
    );
    same_at(
        &rt,
        "a reason with tag 1",
        refusal_with(alloc, 19, 0xA1),
        Some(trailing(19, 5)),
    );
    let time = ErrorKind::Value {
        tag: Tag::GeneralizedTime,
    };
    same_at(
        &rt,
        "a time without Z",
        refusal_with(alloc, 18, 0x30),
        Some(time.at(Length::new(19))),
    );
}
