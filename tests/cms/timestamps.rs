//! Requests for timestamps, and responses.
use super::timestamp_octets::{
    FRACTION, FULL_REQUEST, REJECTED, REJECTED_ALGORITHM, REQUEST, RESPONSE, SHORT_RESPONSE,
};
use crate::checks::{holds, same, same_octets};
use crate::fixtures::again::is_same;
use cms::asn1::values::{id_ct_tst_info, id_sha256, id_signed_data};
use cms::{
    Accuracy, PkiFailureInfoBit, PkiStatus, SignedData, TimeStampReq, TimeStampResp,
    TimeStampToken, TstInfo,
};
use der::DecodeBytes;
use der_asn1::DateTime;
use std::alloc::Global;
use x509::GeneralName;

// The number of each request and its timestamp, as `openssl ts -query -text` prints it.
static NONCE: [u8; 9] = [0x00, 0xE9, 0x1E, 0xD5, 0x58, 0x26, 0x9A, 0x0E, 0x28];

#[test]
fn requests_are_written_as_they_were(rt: HostRuntime) {
    holds(&rt, is_same::<TimeStampReq>(rt.alloc(), &REQUEST));
    holds(&rt, is_same::<TimeStampReq>(rt.alloc(), &FULL_REQUEST));
}

#[test]
fn responses_are_written_as_they_were(rt: HostRuntime) {
    let alloc = rt.alloc();
    holds(&rt, is_same::<TimeStampResp>(alloc, &RESPONSE));
    holds(&rt, is_same::<TimeStampResp>(alloc, &SHORT_RESPONSE));
    holds(&rt, is_same::<TimeStampResp>(alloc, &REJECTED));
    holds(&rt, is_same::<TimeStampResp>(alloc, &REJECTED_ALGORITHM));
    holds(&rt, is_same::<TimeStampToken>(alloc, &RESPONSE[9..]));
    holds(&rt, is_same::<SignedData>(alloc, &RESPONSE[28..]));
    holds(&rt, is_same::<SignedData>(alloc, &SHORT_RESPONSE[28..]));
    holds(&rt, is_same::<TstInfo>(alloc, &RESPONSE[73..199]));
    holds(&rt, is_same::<TstInfo>(alloc, &SHORT_RESPONSE[71..153]));
    holds(&rt, is_same::<TstInfo>(alloc, &FRACTION));
}

// `openssl asn1parse` lists the digest, which is that of `openssl dgst -sha256 msg`, at octet 22.
#[test]
fn a_request_has_a_digest_alone(rt: HostRuntime) {
    let Ok(request) = TimeStampReq::from_der(rt.alloc(), &REQUEST) else {
        holds(&rt, false);
        return;
    };
    same(&rt, request.version.to_number::<u8>(), Some(1));
    holds(
        &rt,
        request.message_imprint.hash_algorithm.oid == id_sha256(),
    );
    same_octets(
        &rt,
        request.message_imprint.hashed_message.octets(),
        &REQUEST[24..56],
    );
    holds(&rt, request.req_policy.0.is_none());
    holds(&rt, request.nonce.0.is_none());
    holds(&rt, !request.cert_req.0.is_true());
    holds(&rt, request.extensions.0.is_none());
}

#[test]
fn a_request_has_a_policy_and_a_number(rt: HostRuntime) {
    let Ok(request) = TimeStampReq::from_der(rt.alloc(), &FULL_REQUEST) else {
        holds(&rt, false);
        return;
    };
    let (Some(policy), Some(nonce)) = (request.req_policy.0, request.nonce.0) else {
        holds(&rt, false);
        return;
    };
    same_octets(&rt, policy.octets(), &[42, 3, 4, 5]);
    same_octets(&rt, nonce.octets(), &NONCE);
    holds(&rt, request.cert_req.0.is_true());
}

// `openssl asn1parse` lists the content type of the timestamp at octet 13, and the SignedData at
// 28.
#[test]
fn a_response_has_a_timestamp(rt: HostRuntime) {
    let alloc = rt.alloc();
    let Ok(response) = TimeStampResp::from_der(alloc, &RESPONSE) else {
        holds(&rt, false);
        return;
    };
    same(&rt, response.status.status.item(), PkiStatus::Granted);
    holds(&rt, response.status.status_string.0.is_none());
    holds(&rt, response.status.fail_info.0.is_none());
    let Some(token) = response.time_stamp_token.0 else {
        holds(&rt, false);
        return;
    };
    holds(&rt, token.content_type == id_signed_data());
    let Ok(data) = SignedData::from_der(alloc, &RESPONSE[28..]) else {
        holds(&rt, false);
        return;
    };
    same(&rt, data.version.to_number::<u8>(), Some(3));
    holds(
        &rt,
        data.encap_content_info.e_content_type == id_ct_tst_info(),
    );
    match data.encap_content_info.e_content.0 {
        Some(content) => same_octets(&rt, content.0.octets(), &RESPONSE[73..199]),
        None => holds(&rt, false),
    }
    holds(&rt, data.certificates.0.is_some());
}

// 2026-11-27 04:30:19, when both timestamps were made.
fn made() -> DateTime {
    DateTime {
        year: 2026,
        month: 11,
        day: 27,
        hour: 4,
        minute: 30,
        second: 19,
    }
}

// What `openssl ts -reply -text` prints: the policy, the number, the time, the accuracy, the order
// and the name.
#[test]
fn a_timestamp_has_all_fields(rt: HostRuntime) {
    let octets = &RESPONSE[73..199];
    let Ok(info) = TstInfo::from_der(rt.alloc(), octets) else {
        holds(&rt, false);
        return;
    };
    same(&rt, info.version.to_number::<u8>(), Some(1));
    same_octets(&rt, info.policy.octets(), &[42, 3, 4, 5]);
    same_octets(
        &rt,
        info.message_imprint.hashed_message.octets(),
        &REQUEST[24..56],
    );
    same(&rt, info.serial_number.to_number::<u8>(), Some(2));
    same(&rt, info.gen_time.date_time(), made());
    holds(&rt, info.ordering.0.is_true());
    match info.nonce.0 {
        Some(nonce) => same_octets(&rt, nonce.octets(), &NONCE),
        None => holds(&rt, false),
    }
    let Some(authority) = info.tsa.0 else {
        holds(&rt, false);
        return;
    };
    match authority.0.value {
        GeneralName::DirectoryName(name) => {
            same_octets(&rt, name.0.levels.octets(), &octets[114..126]);
        }
        _ => holds(&rt, false),
    }
    holds(&rt, info.extensions.0.is_none());
}

#[test]
fn a_timestamp_is_accurate_to_parts_of_a_second(rt: HostRuntime) {
    let Ok(info) = TstInfo::from_der(rt.alloc(), &RESPONSE[73..199]) else {
        holds(&rt, false);
        return;
    };
    let Some(accuracy) = info.accuracy.0 else {
        holds(&rt, false);
        return;
    };
    match (accuracy.seconds.0, accuracy.millis.0, accuracy.micros.0) {
        (Some(seconds), Some(millis), Some(micros)) => {
            same(&rt, seconds.to_number::<u8>(), Some(1));
            same(&rt, millis.0.get(), 500);
            same(&rt, micros.0.get(), 100);
        }
        _ => holds(&rt, false),
    }
}

#[test]
fn a_timestamp_may_have_no_optional_field(rt: HostRuntime) {
    let Ok(info) = TstInfo::from_der(rt.alloc(), &SHORT_RESPONSE[71..153]) else {
        holds(&rt, false);
        return;
    };
    same_octets(&rt, info.policy.octets(), &[42, 3, 4, 1]);
    same(&rt, info.serial_number.to_number::<u8>(), Some(3));
    same(&rt, info.gen_time.date_time(), made());
    holds(&rt, info.accuracy.0.is_none());
    holds(&rt, !info.ordering.0.is_true());
    holds(&rt, info.nonce.0.is_none());
    holds(&rt, info.tsa.0.is_none());
}

// What `openssl ts -reply -text` prints: 03:49:03.714044.
#[test]
fn the_time_of_a_timestamp_has_a_fraction(rt: HostRuntime) {
    let Ok(info) = TstInfo::from_der(rt.alloc(), &FRACTION) else {
        holds(&rt, false);
        return;
    };
    let time = info.gen_time.date_time();
    same(&rt, (time.year, time.month, time.day), (2026, 11, 29));
    same(&rt, (time.hour, time.minute, time.second), (3, 49, 3));
    same(&rt, info.gen_time.nanoseconds(), 714_044_000);
    let text = format!(in rt.alloc(); "{time}");
    holds(&rt, text.is_ok_and(|it| it.as_str() == "2026-11-29T03:49:03Z"));
}

// Whether the octets are read and written as an accuracy, with these parts.
fn has_parts(alloc: Global, octets: &[u8], millis: Option<u64>, micros: Option<u64>) -> bool {
    let Ok(accuracy) = Accuracy::from_der(alloc, octets) else {
        return false;
    };
    accuracy.seconds.0.is_none()
        && accuracy.millis.0.map(|part| part.0.get()) == millis
        && accuracy.micros.0.map(|part| part.0.get()) == micros
        && is_same::<Accuracy>(alloc, octets)
}

#[test]
fn each_part_of_an_accuracy_is_optional(rt: HostRuntime) {
    let alloc = rt.alloc();
    holds(&rt, has_parts(alloc, &[0x30, 0], None, None));
    holds(&rt, has_parts(alloc, &[0x30, 3, 0x80, 1, 1], Some(1), None));
    holds(
        &rt,
        has_parts(alloc, &[0x30, 4, 0x81, 2, 3, 0xE7], None, Some(999)),
    );
}

// `openssl ts -reply -text` prints both texts, and the reasons unacceptedPolicy and badAlg.
#[test]
fn a_rejection_has_a_reason(rt: HostRuntime) {
    let alloc = rt.alloc();
    for (octets, bit, text) in [
        (
            &REJECTED[..],
            PkiFailureInfoBit::UnacceptedPolicy,
            "Requested policy is not supported.",
        ),
        (
            &REJECTED_ALGORITHM[..],
            PkiFailureInfoBit::BadAlg,
            "Message digest algorithm is not supported.",
        ),
    ] {
        let Ok(response) = TimeStampResp::from_der(alloc, octets) else {
            holds(&rt, false);
            return;
        };
        same(&rt, response.status.status.item(), PkiStatus::Rejection);
        holds(&rt, response.time_stamp_token.0.is_none());
        let (Some(texts), Some(reason)) = (
            response.status.status_string.0,
            response.status.fail_info.0,
        ) else {
            holds(&rt, false);
            return;
        };
        for found in texts.iter(alloc) {
            same(&rt, found.as_str(), text);
        }
        holds(&rt, reason.has_bit(bit as u32));
        holds(&rt, !reason.has_bit(PkiFailureInfoBit::BadRequest as u32));
    }
}
