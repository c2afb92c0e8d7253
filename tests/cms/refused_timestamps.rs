//! Octets that are no request for a timestamp, and no response. The errors follow from X.690.
use super::timestamp_octets::{FULL_REQUEST, REJECTED, REJECTED_ALGORITHM, REQUEST, RESPONSE};
use crate::checks::{holds, same, same_at};
use crate::fixtures::again::{is_same, refusal};
use crate::fixtures::errors::{trailing, unexpected};
use cms::{Accuracy, PkiStatusInfo, TimeStampReq, TimeStampResp, TstInfo};
use der::{DecodeBytes, Error, ErrorKind, Length, Tag};
use std::alloc::Global;
use std::process::Abort;

// The error of the second request with another octet at a place.
fn request_with(alloc: Global, place: usize, octet: u8) -> Option<Error> {
    let mut octets = FULL_REQUEST;
    octets[place] = octet;
    refusal::<TimeStampReq>(alloc, &octets)
}

// `openssl asn1parse` lists the digest at octet 5, the policy at 56, the number at 62 and the
// BOOLEAN at 73, which is the last field.
#[test]
fn other_octets_are_no_request(rt: HostRuntime) {
    let alloc = rt.alloc();
    let boolean = Tag::Boolean;
    for (row, place, octet, expected) in [
        (
            "a digest in a SET",
            5,
            0x31,
            unexpected(Tag::Sequence, Tag::Set),
        ),
        ("a policy that is a UTF8String", 56, 0x0C, trailing(56, 20)),
        ("a number that is an ENUMERATED", 62, 0x0A, trailing(62, 14)),
        (
            "a BOOLEAN of BER",
            75,
            0x01,
            ErrorKind::Value { tag: boolean }.at(Length::new(76)),
        ),
        (
            "a default that is written",
            75,
            0x00,
            ErrorKind::Noncanonical { tag: boolean }.at(Length::new(76)),
        ),
        ("a NULL behind the number", 73, 0x05, trailing(73, 3)),
    ] {
        same_at(&rt, row, request_with(alloc, place, octet), Some(expected));
    }
}

// The extension 1.2.3 with the octet 1: RFC 3161, 2.4.1.
#[test]
fn a_request_has_extensions_with_tag_0(rt: HostRuntime) {
    let alloc = rt.alloc();
    let mut octets = [0; 67];
    octets[..56].copy_from_slice(&REQUEST);
    octets[1] = 65;
    octets[56..].copy_from_slice(b"\xA0\x09\x30\x07\x06\x02\x2A\x03\x04\x01\x01");
    holds(&rt, is_same::<TimeStampReq>(alloc, &octets));
    match TimeStampReq::from_der(alloc, &octets) {
        Ok(request) => match request.extensions.0 {
            Some(extensions) => same(&rt, extensions.0.items.iter(alloc).count(), 1),
            None => holds(&rt, false),
        },
        Err(_) => holds(&rt, false),
    }
    octets[56] = 0xA1;
    same(
        &rt,
        refusal::<TimeStampReq>(alloc, &octets),
        Some(trailing(56, 11)),
    );
}

// The error of what a timestamp says with another octet at a place. It begins at octet 73 of the
// response.
fn timestamp_with(alloc: Global, place: usize, octet: u8) -> Option<Error> {
    let mut octets = RESPONSE;
    octets[73 + place] = octet;
    refusal::<TstInfo>(alloc, &octets[73..199])
}

// `openssl asn1parse -strparse 71` lists the time at octet 65 with its month at 71, the accuracy at
// 82, its parts at 84, 87 and 91, the order at 94, and the name at 108 with its form at 110, 18 and
// 16 octets from the end.
#[test]
fn other_octets_are_no_timestamp(rt: HostRuntime) {
    let alloc = rt.alloc();
    let time = Tag::GeneralizedTime;
    for (row, place, octet, expected) in [
        (
            "a UTCTime",
            65,
            0x17,
            unexpected(Tag::GeneralizedTime, Tag::UtcTime),
        ),
        (
            "month 21",
            71,
            0x32,
            ErrorKind::Value { tag: time }.at(Length::new(82)),
        ),
        ("an accuracy in a SET", 82, 0x31, trailing(82, 44)),
        ("a part with tag 2", 91, 0x82, trailing(91, 3)),
        (
            "an order that is not 255",
            96,
            1,
            ErrorKind::Value { tag: Tag::Boolean }.at(Length::new(97)),
        ),
        ("a name with tag 2", 108, 0xA2, trailing(108, 18)),
    ] {
        same_at(
            &rt,
            row,
            timestamp_with(alloc, place, octet),
            Some(expected),
        );
    }
}

// The time of a timestamp that has no more fields but the number 1 and this time.
fn with_time(alloc: Global, time: &[u8]) -> Option<Error> {
    let mut octets = [0; 96];
    let front =
        b"\x30\x00\x02\x01\x01\x06\x01\x2A\x30\x07\x30\x03\x06\x01\x2A\x04\x00\x02\x01\x01\x18";
    let end = 22 + time.len();
    octets[..21].copy_from_slice(front);
    octets[1] = (20 + time.len()) as u8;
    octets[21] = time.len() as u8;
    octets[22..end].copy_from_slice(time);
    refusal::<TstInfo>(alloc, &octets[..end])
}

// RFC 3161, 2.4.2, which cites X.690 11.7: seconds have to be there, a fraction has a full stop and
// does not end in 0, and the time ends in Z.
#[test]
fn a_fraction_of_a_second_has_one_form(rt: HostRuntime) {
    let alloc = rt.alloc();
    same(&rt, with_time(alloc, b"20261127043019Z"), None);
    same(&rt, with_time(alloc, b"20261127043019.5Z"), None);
    same(&rt, with_time(alloc, b"19990609001326.34352Z"), None);
    refuses_time(&rt, alloc, b"20261127043019");
    refuses_time(&rt, alloc, b"202611270430Z");
    refuses_time(&rt, alloc, b"20261127043019.Z");
    refuses_time(&rt, alloc, b"20261127043019.50Z");
    refuses_time(&rt, alloc, b"20261127043019.0Z");
    refuses_time(&rt, alloc, b"20261127043019,5Z");
    refuses_time(&rt, alloc, b"20261127043019.5");
    refuses_time(&rt, alloc, b"20261127043019.5+0100");
    refuses_time(&rt, alloc, b"20261127043019.5ZZ");
    refuses_time(&rt, alloc, b"20261327043019.5Z");
}

// The time is refused after its contents, which begin at octet 22.
fn refuses_time(rt: &impl Abort, alloc: Global, time: &[u8]) {
    let tag = Tag::GeneralizedTime;
    let end = Length::new(22 + time.len() as u32);
    same(rt, with_time(alloc, time), Some(ErrorKind::Value { tag }.at(end)));
}

// RFC 3161, 2.4.2: both parts are from 1 to 999.
#[test]
fn parts_of_an_accuracy_have_bounds(rt: HostRuntime) {
    let alloc = rt.alloc();
    let integer = ErrorKind::Value { tag: Tag::Integer };
    for octets in [
        [0x30, 4, 0x80, 2, 0x03, 0xE8],
        [0x30, 4, 0x80, 2, 0x00, 0x01],
        [0x30, 4, 0x81, 2, 0x03, 0xE8],
        [0x30, 4, 0x81, 2, 0x83, 0xE7],
    ] {
        let expected = Some(integer.at(Length::new(6)));
        same_at(
            &rt,
            octets[5],
            refusal::<Accuracy>(alloc, &octets),
            expected,
        );
    }
    same(
        &rt,
        refusal::<Accuracy>(alloc, &[0x30, 3, 0x80, 1, 0]),
        Some(integer.at(Length::new(5))),
    );
    same_at(
        &rt,
        "in another order",
        refusal::<Accuracy>(alloc, &[0x30, 6, 0x81, 1, 1, 0x80, 1, 1]),
        Some(trailing(5, 3)),
    );
}

// RFC 3161, 2.4.2: clients must refuse other numbers than 0 to 5.
#[test]
fn a_status_has_a_known_number(rt: HostRuntime) {
    let alloc = rt.alloc();
    let integer = ErrorKind::Value { tag: Tag::Integer };
    for number in [0, 1, 2, 3, 4, 5] {
        holds(
            &rt,
            is_same::<PkiStatusInfo>(alloc, &[0x30, 3, 2, 1, number]),
        );
    }
    for number in [6, 0x7F, 0xFF] {
        let octets = [0x30, 3, 2, 1, number];
        let expected = Some(integer.at(Length::new(5)));
        same_at(
            &rt,
            number,
            refusal::<PkiStatusInfo>(alloc, &octets),
            expected,
        );
    }
}

// The reason begins at octet 45 with its unused bits at 47; in the second response at octet 53 with
// them at 55. X.690, 11.2.2: no bits that are zero stand at the end of named bits.
#[test]
fn a_reason_has_no_zero_bits_at_its_end(rt: HostRuntime) {
    let alloc = rt.alloc();
    let bits = ErrorKind::Value {
        tag: Tag::BitString,
    };
    let mut octets = REJECTED;
    octets[49] = 0x00;
    same(
        &rt,
        refusal::<TimeStampResp>(alloc, &octets),
        Some(bits.at(Length::new(50))),
    );
    let mut octets = REJECTED_ALGORITHM;
    octets[55] = 0x06;
    same(
        &rt,
        refusal::<TimeStampResp>(alloc, &octets),
        Some(bits.at(Length::new(57))),
    );
}

// The timestamp begins at octet 9, 832 octets from the end.
#[test]
fn a_response_has_one_timestamp(rt: HostRuntime) {
    let alloc = rt.alloc();
    let mut octets = RESPONSE;
    octets[9] = 0x31;
    same(
        &rt,
        refusal::<TimeStampResp>(alloc, &octets),
        Some(trailing(9, 832)),
    );
}
