//! Certificates.
use crate::checks::{holds, same_at};
use der::{DecodeBytes, Encode, Error, ErrorKind, Length, Tag, TagNumber};
use der_asn1::DateTime;
use std::alloc::Global;
use x509::{Certificate, Time};
use x509_lint::checks::{has_fields_of_version, has_same_algorithms};

/// Ed25519, version 3, with four extensions: `openssl req -x509 -set_serial 0x4A7B -subj
/// /CN=example.org -addext keyUsage=critical,digitalSignature`.
pub static SELF_SIGNED: [u8; 322] = [
    0x30, 0x82, 0x01, 0x3E, 0x30, 0x81, 0xF1, 0xA0, 0x03, 0x02, 0x01, 0x02, 0x02, 0x02, 0x4A, 0x7B,
    0x30, 0x05, 0x06, 0x03, 0x2B, 0x65, 0x70, 0x30, 0x16, 0x31, 0x14, 0x30, 0x12, 0x06, 0x03, 0x55,
    0x04, 0x03, 0x0C, 0x0B, 0x65, 0x78, 0x61, 0x6D, 0x70, 0x6C, 0x65, 0x2E, 0x6F, 0x72, 0x67, 0x30,
    0x1E, 0x17, 0x0D, 0x32, 0x36, 0x31, 0x31, 0x32, 0x35, 0x32, 0x30, 0x31, 0x35, 0x34, 0x39, 0x5A,
    0x17, 0x0D, 0x32, 0x37, 0x31, 0x31, 0x32, 0x35, 0x32, 0x30, 0x31, 0x35, 0x34, 0x39, 0x5A, 0x30,
    0x16, 0x31, 0x14, 0x30, 0x12, 0x06, 0x03, 0x55, 0x04, 0x03, 0x0C, 0x0B, 0x65, 0x78, 0x61, 0x6D,
    0x70, 0x6C, 0x65, 0x2E, 0x6F, 0x72, 0x67, 0x30, 0x2A, 0x30, 0x05, 0x06, 0x03, 0x2B, 0x65, 0x70,
    0x03, 0x21, 0x00, 0xCC, 0x0C, 0x82, 0x2E, 0xA0, 0xB3, 0xD1, 0x40, 0x04, 0xF6, 0x91, 0xE0, 0x90,
    0xE8, 0xBB, 0x29, 0xEA, 0x26, 0x5B, 0x01, 0x3F, 0x4A, 0xD0, 0x60, 0x0A, 0xBF, 0x31, 0xEF, 0x1F,
    0x72, 0xBD, 0x22, 0xA3, 0x63, 0x30, 0x61, 0x30, 0x1D, 0x06, 0x03, 0x55, 0x1D, 0x0E, 0x04, 0x16,
    0x04, 0x14, 0x1D, 0xE3, 0x47, 0x22, 0x0F, 0x8D, 0xF5, 0x7F, 0x84, 0x28, 0x4C, 0xC4, 0xFD, 0xB0,
    0xD9, 0xA0, 0xA5, 0xBE, 0xBB, 0x7D, 0x30, 0x1F, 0x06, 0x03, 0x55, 0x1D, 0x23, 0x04, 0x18, 0x30,
    0x16, 0x80, 0x14, 0x1D, 0xE3, 0x47, 0x22, 0x0F, 0x8D, 0xF5, 0x7F, 0x84, 0x28, 0x4C, 0xC4, 0xFD,
    0xB0, 0xD9, 0xA0, 0xA5, 0xBE, 0xBB, 0x7D, 0x30, 0x0F, 0x06, 0x03, 0x55, 0x1D, 0x13, 0x01, 0x01,
    0xFF, 0x04, 0x05, 0x30, 0x03, 0x01, 0x01, 0xFF, 0x30, 0x0E, 0x06, 0x03, 0x55, 0x1D, 0x0F, 0x01,
    0x01, 0xFF, 0x04, 0x04, 0x03, 0x02, 0x07, 0x80, 0x30, 0x05, 0x06, 0x03, 0x2B, 0x65, 0x70, 0x03,
    0x41, 0x00, 0x5E, 0x89, 0x5C, 0x32, 0x3E, 0xA6, 0x15, 0x41, 0x3E, 0xF5, 0xD0, 0xF1, 0x2A, 0xD6,
    0xDF, 0xDE, 0xEE, 0xA9, 0xCA, 0xD5, 0xF7, 0x56, 0xA1, 0x03, 0xFC, 0xF0, 0xA5, 0x55, 0xF1, 0x1B,
    0x27, 0x2C, 0x71, 0x58, 0xB8, 0x4F, 0x96, 0x99, 0xC6, 0x00, 0xCD, 0xD9, 0x55, 0x0E, 0xEE, 0x57,
    0x96, 0x99, 0x22, 0x2E, 0x79, 0xF3, 0xDC, 0xA2, 0x7D, 0x74, 0xD0, 0xE4, 0x99, 0x84, 0x16, 0xA5,
    0x1D, 0x0D,
];

// The date and the time.
fn date_time(time: &Time) -> DateTime {
    match time {
        Time::UtcTime(time) => time.date_time(),
        Time::GeneralTime(time) => time.date_time(),
    }
}

#[test]
fn a_certificate_is_read_and_written_as_it_was(rt: HostRuntime) {
    let Ok(certificate) = Certificate::from_der(rt.alloc(), &SELF_SIGNED) else {
        holds(&rt, false);
        return;
    };
    let written = certificate.to_der(rt.alloc());
    holds(
        &rt,
        written.is_ok_and(|written| written.as_slice() == SELF_SIGNED.as_slice()),
    );
}

#[test]
fn the_fields_of_a_certificate_are_those_that_openssl_prints(rt: HostRuntime) {
    let Ok(certificate) = Certificate::from_der(rt.alloc(), &SELF_SIGNED) else {
        holds(&rt, false);
        return;
    };
    let fields = &certificate.tbs_certificate;
    holds(&rt, fields.version.value().octets() == [2].as_slice());
    holds(
        &rt,
        fields.serial_number.octets() == [0x4A, 0x7B].as_slice(),
    );
    let from = date_time(&fields.validity.not_before);
    holds(&rt, from.year == 2026 && from.month == 11 && from.day == 25);
    let to = date_time(&fields.validity.not_after);
    holds(
        &rt,
        to.year == 2027 && to.hour == 20 && to.minute == 15 && to.second == 49,
    );
    holds(&rt, fields.subject.levels.octets().len() == 22);
    holds(
        &rt,
        fields
            .subject_public_key_info
            .subject_public_key
            .octets()
            .len()
            == 33,
    );
    holds(&rt, fields.issuer_unique_id.0.is_none());
    holds(&rt, certificate.signature.octets().len() == 65);
}

// How many extensions there are, and how many of them are critical.
fn extensions(alloc: Global, octets: &[u8]) -> Option<(u32, u32)> {
    let certificate = Certificate::from_der(alloc, octets).ok()?;
    let extensions = certificate.tbs_certificate.extensions.value()?;
    let mut count: u32 = 0;
    let mut critical: u32 = 0;
    for extension in extensions.items.iter(alloc) {
        count = count.wrapping_add(1);
        if extension.critical.0.is_true() {
            critical = critical.wrapping_add(1);
        }
    }
    Some((count, critical))
}

#[test]
fn each_extension_of_a_certificate_is_walked(rt: HostRuntime) {
    same_at(
        &rt,
        0,
        extensions(rt.alloc(), &SELF_SIGNED) == Some((4, 2)),
        true,
    );
}

// The error of a certificate with another octet at a place.
fn refusal_with(alloc: Global, place: usize, octet: u8) -> Option<Error> {
    let mut octets = SELF_SIGNED;
    if place < octets.len() {
        octets[place] = octet;
    }
    Certificate::from_der(alloc, &octets).err()
}

#[test]
fn a_certificate_with_another_octet_is_rejected_at_its_position(rt: HostRuntime) {
    let value = |tag: Tag, end: u32| -> Option<Error> {
        Some(ErrorKind::Value { tag }.at(Length::new(end)))
    };
    same_at(
        &rt,
        "version 4",
        refusal_with(rt.alloc(), 11, 3),
        value(Tag::Integer, 12),
    );
    same_at(
        &rt,
        "a month 13",
        refusal_with(rt.alloc(), 54, 0x33),
        value(Tag::UtcTime, 64),
    );
    same_at(
        &rt,
        "an octet less",
        Certificate::from_der(rt.alloc(), &SELF_SIGNED[..321]).err(),
        Some(ErrorKind::Incomplete {
            expected_len: Length::new(322),
            actual_len: Length::new(321),
        }
        .at(Length::new(321))),
    );
}

// The version is [0], after which octet 12 comes. `critical` of the third extension ends at octet 225.
#[test]
fn a_default_that_a_certificate_writes_is_rejected_after_it(rt: HostRuntime) {
    let written = |tag: Tag, end: u32| -> Option<Error> {
        Some(ErrorKind::Noncanonical { tag }.at(Length::new(end)))
    };
    let version = Tag::ContextSpecific {
        constructed: true,
        number: TagNumber(0),
    };
    same_at(
        &rt,
        "version 1",
        refusal_with(rt.alloc(), 11, 0),
        written(version, 12),
    );
    same_at(
        &rt,
        "critical FALSE",
        refusal_with(rt.alloc(), 224, 0),
        written(Tag::Boolean, 225),
    );
}

// Whether a certificate with another octet at a place has the fields of its version, and whether it
// has the same algorithm twice.
fn checks_with(alloc: Global, place: usize, octet: u8) -> Option<(bool, bool)> {
    let mut octets = SELF_SIGNED;
    if place < octets.len() {
        octets[place] = octet;
    }
    let certificate = Certificate::from_der(alloc, &octets).ok()?;
    Some((
        has_fields_of_version(&certificate.tbs_certificate),
        has_same_algorithms(&certificate),
    ))
}

// The version is octet 11, and the algorithm of the signature ends with octet 254.
#[test]
fn the_checks_of_a_certificate_are_made_apart(rt: HostRuntime) {
    let as_it_is = checks_with(rt.alloc(), 11, 2);
    same_at(&rt, "as it is", as_it_is == Some((true, true)), true);
    let version_2 = checks_with(rt.alloc(), 11, 1);
    same_at(&rt, "version 2", version_2 == Some((false, true)), true);
    let other = checks_with(rt.alloc(), 254, 0x71);
    same_at(&rt, "another algorithm", other == Some((true, false)), true);
}
