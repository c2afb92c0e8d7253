//! Revocation lists (RFC 5280, 5).
use crate::checks::{holds, same_at};
use crate::fixtures::errors::unexpected;
use der::{DecodeBytes, Encode, Error, ErrorKind, Length, Tag};
use der_asn1::{Enumerated, GeneralizedTime, OctetStringRef};
use std::alloc::Global;
use x509::{
    AuthorityKeyIdentifier, CertificateList, CrlNumber, CrlReason, DistributionPointName,
    Extensions, GeneralName, IssuingDistributionPoint, ReasonFlagsBit, RevokedCertificate, Time,
};

// Ed25519, by `openssl ca -gencrl`: the issuer CN=CA, a list from 2026-11-26 to 2026-12-26 with the
// number 26, an authority key identifier and an issuing distribution point; three entries, of which
// the first has the reason keyCompromise, the second no extension, and the third the reason
// keyCompromise and an invalidity date.
static LIST: [u8; 353] = [
    0x30, 0x82, 0x01, 0x5D, 0x30, 0x82, 0x01, 0x0F, 0x02, 0x01, 0x01, 0x30, 0x05, 0x06, 0x03, 0x2B,
    0x65, 0x70, 0x30, 0x0D, 0x31, 0x0B, 0x30, 0x09, 0x06, 0x03, 0x55, 0x04, 0x03, 0x0C, 0x02, 0x43,
    0x41, 0x17, 0x0D, 0x32, 0x36, 0x31, 0x31, 0x32, 0x36, 0x31, 0x32, 0x30, 0x30, 0x30, 0x30, 0x5A,
    0x17, 0x0D, 0x32, 0x36, 0x31, 0x32, 0x32, 0x36, 0x31, 0x32, 0x30, 0x30, 0x30, 0x30, 0x5A, 0x30,
    0x7A, 0x30, 0x20, 0x02, 0x01, 0x01, 0x17, 0x0D, 0x32, 0x36, 0x30, 0x31, 0x30, 0x32, 0x30, 0x33,
    0x30, 0x34, 0x30, 0x35, 0x5A, 0x30, 0x0C, 0x30, 0x0A, 0x06, 0x03, 0x55, 0x1D, 0x15, 0x04, 0x03,
    0x0A, 0x01, 0x01, 0x30, 0x12, 0x02, 0x01, 0x7F, 0x17, 0x0D, 0x32, 0x36, 0x30, 0x33, 0x30, 0x34,
    0x30, 0x35, 0x30, 0x36, 0x30, 0x37, 0x5A, 0x30, 0x42, 0x02, 0x09, 0x00, 0x80, 0x00, 0x00, 0x00,
    0x00, 0x00, 0x00, 0x01, 0x17, 0x0D, 0x32, 0x36, 0x30, 0x32, 0x30, 0x33, 0x30, 0x34, 0x30, 0x35,
    0x30, 0x36, 0x5A, 0x30, 0x26, 0x30, 0x0A, 0x06, 0x03, 0x55, 0x1D, 0x15, 0x04, 0x03, 0x0A, 0x01,
    0x01, 0x30, 0x18, 0x06, 0x03, 0x55, 0x1D, 0x18, 0x04, 0x11, 0x18, 0x0F, 0x32, 0x30, 0x32, 0x36,
    0x30, 0x31, 0x30, 0x31, 0x30, 0x30, 0x30, 0x30, 0x30, 0x30, 0x5A, 0xA0, 0x5A, 0x30, 0x58, 0x30,
    0x1F, 0x06, 0x03, 0x55, 0x1D, 0x23, 0x04, 0x18, 0x30, 0x16, 0x80, 0x14, 0xE0, 0xEF, 0xBA, 0xEE,
    0x4B, 0x52, 0x64, 0x84, 0x12, 0x51, 0xAB, 0x80, 0x5E, 0x66, 0xED, 0x7B, 0xF6, 0x5B, 0x5A, 0x02,
    0x30, 0x29, 0x06, 0x03, 0x55, 0x1D, 0x1C, 0x01, 0x01, 0xFF, 0x04, 0x1F, 0x30, 0x1D, 0xA0, 0x14,
    0xA0, 0x12, 0x86, 0x10, 0x68, 0x74, 0x74, 0x70, 0x3A, 0x2F, 0x2F, 0x61, 0x2E, 0x62, 0x2F, 0x63,
    0x2E, 0x63, 0x72, 0x6C, 0x83, 0x02, 0x05, 0x60, 0x84, 0x01, 0xFF, 0x30, 0x0A, 0x06, 0x03, 0x55,
    0x1D, 0x14, 0x04, 0x03, 0x02, 0x01, 0x1A, 0x30, 0x05, 0x06, 0x03, 0x2B, 0x65, 0x70, 0x03, 0x41,
    0x00, 0xFA, 0x0A, 0x5B, 0xFB, 0x12, 0x0A, 0xC4, 0x5C, 0xFF, 0xFA, 0x7E, 0xB1, 0xFC, 0x4F, 0x88,
    0xE4, 0x7C, 0xE0, 0x17, 0xC3, 0x50, 0x8B, 0x7A, 0x63, 0x69, 0x0C, 0x8A, 0x88, 0xB3, 0x02, 0x2E,
    0x3D, 0x8F, 0xE4, 0x17, 0x3E, 0xED, 0xEB, 0xB0, 0x4E, 0x2A, 0x88, 0x83, 0x0F, 0xD0, 0xDA, 0xBA,
    0x9F, 0xF2, 0xB9, 0xA6, 0xA0, 0x84, 0x18, 0x99, 0xFF, 0x39, 0xF7, 0x17, 0xD3, 0xB1, 0x62, 0xC4,
    0x04,
];

fn is_time(time: &Time, month: u8, day: u8) -> bool {
    match time {
        Time::UtcTime(time) => {
            let date = time.date_time();
            date.year == 2026 && date.month == month && date.day == day
        }
        Time::GeneralTime(_) => false,
    }
}

#[test]
fn a_list_is_read_and_written_as_it_was(rt: HostRuntime) {
    let alloc = rt.alloc();
    let Ok(list) = CertificateList::from_der(alloc, &LIST) else {
        holds(&rt, false);
        return;
    };
    let signed = &list.tbs_cert_list;
    let version = signed.version.0.as_ref().map(|version| version.octets());
    holds(&rt, version == Some([1].as_slice()));
    same_at(&rt, "issuer", signed.issuer.levels.octets().len(), 13);
    holds(&rt, is_time(&signed.this_update, 11, 26));
    holds(&rt, signed.next_update.0.as_ref().is_some_and(|time| is_time(time, 12, 26)));
    holds(&rt, signed.revoked_certificates.0.is_some());
    holds(&rt, signed.crl_extensions.0.is_some());
    same_at(&rt, "signature", list.signature.octets().len(), 65);
    match list.to_der(alloc) {
        Ok(written) => holds(&rt, written.as_slice() == LIST.as_slice()),
        Err(_) => holds(&rt, false),
    }
}

// The contents of the extension with this index.
fn value_of<'a>(alloc: Global, extensions: &Extensions<'a>, index: usize) -> &'a [u8] {
    match extensions.items.iter(alloc).nth(index) {
        Some(extension) => extension.extn_value.octets(),
        None => &[],
    }
}

// The number of octets of the serial number of an entry, the day on which the certificate was
// revoked, and the reason.
fn seen(alloc: Global, entry: &RevokedCertificate<'_>) -> (usize, u8, Option<CrlReason>) {
    let day = match &entry.revocation_date {
        Time::UtcTime(time) => time.date_time().day,
        Time::GeneralTime(_) => 0,
    };
    let reason = match &entry.crl_entry_extensions.0 {
        Some(extensions) => {
            Enumerated::<CrlReason>::from_der(alloc, value_of(alloc, extensions, 0)).ok()
        }
        None => None,
    };
    (entry.user_certificate.octets().len(), day, reason.map(|it| it.item()))
}

#[test]
fn entries_are_read_in_order(rt: HostRuntime) {
    let alloc = rt.alloc();
    let Ok(list) = CertificateList::from_der(alloc, &LIST) else {
        holds(&rt, false);
        return;
    };
    let Some(entries) = list.tbs_cert_list.revoked_certificates.0 else {
        holds(&rt, false);
        return;
    };
    let expected = [
        (1, 2, Some(CrlReason::KeyCompromise)),
        (1, 4, None),
        (9, 3, Some(CrlReason::KeyCompromise)),
    ];
    let mut count = 0;
    for entry in entries.iter(alloc) {
        same_at(&rt, count, seen(alloc, &entry) == expected[count % 3], true);
        if let (2, Some(extensions)) = (count, &entry.crl_entry_extensions.0) {
            let date = GeneralizedTime::from_der(alloc, value_of(alloc, extensions, 1));
            holds(&rt, date.is_ok_and(|date| date.date_time().year == 2026));
        }
        count += 1;
    }
    same_at(&rt, "entries", count, 3);
}

#[test]
fn extensions_of_a_list_are_read(rt: HostRuntime) {
    let alloc = rt.alloc();
    let Ok(list) = CertificateList::from_der(alloc, &LIST) else {
        holds(&rt, false);
        return;
    };
    let Some(extensions) = &list.tbs_cert_list.crl_extensions.0 else {
        holds(&rt, false);
        return;
    };
    let key = AuthorityKeyIdentifier::from_der(alloc, value_of(alloc, &extensions.0, 0));
    let identifier = key.map(|key| key.key_identifier.0.map(|it| it.0.octets().len()));
    holds(&rt, identifier == Ok(Some(20)));
    holds(&rt, is_point(alloc, value_of(alloc, &extensions.0, 1)));
    let number = CrlNumber::from_der(alloc, value_of(alloc, &extensions.0, 2));
    holds(&rt, number.is_ok_and(|number| number.octets() == [26].as_slice()));
}

// Whether these octets are an issuing distribution point with one URI and two reasons, of an
// indirect list, and are written as they were.
fn is_point(alloc: Global, octets: &[u8]) -> bool {
    let Ok(point) = IssuingDistributionPoint::from_der(alloc, octets) else {
        return false;
    };
    let (Some(name), Some(reasons)) = (&point.distribution_point.0, &point.only_some_reasons.0)
    else {
        return false;
    };
    let has_uri = match &name.0.value {
        DistributionPointName::FullName(names) => match names.0.iter(alloc).next() {
            Some(GeneralName::UniformResourceIdentifier(uri)) => uri.0.octets() == b"http://a.b/c.crl".as_slice(),
            _ => false,
        },
        DistributionPointName::NameRelativeToCrlIssuer(_) => false,
    };
    let has = |bit: ReasonFlagsBit| reasons.0.has_bit(bit as u32);
    let has_reasons = has(ReasonFlagsBit::KeyCompromise) && has(ReasonFlagsBit::CaCompromise);
    let written = point.to_der(alloc);
    has_uri
        && has_reasons
        && !has(ReasonFlagsBit::Superseded)
        && point.indirect_crl.value().is_true()
        && !point.only_contains_user_certs.value().is_true()
        && written.is_ok_and(|written| written.as_slice() == octets)
}

// The error of the list with another octet at a place.
fn refusal(alloc: Global, place: usize, octet: u8) -> Option<Error> {
    let mut octets = LIST;
    if place < octets.len() {
        octets[place] = octet;
    }
    CertificateList::from_der(alloc, &octets).err()
}

// The version's contents are octet 10. The first time begins at octet 33, the second at 48. The
// second entry begins at octet 99, its serial number at 101, and its time at 104; the digits of its
// month are octets 108 and 109, and it ends at 119.
#[test]
fn a_wrong_list_is_refused_where_it_is_wrong(rt: HostRuntime) {
    let version = ErrorKind::Value { tag: Tag::Integer };
    same_at(&rt, "version 4", refusal(rt.alloc(), 10, 3), Some(version.at(Length::new(11))));
    let no_time = ErrorKind::TagUnexpected {
        expected: None,
        actual: Tag::Utf8String,
    };
    same_at(&rt, "no time", refusal(rt.alloc(), 33, 0x0C), Some(no_time.at(Length::new(33))));
    let serial_number = unexpected(Tag::Integer, Tag::OctetString);
    same_at(&rt, "no serial number", refusal(rt.alloc(), 101, 0x04), Some(serial_number));
    let month = ErrorKind::Value { tag: Tag::UtcTime };
    same_at(&rt, "month 93", refusal(rt.alloc(), 108, 0x39), Some(month.at(Length::new(119))));
}

// An issuing distribution point with nothing in it but a false BOOLEAN [4].
static FALSE_WRITTEN: [u8; 5] = [0x30, 0x03, 0x84, 0x01, 0x00];

#[test]
fn a_default_that_is_written_is_refused_behind_it(rt: HostRuntime) {
    let tag = Tag::ContextSpecific {
        constructed: false,
        number: der::TagNumber(4),
    };
    let expected = ErrorKind::Noncanonical { tag };
    let refused = IssuingDistributionPoint::from_der(rt.alloc(), &FALSE_WRITTEN).err();
    same_at(&rt, 0, refused, Some(expected.at(Length::new(5))));
}

#[test]
fn a_list_of_timestamps_is_octets(rt: HostRuntime) {
    // RFC 6962, 3.3: the list of one timestamp of two octets, with the lengths of TLS
    let octets = [0x04, 0x06, 0x00, 0x04, 0x00, 0x02, 0xAA, 0xBB];
    match x509::SignedCertificateTimestampList::from_der(rt.alloc(), &octets) {
        Ok(list) => same_at(&rt, 0, OctetStringRef::octets(&list), &octets[2..]),
        Err(_) => holds(&rt, false),
    }
}
