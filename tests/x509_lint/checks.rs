//! Checks of certificates and of their parts that decoding does not make.
use crate::checks::{holds, same_at};
use crate::x509::certificates::SELF_SIGNED;
use der::DecodeBytes;
use der_asn1::IntRef;
use std::alloc::Global;
use x509::{Certificate, CertificatePolicies, Extensions, GeneralNames, TbsCertificate};
use x509_lint::checks::extensions::instances;
use x509_lint::checks::policies::{first_repeated_policy, has_distinct_policies};
use x509_lint::checks::presence::has_item;
use x509_lint::checks::serial_number;
use x509_lint::keeps_all_rules;

// Whether a certificate may have a serial number of these contents.
fn has_valid_serial_number(alloc: Global, octets: &[u8]) -> Option<bool> {
    let certificate = Certificate::from_der(alloc, &SELF_SIGNED).ok()?;
    let serial_number = IntRef::new(octets)?;
    let fields = TbsCertificate {
        serial_number,
        ..certificate.tbs_certificate
    };
    Some(serial_number::has_valid_serial_number(&fields))
}

#[test]
fn a_serial_number_is_positive_and_has_at_most_20_octets(rt: HostRuntime) {
    let mut long = [0x7F; 21];
    let allowed = |octets: &[u8]| -> Option<bool> { has_valid_serial_number(rt.alloc(), octets) };
    same_at(&rt, "0", allowed(&[0]), Some(false));
    same_at(&rt, "1", allowed(&[1]), Some(true));
    same_at(&rt, "128", allowed(&[0, 0x80]), Some(true));
    same_at(&rt, "-128", allowed(&[0x80]), Some(false));
    same_at(&rt, "20 octets", allowed(&long[..20]), Some(true));
    same_at(&rt, "21 octets", allowed(&long), Some(false));
    long[0] = 0;
    long[1] = 0x80;
    same_at(&rt, "20 octets and a zero", allowed(&long), Some(false));
}

#[test]
fn a_list_without_items_has_none(rt: HostRuntime) {
    let names = |octets: &[u8]| -> Option<bool> {
        match GeneralNames::from_der(rt.alloc(), octets) {
            Ok(names) => Some(has_item(&names)),
            Err(_) => None,
        }
    };
    same_at(&rt, "empty", names(&[0x30, 0x00]), Some(false));
    same_at(&rt, "a", names(&[0x30, 0x03, 0x82, 0x01, 0x61]), Some(true));
}

// NULL under 1.2.3.4, 1.2.3.5 and 1.2.3.4.
static REPEATED: [u8; 35] = [
    0x30, 0x21, //
    0x30, 0x09, 0x06, 0x03, 0x2A, 0x03, 0x04, 0x04, 0x02, 0x05, 0x00, //
    0x30, 0x09, 0x06, 0x03, 0x2A, 0x03, 0x05, 0x04, 0x02, 0x05, 0x00, //
    0x30, 0x09, 0x06, 0x03, 0x2A, 0x03, 0x04, 0x04, 0x02, 0x05, 0x00,
];

#[test]
fn extensions_with_an_identifier_are_counted(rt: HostRuntime) {
    let alloc = rt.alloc();
    let Ok(extensions) = Extensions::from_der(alloc, &REPEATED) else {
        holds(&rt, false);
        return;
    };
    same_at(
        &rt,
        "1.2.3.4",
        instances(alloc, &extensions, &[0x2A, 0x03, 0x04]),
        2,
    );
    same_at(
        &rt,
        "1.2.3.5",
        instances(alloc, &extensions, &[0x2A, 0x03, 0x05]),
        1,
    );
    same_at(
        &rt,
        "1.2.3.6",
        instances(alloc, &extensions, &[0x2A, 0x03, 0x06]),
        0,
    );
}

// Whether the certificate keeps all rules with another octet at a place.
fn keeps_all_rules_with(alloc: Global, place: usize, octet: u8) -> Option<bool> {
    let mut octets = SELF_SIGNED;
    if place < octets.len() {
        octets[place] = octet;
    }
    let certificate = Certificate::from_der(alloc, &octets).ok()?;
    Some(keeps_all_rules(alloc, &certificate))
}

// The version is octet 11.
#[test]
fn a_certificate_keeps_all_rules_or_not(rt: HostRuntime) {
    same_at(
        &rt,
        "as it is",
        keeps_all_rules_with(rt.alloc(), 11, 2),
        Some(true),
    );
    same_at(
        &rt,
        "version 2",
        keeps_all_rules_with(rt.alloc(), 11, 1),
        Some(false),
    );
}

// The policies 1.2.3.5, 1.2.3.4 with a qualifier, and 1.2.3.4.
static POLICIES: [u8; 33] = [
    0x30, 0x1F, //
    0x30, 0x05, 0x06, 0x03, 0x2A, 0x03, 0x05, //
    0x30, 0x0F, 0x06, 0x03, 0x2A, 0x03, 0x04, 0x30, 0x08, 0x30, 0x06, 0x06, 0x02, 0x2A, 0x03, 0x05,
    0x00, //
    0x30, 0x05, 0x06, 0x03, 0x2A, 0x03, 0x04,
];

// Whether the policies with another last octet are distinct, and the first that is not.
fn repeated_with(alloc: Global, octet: u8) -> Option<(bool, Option<usize>)> {
    let mut octets = POLICIES;
    octets[32] = octet;
    let policies = CertificatePolicies::from_der(alloc, &octets).ok()?;
    let place = first_repeated_policy(alloc, &policies);
    Some((has_distinct_policies(alloc, &policies), place))
}

#[test]
fn a_policy_that_occurs_twice_is_found(rt: HostRuntime) {
    same_at(
        &rt,
        "1.2.3.4",
        repeated_with(rt.alloc(), 4),
        Some((false, Some(1))),
    );
    same_at(
        &rt,
        "1.2.3.5",
        repeated_with(rt.alloc(), 5),
        Some((false, Some(0))),
    );
    same_at(
        &rt,
        "1.2.3.6",
        repeated_with(rt.alloc(), 6),
        Some((true, None)),
    );
}
