//! Hosts and addresses compared with the names of a certificate. The expected answers are those of
//! openssl, but for those in `OTHERS`, each of which follows from a sentence.
use crate::checks::{holds_at, same_at};
use crate::x509_names::matching::openssl::{Case, REACHED};
use der::DecodeBytes;
use std::alloc::Global;
use x509::GeneralNames;
use x509_names::{is_address_of, is_host_of};

// A subjectAltName, a host, and whether it is one of the certificate.
static OTHERS: [Case; 10] = [
    // openssl takes a wildcard that is a part of a label. It has to be the whole first label (RFC
    // 9525, 6.3)
    (b"\x30\x10\x82\x0Ef*.example.org", b"foo.example.org", false),
    (b"\x30\x10\x82\x0E*f.example.org", b"off.example.org", false),
    // openssl wants two labels after the wildcard, which RFC 9525, 6.3, does not ask for; which
    // domains are registries is not known here
    (b"\x30\x07\x82\x05*.org", b"example.org", true),
    // what a client wants to reach is a whole domain name (RFC 9525, 6.1). An address, a wildcard, a
    // name with a dot at its end and no octets are none
    (b"\x30\x0B\x82\x09192.0.2.1", b"192.0.2.1", false),
    (b"\x30\x0F\x82\x0D*.example.org", b"*.example.org", false),
    (b"\x30\x0E\x82\x0Cexample.org.", b"example.org.", false),
    (b"\x30\x02\x82\x00", b"", false),
    (b"\x30\x03\x82\x01*", b"*", false),
    // a dNSName with an asterisk stands for one label, which has an octet at least (RFC 1034, 3.1)
    (b"\x30\x0F\x82\x0D*.example.org", b".example.org", false),
    // an address has 4 or 16 octets (RFC 5280, 4.2.1.6), so no other octets are one
    (b"\x30\x07\x87\x05\x01\x02\x03\x04\x05", b"\x01\x02\x03\x04\x05", false),
];

// Octets of 4 or 16 that are no letters of a host are an address.
fn is_reached(alloc: Global, case: &Case) -> Option<bool> {
    let names = GeneralNames::from_der(alloc, case.0).ok()?;
    let is_text = case.1.iter().all(|octet| octet.is_ascii_graphic());
    if is_text {
        return Some(is_host_of(alloc, &names, case.1));
    }
    Some(is_address_of(alloc, &names, case.1))
}

#[test]
fn hosts_are_those_of_certificates_as_openssl_says(rt: HostRuntime) {
    for (row, case) in REACHED.iter().enumerate() {
        let mut answer = case.2;
        for other in OTHERS.iter() {
            if other.0 == case.0 && other.1 == case.1 {
                answer = other.2;
            }
        }
        match is_reached(rt.alloc(), case) {
            Some(found) => same_at(&rt, row, found, answer),
            None => holds_at(&rt, row, false),
        }
    }
}

#[test]
fn hosts_are_those_of_certificates_as_the_standard_says(rt: HostRuntime) {
    for (row, case) in OTHERS.iter().enumerate() {
        match is_reached(rt.alloc(), case) {
            Some(found) => same_at(&rt, row, found, case.2),
            None => holds_at(&rt, row, false),
        }
    }
}
