//! Purposes of keys, beside `openssl verify -partial_chain -purpose` with sslserver, sslclient, smimesign and timestampsign.
use crate::checks::same_at;
use crate::x509_path::certificates::{ANY, CLIENT, EMAIL, NONE, OCSP, SERVER, SERVER_AND_CLIENT, TIME};
use der::DecodeBytes;
use std::alloc::Global;
use std::process::Abort;
use x509::Certificate;
use x509_path::{Purpose, purpose_allows};

const PURPOSES: [Purpose; 4] = [
    Purpose::ServerAuth,
    Purpose::ClientAuth,
    Purpose::EmailProtection,
    Purpose::TimeStamping,
];

// Each certificate, and whether openssl takes it for each purpose.
fn rows() -> [(&'static [u8], [bool; 4]); 8] {
    [
        (&NONE, [true, true, true, false]),
        (&SERVER, [true, false, false, false]),
        (&CLIENT, [false, true, false, false]),
        (&SERVER_AND_CLIENT, [true, true, false, false]),
        (&ANY, [false, false, false, false]),
        (&OCSP, [false, false, false, false]),
        (&EMAIL, [false, false, true, false]),
        (&TIME, [false, false, false, true]),
    ]
}

fn answer(rt: &impl Abort, alloc: Global, octets: &[u8], purpose: Purpose, any_counts: bool) -> bool {
    match Certificate::from_der(alloc, octets) {
        Ok(certificate) => purpose_allows(alloc, &certificate.tbs_certificate, &purpose.identifier(), any_counts),
        Err(_) => panic!(rt; "no certificate"),
    }
}

// RFC 3161, 2.3 asks of keys for timestamps that the extKeyUsage is there: so openssl refuses the first certificate.
#[test]
fn purposes_are_those_of_openssl(rt: HostRuntime) {
    for (row, (octets, expected)) in rows().iter().enumerate() {
        for (at, purpose) in PURPOSES.iter().enumerate() {
            let wanted = expected[at] || row == 0;
            same_at(&rt, 4 * row + at, answer(&rt, rt.alloc(), octets, *purpose, false), wanted);
        }
    }
}

// RFC 5280, 4.2.1.12: a user of certificates may let anyExtendedKeyUsage stand for all purposes.
#[test]
fn any_purpose_counts_if_the_caller_says_so(rt: HostRuntime) {
    for (row, (octets, expected)) in rows().iter().enumerate() {
        for (at, purpose) in PURPOSES.iter().enumerate() {
            let wanted = expected[at] || row == 0 || row == 4;
            same_at(&rt, 4 * row + at, answer(&rt, rt.alloc(), octets, *purpose, true), wanted);
        }
    }
}

// X.509 and RFC 5280, 4.2: an extension that is there twice, or is not DER, says nothing. The octets are those of openssl, but for one.
#[test]
fn an_extension_that_is_not_understood_allows_nothing(rt: HostRuntime) {
    let mut octets = SERVER_AND_CLIENT;
    let mut changed = 0;
    for at in 0..octets.len() - 4 {
        // the tag of the SEQUENCE in the extension
        if octets[at..at + 4] == [0x1D, 0x25, 0x04, 0x16] {
            octets[at + 4] = 0x31;
            changed += 1;
        }
    }
    same_at(&rt, "changed", changed, 1);
    for purpose in PURPOSES {
        same_at(&rt, "tag", answer(&rt, rt.alloc(), &octets, purpose, true), false);
    }
}
