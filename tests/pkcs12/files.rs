//! Files with a private key and certificates.
use super::octets::{CERTIFICATES, ENCRYPTED, LEGACY, ONCE, PLAIN};
use crate::checks::{holds, same, same_at, same_octets};
use crate::fixtures::again::is_same;
use cms::asn1::values::{id_data, id_encrypted_data};
use der::{DecodeBytes, Tag};
use pkcs12::{AuthenticatedSafe, Pfx, SafeContents};
use std::alloc::Global;

#[test]
fn files_are_written_as_they_were(rt: HostRuntime) {
    let alloc = rt.alloc();
    holds(&rt, is_same::<Pfx>(alloc, &ENCRYPTED));
    holds(&rt, is_same::<Pfx>(alloc, &LEGACY));
    holds(&rt, is_same::<Pfx>(alloc, &PLAIN));
    holds(&rt, is_same::<Pfx>(alloc, &ONCE));
    holds(&rt, is_same::<Pfx>(alloc, &CERTIFICATES));
}

// `openssl asn1parse` lists the octets of the parts at octet 26, with a header of four octets; the
// lengths of the lists of parts and of the bags that are not encrypted follow from those of the
// strings around them.
#[test]
fn parts_and_bags_are_written_as_they_were(rt: HostRuntime) {
    let alloc = rt.alloc();
    holds(
        &rt,
        is_same::<AuthenticatedSafe>(alloc, &ENCRYPTED[30..695]),
    );
    holds(&rt, is_same::<AuthenticatedSafe>(alloc, &LEGACY[30..559]));
    holds(&rt, is_same::<AuthenticatedSafe>(alloc, &PLAIN[30..]));
    holds(&rt, is_same::<AuthenticatedSafe>(alloc, &ONCE[30..575]));
    holds(
        &rt,
        is_same::<AuthenticatedSafe>(alloc, &CERTIFICATES[30..]),
    );
    holds(&rt, is_same::<SafeContents>(alloc, &ENCRYPTED[476..695]));
    holds(&rt, is_same::<SafeContents>(alloc, &LEGACY[409..559]));
    holds(&rt, is_same::<SafeContents>(alloc, &PLAIN[57..359]));
    holds(&rt, is_same::<SafeContents>(alloc, &PLAIN[379..]));
    holds(&rt, is_same::<SafeContents>(alloc, &CERTIFICATES[57..]));
}

// The octets of the parts of a file whose version is 3, as they stand in it.
fn safe_of<'a>(alloc: Global, octets: &'a [u8]) -> &'a [u8] {
    let Ok(file) = Pfx::from_der(alloc, octets) else {
        return &[];
    };
    let is_data = file.auth_safe.content_type == id_data();
    let is_string = file.auth_safe.content.0.tag == Tag::OctetString;
    if is_data && is_string && file.version.to_number::<u8>() == Some(3) {
        return file.auth_safe.content.0.contents;
    }
    &[]
}

#[test]
fn a_file_has_octets_with_parts(rt: HostRuntime) {
    let alloc = rt.alloc();
    same_octets(&rt, safe_of(alloc, &ENCRYPTED), &ENCRYPTED[30..695]);
    same_octets(&rt, safe_of(alloc, &LEGACY), &LEGACY[30..559]);
    same_octets(&rt, safe_of(alloc, &PLAIN), &PLAIN[30..]);
    same_octets(&rt, safe_of(alloc, &ONCE), &ONCE[30..575]);
    same_octets(&rt, safe_of(alloc, &CERTIFICATES), &CERTIFICATES[30..]);
}

// The number of parts, and how many of them are encrypted.
fn parts_of(alloc: Global, octets: &[u8]) -> (usize, usize) {
    let Ok(safe) = AuthenticatedSafe::from_der(alloc, safe_of(alloc, octets)) else {
        return (0, 0);
    };
    let (mut parts, mut encrypted) = (0, 0);
    for part in safe.iter(alloc) {
        parts += 1;
        if part.content_type == id_encrypted_data() {
            encrypted += 1;
        }
    }
    (parts, encrypted)
}

// `openssl pkcs12 -info` prints a line for each part: `PKCS7 Encrypted data` or `PKCS7 Data`.
#[test]
fn parts_are_encrypted_or_not(rt: HostRuntime) {
    let alloc = rt.alloc();
    same_at(&rt, "encrypted", parts_of(alloc, &ENCRYPTED), (2, 1));
    same_at(&rt, "legacy", parts_of(alloc, &LEGACY), (2, 1));
    same_at(&rt, "plain", parts_of(alloc, &PLAIN), (2, 0));
    same_at(&rt, "once", parts_of(alloc, &ONCE), (2, 0));
    same_at(&rt, "certificates", parts_of(alloc, &CERTIFICATES), (1, 0));
}

#[test]
fn a_file_may_have_no_code(rt: HostRuntime) {
    for octets in [&PLAIN[..], &CERTIFICATES[..]] {
        match Pfx::from_der(rt.alloc(), octets) {
            Ok(file) => holds(&rt, file.mac_data.0.is_none()),
            Err(_) => holds(&rt, false),
        }
    }
    same(&rt, Pfx::from_der(rt.alloc(), &ONCE).is_ok(), true);
}
