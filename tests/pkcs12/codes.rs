//! Message authentication codes.
use super::octets::{ENCRYPTED, LEGACY, ONCE, PBMAC1};
use crate::checks::{holds, same, same_octets};
use crate::fixtures::again::{is_same, refusal};
use crate::fixtures::errors::{trailing, unexpected};
use der::{DecodeBytes, ErrorKind, Length, Tag};
use pkcs1::asn1::values::{id_sha1, id_sha256};
use pkcs8::asn1::values::id_pbmac1;
use pkcs12::{MacData, Pfx};

// What `openssl pkcs12 -info` prints: the algorithm, the lengths of the code and of the salt, and
// the iterations. `openssl asn1parse` lists the code at octet 714 and the salt at 748.
#[test]
fn a_code_has_an_algorithm_a_salt_and_iterations(rt: HostRuntime) {
    let Ok(file) = Pfx::from_der(rt.alloc(), &ENCRYPTED) else {
        holds(&rt, false);
        return;
    };
    let Some(code) = file.mac_data.0 else {
        holds(&rt, false);
        return;
    };
    holds(&rt, code.mac.digest_algorithm.oid == id_sha256());
    same_octets(&rt, code.mac.digest.octets(), &ENCRYPTED[716..748]);
    same_octets(&rt, code.mac_salt.octets(), &ENCRYPTED[750..758]);
    same(&rt, code.iterations.0.value.number, 2048);
}

// `openssl asn1parse` lists the code at octet 574 and the salt at 596.
#[test]
fn an_older_code_is_by_sha1(rt: HostRuntime) {
    let Ok(file) = Pfx::from_der(rt.alloc(), &LEGACY) else {
        holds(&rt, false);
        return;
    };
    let Some(code) = file.mac_data.0 else {
        holds(&rt, false);
        return;
    };
    holds(&rt, code.mac.digest_algorithm.oid == id_sha1());
    same_octets(&rt, code.mac.digest.octets(), &LEGACY[576..596]);
    same_octets(&rt, code.mac_salt.octets(), &LEGACY[598..606]);
    same(&rt, code.iterations.0.value.number, 2048);
}

// `openssl pkcs12 -info` prints `Iteration 1`, which is the default; `openssl asn1parse` lists
// nothing behind the salt.
#[test]
fn one_iteration_is_the_default(rt: HostRuntime) {
    let Ok(file) = Pfx::from_der(rt.alloc(), &ONCE) else {
        holds(&rt, false);
        return;
    };
    match file.mac_data.0 {
        Some(code) => same(&rt, code.iterations.0.value.number, 1),
        None => holds(&rt, false),
    }
    holds(&rt, is_same::<MacData>(rt.alloc(), &ONCE[575..]));
}

// RFC 9579: the algorithm is PBMAC1 with its parameters, which begin at octet 17. Their contents
// begin at octet 19.
#[test]
fn a_code_may_be_by_pbmac1(rt: HostRuntime) {
    holds(&rt, is_same::<MacData>(rt.alloc(), &PBMAC1));
    let Ok(code) = MacData::from_der(rt.alloc(), &PBMAC1) else {
        holds(&rt, false);
        return;
    };
    holds(&rt, code.mac.digest_algorithm.oid == id_pbmac1());
    match code.mac.digest_algorithm.parameters.0 {
        Some(parameters) => {
            same(&rt, parameters.tag, Tag::Sequence);
            same_octets(&rt, parameters.contents, &PBMAC1[19..73]);
        }
        None => holds(&rt, false),
    }
    same_octets(&rt, code.mac.digest.octets(), &[1, 2]);
    same_octets(&rt, code.mac_salt.octets(), &[0]);
    same(&rt, code.iterations.0.value.number, 1);
}

// In the file, the code begins at octet 695 and its iterations at 758; so in the code they begin at
// octet 63, and their last octet is octet 66. X.690, 11.5: the default 1 is not written.
#[test]
fn iterations_are_written_if_there_are_more(rt: HostRuntime) {
    let alloc = rt.alloc();
    let mut octets = [0; 66];
    octets.copy_from_slice(&ENCRYPTED[695..761]);
    octets[1] = 64;
    octets[64] = 1;
    octets[65] = 2;
    holds(&rt, is_same::<MacData>(alloc, &octets));
    octets[65] = 1;
    let tag = Tag::Integer;
    same(
        &rt,
        refusal::<MacData>(alloc, &octets),
        Some(ErrorKind::Noncanonical { tag }.at(Length::new(66))),
    );
    octets[65] = 0xFF;
    same(
        &rt,
        refusal::<MacData>(alloc, &octets),
        Some(ErrorKind::Value { tag }.at(Length::new(66))),
    );
    octets[63] = 0x0A;
    same(
        &rt,
        refusal::<MacData>(alloc, &octets),
        Some(trailing(63, 3)),
    );
    octets[53] = 0x03;
    same(
        &rt,
        refusal::<MacData>(alloc, &octets),
        Some(unexpected(Tag::OctetString, Tag::BitString)),
    );
}
