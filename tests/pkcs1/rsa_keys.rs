//! RSA keys, and what a signature covers.
use super::rsa_octets::{DIGEST, PRIVATE, PUBLIC, THREE_PRIMES};
use crate::checks::{holds, same, same_at, same_octets};
use crate::fixtures::again::{is_same, refusal};
use crate::fixtures::errors::{incomplete, trailing, unexpected};
use der::{DecodeBytes, ErrorKind, Length, Tag};
use pkcs1::asn1::values::{MULTI, TWO_PRIME, id_sha256};
use pkcs1::{DigestInfo, RsaPrivateKey, RsaPublicKey};
use std::alloc::Global;

#[test]
fn keys_are_written_as_they_were(rt: HostRuntime) {
    holds(&rt, is_same::<RsaPublicKey>(rt.alloc(), &PUBLIC));
    holds(&rt, is_same::<RsaPrivateKey>(rt.alloc(), &PRIVATE));
    holds(&rt, is_same::<RsaPrivateKey>(rt.alloc(), &THREE_PRIMES));
}

// `openssl asn1parse` lists the modulus at octet 2 and the exponent at octet 69.
#[test]
fn a_public_key_has_a_modulus_and_an_exponent(rt: HostRuntime) {
    let Ok(key) = RsaPublicKey::from_der(rt.alloc(), &PUBLIC) else {
        holds(&rt, false);
        return;
    };
    same_octets(&rt, key.modulus.octets(), &PUBLIC[4..69]);
    same(&rt, key.public_exponent.to_number::<u32>(), Some(65537));
}

// `openssl asn1parse` lists the numbers behind the exponent at octets 79, 145, 180, 215, 249 and
// 283.
#[test]
fn a_private_key_has_the_numbers_of_its_public_key(rt: HostRuntime) {
    let Ok(key) = RsaPrivateKey::from_der(rt.alloc(), &PRIVATE) else {
        holds(&rt, false);
        return;
    };
    same(&rt, key.version.to_number::<u64>(), Some(TWO_PRIME));
    same_octets(&rt, key.modulus.octets(), &PUBLIC[4..69]);
    same_octets(&rt, key.public_exponent.octets(), &[1, 0, 1]);
    same_octets(&rt, key.private_exponent.octets(), &PRIVATE[81..145]);
    same_octets(&rt, key.prime1.octets(), &PRIVATE[147..180]);
    same_octets(&rt, key.prime2.octets(), &PRIVATE[182..215]);
    same_octets(&rt, key.exponent1.octets(), &PRIVATE[217..249]);
    same_octets(&rt, key.exponent2.octets(), &PRIVATE[251..283]);
    same_octets(&rt, key.coefficient.octets(), &PRIVATE[285..317]);
    holds(&rt, key.other_prime_infos.0.is_none());
}

// `openssl asn1parse` lists the third prime, its exponent and its coefficient at octets 506, 551
// and 596.
#[test]
fn a_key_of_three_primes_lists_the_third(rt: HostRuntime) {
    let Ok(key) = RsaPrivateKey::from_der(rt.alloc(), &THREE_PRIMES) else {
        holds(&rt, false);
        return;
    };
    same(&rt, key.version.to_number::<u64>(), Some(MULTI));
    let Some(others) = key.other_prime_infos.0 else {
        holds(&rt, false);
        return;
    };
    same(&rt, others.iter(rt.alloc()).count(), 1);
    for other in others.iter(rt.alloc()) {
        same_octets(&rt, other.prime.octets(), &THREE_PRIMES[508..551]);
        same_octets(&rt, other.exponent.octets(), &THREE_PRIMES[553..596]);
        same_octets(&rt, other.coefficient.octets(), &THREE_PRIMES[598..641]);
    }
}

// The modulus ends at octet 69.
#[test]
fn a_modulus_with_more_octets_than_it_needs_is_refused_at_its_end(rt: HostRuntime) {
    let mut octets = PUBLIC;
    octets[5] = 0x3D;
    let integer = ErrorKind::Value { tag: Tag::Integer };
    same(
        &rt,
        refusal::<RsaPublicKey>(rt.alloc(), &octets),
        Some(integer.at(Length::new(69))),
    );
}

// A key with the numbers 15 and 3.
static SMALL: [u8; 8] = [0x30, 0x06, 0x02, 0x01, 0x0F, 0x02, 0x01, 0x03];

#[test]
fn a_public_key_has_exactly_two_numbers(rt: HostRuntime) {
    let alloc = rt.alloc();
    holds(&rt, is_same::<RsaPublicKey>(alloc, &SMALL));
    same_at(
        &rt,
        "one",
        refusal::<RsaPublicKey>(alloc, &[0x30, 3, 2, 1, 15]),
        Some(incomplete(6, 5, 5)),
    );
    same_at(
        &rt,
        "three",
        refusal::<RsaPublicKey>(alloc, &[0x30, 9, 2, 1, 15, 2, 1, 3, 2, 1, 7]),
        Some(trailing(8, 3)),
    );
    same_at(
        &rt,
        "an OCTET STRING",
        refusal::<RsaPublicKey>(alloc, &[0x30, 6, 2, 1, 15, 4, 1, 3]),
        Some(unexpected(Tag::Integer, Tag::OctetString)),
    );
}

// The other primes begin at octet 500, the third prime's coefficient at octet 596.
#[test]
fn other_primes_are_a_sequence_of_sequences(rt: HostRuntime) {
    let mut octets = THREE_PRIMES;
    octets[500] = 0x31;
    same_at(
        &rt,
        "a SET",
        refusal::<RsaPrivateKey>(rt.alloc(), &octets),
        Some(trailing(500, 141)),
    );
    octets = THREE_PRIMES;
    octets[503] = 0x31;
    same_at(
        &rt,
        "a SET as an item",
        refusal::<RsaPrivateKey>(rt.alloc(), &octets),
        Some(unexpected(Tag::Sequence, Tag::Set)),
    );
    octets = THREE_PRIMES;
    octets[596] = 0x04;
    same_at(
        &rt,
        "a coefficient that is an OCTET STRING",
        refusal::<RsaPrivateKey>(rt.alloc(), &octets),
        Some(unexpected(Tag::Integer, Tag::OctetString)),
    );
}

// The version is octet 6 of the key. OpenSSL reads a key with every version.
#[test]
fn a_version_that_the_rfc_does_not_have_is_read(rt: HostRuntime) {
    let mut octets = PRIVATE;
    octets[6] = 2;
    holds(&rt, is_same::<RsaPrivateKey>(rt.alloc(), &octets));
}

// Whether a key with this version, which is octet 6, has the version of its primes.
fn has_version_of_primes<const N: usize>(
    alloc: Global,
    octets: &[u8; N],
    version: u8,
) -> Option<bool> {
    let mut changed = *octets;
    changed[6] = version;
    let key = RsaPrivateKey::from_der(alloc, &changed).ok()?;
    Some(key.has_version_of_primes())
}

// RFC 8017, A.1.2.
#[test]
fn the_version_is_1_exactly_if_there_are_other_primes(rt: HostRuntime) {
    for (version, of_two, of_three) in [(0, true, false), (1, false, true), (2, false, false)] {
        let two = has_version_of_primes(rt.alloc(), &PRIVATE, version);
        same_at(&rt, version, two == Some(of_two), true);
        let three = has_version_of_primes(rt.alloc(), &THREE_PRIMES, version);
        same_at(&rt, version, three == Some(of_three), true);
    }
}

#[test]
fn a_digest_is_read_with_its_algorithm(rt: HostRuntime) {
    holds(&rt, is_same::<DigestInfo>(rt.alloc(), &DIGEST));
    let Ok(info) = DigestInfo::from_der(rt.alloc(), &DIGEST) else {
        holds(&rt, false);
        return;
    };
    holds(&rt, info.digest_algorithm.oid == id_sha256());
    holds(&rt, info.digest_algorithm.parameters.0.is_some());
    same_octets(&rt, info.digest.octets(), &DIGEST[19..51]);
}

// The identifier of the algorithm is at octets 6 to 14, the digest begins at octet 17.
#[test]
fn other_octets_are_no_digest(rt: HostRuntime) {
    let mut octets = DIGEST;
    octets[14] = 0x81;
    let identifier = ErrorKind::Value {
        tag: Tag::ObjectIdentifier,
    };
    same_at(
        &rt,
        "an identifier without an end",
        refusal::<DigestInfo>(rt.alloc(), &octets),
        Some(identifier.at(Length::new(15))),
    );
    octets = DIGEST;
    octets[17] = 0x03;
    same_at(
        &rt,
        "a BIT STRING",
        refusal::<DigestInfo>(rt.alloc(), &octets),
        Some(unexpected(Tag::OctetString, Tag::BitString)),
    );
}
