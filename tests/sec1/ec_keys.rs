//! Private keys of elliptic curves, and their signatures.
use super::ec_octets::{EXPLICIT, NAMED, PRIME, SIGNATURE};
use crate::checks::{holds, same, same_at, same_octets};
use crate::fixtures::again::{is_same, refusal};
use crate::fixtures::errors::{incomplete, trailing, unexpected};
use der::{DecodeBytes, ErrorKind, Length, Tag};
use sec1::asn1::values::{EC_PRIVKEY_VER1, secp256r1};
use sec1::{EcParameters, EcPrivateKey, EcdsaSigValue};

#[test]
fn keys_and_signatures_are_written_as_they_were(rt: HostRuntime) {
    holds(&rt, is_same::<EcPrivateKey>(rt.alloc(), &NAMED));
    holds(&rt, is_same::<EcPrivateKey>(rt.alloc(), &EXPLICIT));
    holds(&rt, is_same::<EcdsaSigValue>(rt.alloc(), &SIGNATURE));
}

// `openssl asn1parse` lists the private key at octet 5, the curve at 41 and the public key at 53.
#[test]
fn a_key_names_its_curve(rt: HostRuntime) {
    let Ok(key) = EcPrivateKey::from_der(rt.alloc(), &NAMED) else {
        holds(&rt, false);
        return;
    };
    same(&rt, key.version.to_number::<u64>(), Some(EC_PRIVKEY_VER1));
    same_octets(&rt, key.private_key.octets(), &NAMED[7..39]);
    let (Some(parameters), Some(public_key)) = (key.parameters.0, key.public_key.0) else {
        holds(&rt, false);
        return;
    };
    match parameters.0.value {
        EcParameters::NamedCurve(curve) => holds(&rt, curve == secp256r1()),
        _ => holds(&rt, false),
    }
    same_octets(&rt, public_key.0.octets(), &NAMED[55..121]);
}

// `openssl asn1parse` lists the curve at octets 25 to 166, which are those of the curve alone, and
// the public key at octet 169.
#[test]
fn a_key_specifies_its_curve(rt: HostRuntime) {
    same_octets(&rt, &EXPLICIT[25..167], &PRIME);
    let Ok(key) = EcPrivateKey::from_der(rt.alloc(), &EXPLICIT) else {
        holds(&rt, false);
        return;
    };
    same_octets(&rt, key.private_key.octets(), &EXPLICIT[8..22]);
    let (Some(parameters), Some(public_key)) = (key.parameters.0, key.public_key.0) else {
        holds(&rt, false);
        return;
    };
    match parameters.0.value {
        EcParameters::SpecifiedCurve(curve) => {
            same_octets(&rt, curve.base.octets(), &EXPLICIT[118..147]);
        }
        _ => holds(&rt, false),
    }
    same_octets(&rt, public_key.0.octets(), &EXPLICIT[171..201]);
}

// A key with one octet, which stands alone.
static BARE: [u8; 8] = [0x30, 0x06, 0x02, 0x01, 0x01, 0x04, 0x01, 0x07];

#[test]
fn a_key_may_have_neither_a_curve_nor_a_public_key(rt: HostRuntime) {
    holds(&rt, is_same::<EcPrivateKey>(rt.alloc(), &BARE));
    let Ok(key) = EcPrivateKey::from_der(rt.alloc(), &BARE) else {
        holds(&rt, false);
        return;
    };
    holds(&rt, key.parameters.0.is_none());
    holds(&rt, key.public_key.0.is_none());
}

// OpenSSL reads a key with every version.
#[test]
fn a_version_that_the_rfc_does_not_have_is_read(rt: HostRuntime) {
    let mut octets = BARE;
    octets[4] = 2;
    holds(&rt, is_same::<EcPrivateKey>(rt.alloc(), &octets));
}

// The error of the named key with another octet at a place.
fn refusal_with(rt: &HostRuntime, place: usize, octet: u8) -> Option<der::Error> {
    let mut octets = NAMED;
    octets[place] = octet;
    refusal::<EcPrivateKey>(rt.alloc(), &octets)
}

// The curve's tags are octets 39 and 41, those of the public key 51 and 53. The number of its
// unused bits is octet 55.
#[test]
fn other_octets_are_no_key(rt: HostRuntime) {
    same_at(&rt, "tag 2", refusal_with(&rt, 39, 0xA2), Some(trailing(39, 82)));
    let choice = ErrorKind::TagUnexpected {
        expected: None,
        actual: Tag::Integer,
    };
    same_at(
        &rt,
        "a curve that is a number",
        refusal_with(&rt, 41, 0x02),
        Some(choice.at(Length::new(41))),
    );
    same_at(
        &rt,
        "a public key that is an OCTET STRING",
        refusal_with(&rt, 53, 0x04),
        Some(unexpected(Tag::BitString, Tag::OctetString)),
    );
    let bits = ErrorKind::Value {
        tag: Tag::BitString,
    };
    same_at(
        &rt,
        "eight unused bits",
        refusal_with(&rt, 55, 8),
        Some(bits.at(Length::new(121))),
    );
}

// Octet 40 is the length of the element around the curve, which ends at octet 51.
#[test]
fn an_explicit_tag_has_exactly_one_element(rt: HostRuntime) {
    same_at(
        &rt,
        "a part of one",
        refusal_with(&rt, 40, 9),
        Some(incomplete(51, 50, 50)),
    );
    let two = [
        0x30, 0x0F, 0x02, 0x01, 0x01, 0x04, 0x01, 0x07, 0xA0, 0x07, 0x06, 0x03, 0x2A, 0x03, 0x04,
        0x05, 0x00,
    ];
    same_at(
        &rt,
        "two",
        refusal::<EcPrivateKey>(rt.alloc(), &two),
        Some(trailing(15, 2)),
    );
    let none = [0x30, 0x08, 0x02, 0x01, 0x01, 0x04, 0x01, 0x07, 0xA0, 0x00];
    same_at(
        &rt,
        "none",
        refusal::<EcPrivateKey>(rt.alloc(), &none),
        Some(incomplete(11, 10, 10)),
    );
}

// `openssl asn1parse` lists the numbers at octets 2 and 36.
#[test]
fn a_signature_has_two_numbers(rt: HostRuntime) {
    let Ok(signature) = EcdsaSigValue::from_der(rt.alloc(), &SIGNATURE) else {
        holds(&rt, false);
        return;
    };
    same_octets(&rt, signature.r.octets(), &SIGNATURE[4..36]);
    same_octets(&rt, signature.s.octets(), &SIGNATURE[38..70]);
}

// Octet 1 is the length, which leaves 69 octets of 70, or takes one octet more than there is.
#[test]
fn a_signature_ends_with_its_second_number(rt: HostRuntime) {
    let mut octets = SIGNATURE;
    octets[1] = 0x43;
    same_at(
        &rt,
        "shorter",
        refusal::<EcdsaSigValue>(rt.alloc(), &octets),
        Some(incomplete(70, 69, 69)),
    );
    octets[1] = 0x45;
    same_at(
        &rt,
        "longer",
        refusal::<EcdsaSigValue>(rt.alloc(), &octets),
        Some(incomplete(71, 70, 70)),
    );
}
