//! Elliptic curves, by their names and by their numbers.
use super::ec_octets::{HASHED, NAMED, PENTANOMIAL, PRIME, TRINOMIAL};
use crate::checks::{holds, same, same_at, same_octets};
use crate::fixtures::again::{is_same, refusal};
use crate::fixtures::errors::{trailing, unexpected};
use der::{DecodeBytes, ErrorKind, Length, Tag};
use sec1::asn1::values::{
    characteristic_two_field, pp_basis, prime_field, secp256r1, tp_basis,
};
use sec1::{CharacteristicTwo, EcParameters, Pentanomial, PrimeP, SpecifiedEcDomain, Trinomial};

#[test]
fn curves_are_written_as_they_were(rt: HostRuntime) {
    holds(&rt, is_same::<EcParameters>(rt.alloc(), &NAMED[41..51]));
    holds(&rt, is_same::<EcParameters>(rt.alloc(), &PRIME));
    holds(&rt, is_same::<EcParameters>(rt.alloc(), &TRINOMIAL));
    holds(&rt, is_same::<EcParameters>(rt.alloc(), &PENTANOMIAL));
    holds(&rt, is_same::<EcParameters>(rt.alloc(), &HASHED));
    holds(&rt, is_same::<EcParameters>(rt.alloc(), &[5, 0]));
}

#[test]
fn a_curve_is_a_name_or_nothing_or_numbers(rt: HostRuntime) {
    match EcParameters::from_der(rt.alloc(), &NAMED[41..51]) {
        Ok(EcParameters::NamedCurve(name)) => holds(&rt, name == secp256r1()),
        _ => holds(&rt, false),
    }
    match EcParameters::from_der(rt.alloc(), &[5, 0]) {
        Ok(EcParameters::ImplicitCurve(_)) => holds(&rt, true),
        _ => holds(&rt, false),
    }
    match EcParameters::from_der(rt.alloc(), &PRIME) {
        Ok(EcParameters::SpecifiedCurve(curve)) => {
            same(&rt, curve.version.to_number::<u8>(), Some(1));
        }
        _ => holds(&rt, false),
    }
}

// `openssl asn1parse` lists the field at octets 8 and 17, the coefficients and the seed at 36, 52
// and 68, and the base point, its order and the cofactor at 91, 122 and 139.
#[test]
fn a_curve_over_a_prime_field_has_its_numbers(rt: HostRuntime) {
    let Ok(curve) = SpecifiedEcDomain::from_der(rt.alloc(), &PRIME) else {
        holds(&rt, false);
        return;
    };
    holds(&rt, curve.field_id.field_type == prime_field());
    same_octets(&rt, curve.field_id.parameters.contents, &PRIME[19..34]);
    same_octets(&rt, curve.curve.a.octets(), &PRIME[38..52]);
    same_octets(&rt, curve.curve.b.octets(), &PRIME[54..68]);
    match curve.curve.seed.0 {
        Some(seed) => same_octets(&rt, seed.octets(), &PRIME[70..91]),
        None => holds(&rt, false),
    }
    same_octets(&rt, curve.base.octets(), &PRIME[93..122]);
    same_octets(&rt, curve.order.octets(), &PRIME[124..139]);
    match curve.cofactor.0 {
        Some(cofactor) => same_octets(&rt, cofactor.octets(), &[1]),
        None => holds(&rt, false),
    }
    holds(&rt, curve.hash.0.is_none());
    match PrimeP::from_der(rt.alloc(), &PRIME[17..34]) {
        Ok(prime) => same_octets(&rt, prime.octets(), &PRIME[19..34]),
        Err(_) => holds(&rt, false),
    }
}

// The field of sect113r1 is that of x^113 + x^9 + 1 (SEC 2).
#[test]
fn a_trinomial_has_one_exponent(rt: HostRuntime) {
    let Ok(curve) = SpecifiedEcDomain::from_der(rt.alloc(), &TRINOMIAL) else {
        holds(&rt, false);
        return;
    };
    holds(&rt, curve.field_id.field_type == characteristic_two_field());
    holds(&rt, is_same::<CharacteristicTwo>(rt.alloc(), &TRINOMIAL[17..36]));
    let Ok(field) = CharacteristicTwo::from_der(rt.alloc(), &TRINOMIAL[17..36]) else {
        holds(&rt, false);
        return;
    };
    same(&rt, field.m.to_number::<u32>(), Some(113));
    holds(&rt, field.basis == tp_basis());
    same_octets(&rt, field.parameters.contents, &[9]);
    match Trinomial::from_der(rt.alloc(), &TRINOMIAL[33..36]) {
        Ok(exponent) => same(&rt, exponent.to_number::<u32>(), Some(9)),
        Err(_) => holds(&rt, false),
    }
}

// The field of sect131r1 is that of x^131 + x^8 + x^3 + x^2 + 1 (SEC 2).
#[test]
fn a_pentanomial_has_three_exponents(rt: HostRuntime) {
    holds(&rt, is_same::<CharacteristicTwo>(rt.alloc(), &PENTANOMIAL[17..45]));
    let Ok(field) = CharacteristicTwo::from_der(rt.alloc(), &PENTANOMIAL[17..45]) else {
        holds(&rt, false);
        return;
    };
    same(&rt, field.m.to_number::<u32>(), Some(131));
    holds(&rt, field.basis == pp_basis());
    same_octets(&rt, field.parameters.contents, &PENTANOMIAL[36..45]);
    holds(&rt, is_same::<Pentanomial>(rt.alloc(), &PENTANOMIAL[34..45]));
    let Ok(exponents) = Pentanomial::from_der(rt.alloc(), &PENTANOMIAL[34..45]) else {
        holds(&rt, false);
        return;
    };
    same(&rt, exponents.k1.to_number::<u32>(), Some(2));
    same(&rt, exponents.k2.to_number::<u32>(), Some(3));
    same(&rt, exponents.k3.to_number::<u32>(), Some(8));
}

#[test]
fn a_hash_algorithm_may_follow_the_order(rt: HostRuntime) {
    let Ok(curve) = SpecifiedEcDomain::from_der(rt.alloc(), &HASHED) else {
        holds(&rt, false);
        return;
    };
    same(&rt, curve.version.to_number::<u8>(), Some(3));
    holds(&rt, curve.curve.seed.0.is_none());
    holds(&rt, curve.cofactor.0.is_none());
    match curve.hash.0 {
        Some(hash) => same_octets(&rt, hash.oid.octets(), &HASHED[39..48]),
        None => holds(&rt, false),
    }
}

// The seed begins at octet 68 and ends with the coefficients at 91; the hash begins at octet 35.
#[test]
fn other_octets_are_no_curve(rt: HostRuntime) {
    let mut octets = PRIME;
    octets[68] = 0x05;
    same_at(
        &rt,
        "a seed that is NULL",
        refusal::<EcParameters>(rt.alloc(), &octets),
        Some(trailing(68, 23)),
    );
    octets = PRIME;
    octets[36] = 0x02;
    same_at(
        &rt,
        "a coefficient that is a number",
        refusal::<EcParameters>(rt.alloc(), &octets),
        Some(unexpected(Tag::OctetString, Tag::Integer)),
    );
    let mut octets = HASHED;
    octets[35] = 0x31;
    same_at(
        &rt,
        "a hash that is a SET",
        refusal::<EcParameters>(rt.alloc(), &octets),
        Some(trailing(35, 13)),
    );
}

#[test]
fn other_tags_are_no_curve(rt: HostRuntime) {
    let choice = ErrorKind::TagUnexpected {
        expected: None,
        actual: Tag::Boolean,
    };
    same_at(
        &rt,
        "a BOOLEAN",
        refusal::<EcParameters>(rt.alloc(), &[1, 1, 0xFF]),
        Some(choice.at(Length::new(0))),
    );
    let null = ErrorKind::Value { tag: Tag::Null };
    same_at(
        &rt,
        "a NULL with an octet",
        refusal::<EcParameters>(rt.alloc(), &[5, 1, 0]),
        Some(null.at(Length::new(3))),
    );
}
