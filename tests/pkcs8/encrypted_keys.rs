//! Encrypted private keys, and the parameters of their encryption.
use super::encrypted_octets::{PBES1, PBES2, SCRYPT, WITH_LENGTH, WITH_SHA1};
use crate::checks::{holds, same, same_at, same_octets};
use crate::fixtures::again::{is_same, refusal};
use crate::fixtures::errors::{incomplete, trailing, unexpected};
use der::{DecodeBytes, ErrorKind, Length, Tag};
use pkcs8::asn1::values::{
    aes256_cbc_pad, id_pbes2, id_pbkdf2, id_scrypt, pbe_with_sha1_and_des_cbc,
};
use pkcs8::{EncryptedPrivateKeyInfo, PbeParameter, Pbes2Params, Pbkdf2Salt, ScryptParams};

#[test]
fn encrypted_keys_are_written_as_they_were(rt: HostRuntime) {
    holds(&rt, is_same::<EncryptedPrivateKeyInfo>(rt.alloc(), &PBES2));
    holds(&rt, is_same::<EncryptedPrivateKeyInfo>(rt.alloc(), &WITH_SHA1));
    holds(&rt, is_same::<EncryptedPrivateKeyInfo>(rt.alloc(), &WITH_LENGTH));
    holds(&rt, is_same::<EncryptedPrivateKeyInfo>(rt.alloc(), &SCRYPT));
    holds(&rt, is_same::<EncryptedPrivateKeyInfo>(rt.alloc(), &PBES1));
}

// `openssl asn1parse` lists the parameters at octets 16, 16, 16 and 15, and those of scrypt at
// octet 31.
#[test]
fn parameters_are_written_as_they_were(rt: HostRuntime) {
    holds(&rt, is_same::<Pbes2Params>(rt.alloc(), &PBES2[16..92]));
    holds(&rt, is_same::<Pbes2Params>(rt.alloc(), &WITH_SHA1[16..78]));
    holds(&rt, is_same::<Pbes2Params>(rt.alloc(), &WITH_LENGTH[16..91]));
    holds(&rt, is_same::<Pbes2Params>(rt.alloc(), &SCRYPT[16..84]));
    holds(&rt, is_same::<ScryptParams>(rt.alloc(), &SCRYPT[31..53]));
    holds(&rt, is_same::<PbeParameter>(rt.alloc(), &PBES1[15..31]));
}

// `openssl asn1parse` lists the two algorithms at octets 18 and 61, and the encryption at octet 92.
#[test]
fn a_key_is_encrypted_by_two_algorithms(rt: HostRuntime) {
    let Ok(key) = EncryptedPrivateKeyInfo::from_der(rt.alloc(), &PBES2) else {
        holds(&rt, false);
        return;
    };
    holds(&rt, key.encryption_algorithm.oid == id_pbes2());
    same_octets(&rt, key.encrypted_data.octets(), &PBES2[94..158]);
    match key.encryption_algorithm.parameters.0 {
        Some(parameters) => same_octets(&rt, parameters.contents, &PBES2[18..92]),
        None => holds(&rt, false),
    }
    let Ok(parameters) = Pbes2Params::from_der(rt.alloc(), &PBES2[16..92]) else {
        holds(&rt, false);
        return;
    };
    holds(&rt, parameters.key_derivation_func.oid == id_pbkdf2());
    holds(&rt, parameters.encryption_scheme.oid == aes256_cbc_pad());
    match parameters.encryption_scheme.parameters.0 {
        Some(vector) => same_octets(&rt, vector.contents, &PBES2[76..92]),
        None => holds(&rt, false),
    }
}

// `openssl asn1parse` lists the salt at octet 33, and the numbers 0x4000, 8 and 1 behind it.
#[test]
fn scrypt_has_a_salt_and_its_costs(rt: HostRuntime) {
    match Pbes2Params::from_der(rt.alloc(), &SCRYPT[16..84]) {
        Ok(both) => holds(&rt, both.key_derivation_func.oid == id_scrypt()),
        Err(_) => holds(&rt, false),
    }
    let Ok(parameters) = ScryptParams::from_der(rt.alloc(), &SCRYPT[31..53]) else {
        holds(&rt, false);
        return;
    };
    same_octets(&rt, parameters.salt.octets(), &SCRYPT[35..43]);
    same(&rt, parameters.cost_parameter.to_number::<u32>(), Some(16384));
    same(&rt, parameters.block_size.to_number::<u32>(), Some(8));
    same(&rt, parameters.parallelization.to_number::<u32>(), Some(1));
    holds(&rt, parameters.key_length.0.is_none());
}

// The example of RFC 7914, 12: the salt NaCl, the numbers 1048576, 8 and 1, and a key of 64 octets.
static WITH_KEY_LENGTH: [u8; 22] = [
    0x30, 0x14, 0x04, 0x04, 0x4E, 0x61, 0x43, 0x6C, 0x02, 0x03, 0x10, 0x00, 0x00, 0x02, 0x01, 0x08,
    0x02, 0x01, 0x01, 0x02, 0x01, 0x40,
];

#[test]
fn scrypt_may_have_the_length_of_its_key(rt: HostRuntime) {
    holds(&rt, is_same::<ScryptParams>(rt.alloc(), &WITH_KEY_LENGTH));
    let Ok(parameters) = ScryptParams::from_der(rt.alloc(), &WITH_KEY_LENGTH) else {
        holds(&rt, false);
        return;
    };
    same(&rt, parameters.cost_parameter.to_number::<u32>(), Some(1_048_576));
    match parameters.key_length.0 {
        Some(length) => same(&rt, length.to_number::<u32>(), Some(64)),
        None => holds(&rt, false),
    }
}

// `openssl asn1parse` lists the salt at octet 17 and the number of iterations, 0x800, at 27.
#[test]
fn pbes1_has_a_salt_and_iterations(rt: HostRuntime) {
    match EncryptedPrivateKeyInfo::from_der(rt.alloc(), &PBES1) {
        Ok(key) => holds(&rt, key.encryption_algorithm.oid == pbe_with_sha1_and_des_cbc()),
        Err(_) => holds(&rt, false),
    }
    let Ok(parameter) = PbeParameter::from_der(rt.alloc(), &PBES1[15..31]) else {
        holds(&rt, false);
        return;
    };
    same_octets(&rt, parameter.salt.octets(), &PBES1[19..27]);
    same(&rt, parameter.iteration_count.to_number::<u32>(), Some(2048));
}

// The other source is the algorithm 1.2.3.4.
#[test]
fn a_salt_is_specified_or_has_another_source(rt: HostRuntime) {
    let source = [0x30, 5, 6, 3, 0x2A, 3, 4];
    holds(&rt, is_same::<Pbkdf2Salt>(rt.alloc(), &PBES2[33..43]));
    holds(&rt, is_same::<Pbkdf2Salt>(rt.alloc(), &source));
    match Pbkdf2Salt::from_der(rt.alloc(), &PBES2[33..43]) {
        Ok(Pbkdf2Salt::Specified(salt)) => same_octets(&rt, salt.octets(), &PBES2[35..43]),
        _ => holds(&rt, false),
    }
    match Pbkdf2Salt::from_der(rt.alloc(), &source) {
        Ok(Pbkdf2Salt::OtherSource(algorithm)) => {
            same_octets(&rt, algorithm.oid.octets(), &[0x2A, 3, 4]);
        }
        _ => holds(&rt, false),
    }
    let choice = ErrorKind::TagUnexpected {
        expected: None,
        actual: Tag::Integer,
    };
    same_at(
        &rt,
        "a number",
        refusal::<Pbkdf2Salt>(rt.alloc(), &[2, 1, 7]),
        Some(choice.at(Length::new(0))),
    );
}

// The encryption of the key is octets 92 to 157.
#[test]
fn other_octets_are_no_encrypted_key(rt: HostRuntime) {
    let alloc = rt.alloc();
    let mut octets = PBES2;
    octets[92] = 0x03;
    same_at(
        &rt,
        "a BIT STRING",
        refusal::<EncryptedPrivateKeyInfo>(alloc, &octets),
        Some(unexpected(Tag::OctetString, Tag::BitString)),
    );
    same_at(
        &rt,
        "an end that is cut off",
        refusal::<EncryptedPrivateKeyInfo>(alloc, &PBES2[..157]),
        Some(incomplete(158, 157, 157)),
    );
    let more = [0x30, 11, 0x30, 5, 6, 3, 0x2A, 3, 4, 4, 0, 5, 0];
    same_at(
        &rt,
        "a NULL behind it",
        refusal::<EncryptedPrivateKeyInfo>(alloc, &more),
        Some(trailing(11, 2)),
    );
}

#[test]
fn other_octets_are_no_parameters(rt: HostRuntime) {
    let alloc = rt.alloc();
    let integer = ErrorKind::Value { tag: Tag::Integer };
    let mut octets = WITH_KEY_LENGTH;
    octets[10] = 0x00;
    same_at(
        &rt,
        "costs with a zero in front",
        refusal::<ScryptParams>(alloc, &octets),
        Some(integer.at(Length::new(13))),
    );
    octets = WITH_KEY_LENGTH;
    octets[19] = 0x04;
    same_at(
        &rt,
        "a length that is an OCTET STRING",
        refusal::<ScryptParams>(alloc, &octets),
        Some(trailing(19, 3)),
    );
    same_at(
        &rt,
        "no iterations",
        refusal::<PbeParameter>(alloc, &[0x30, 3, 4, 1, 7]),
        Some(incomplete(6, 5, 5)),
    );
    same_at(
        &rt,
        "one algorithm",
        refusal::<Pbes2Params>(alloc, &[0x30, 7, 0x30, 5, 6, 3, 0x2A, 3, 4]),
        Some(incomplete(10, 9, 9)),
    );
}
