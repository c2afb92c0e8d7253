//! Parameters of PBKDF2.
use super::encrypted_octets::{PBES2, WITH_LENGTH, WITH_SHA1};
use crate::checks::{holds, same, same_at, same_octets};
use crate::fixtures::again::{is_same, refusal};
use crate::fixtures::errors::{incomplete, trailing};
use der::{DecodeBytes, ErrorKind, Length, Tag};
use pkcs8::asn1::values::{id_hmac_with_sha1, id_hmac_with_sha256};
use pkcs8::{Pbkdf2Params, Pbkdf2Salt};

// `openssl asn1parse` lists the parameters at octet 31.
#[test]
fn parameters_are_written_as_they_were(rt: HostRuntime) {
    holds(&rt, is_same::<Pbkdf2Params>(rt.alloc(), &PBES2[31..61]));
    holds(&rt, is_same::<Pbkdf2Params>(rt.alloc(), &WITH_SHA1[31..47]));
    holds(&rt, is_same::<Pbkdf2Params>(rt.alloc(), &WITH_LENGTH[31..64]));
}

// `openssl asn1parse` lists the salt at octet 33 and the number of iterations, 0x800, at 43.
#[test]
fn a_key_is_derived_with_a_salt_by_iterations_of_a_function(rt: HostRuntime) {
    let Ok(parameters) = Pbkdf2Params::from_der(rt.alloc(), &PBES2[31..61]) else {
        holds(&rt, false);
        return;
    };
    match parameters.salt {
        Pbkdf2Salt::Specified(salt) => same_octets(&rt, salt.octets(), &PBES2[35..43]),
        Pbkdf2Salt::OtherSource(_) => holds(&rt, false),
    }
    same(&rt, parameters.iteration_count.to_number::<u32>(), Some(2048));
    holds(&rt, parameters.key_length.0.is_none());
    holds(&rt, parameters.prf.0.oid == id_hmac_with_sha256());
}

#[test]
fn an_absent_function_is_hmac_with_sha1(rt: HostRuntime) {
    let Ok(parameters) = Pbkdf2Params::from_der(rt.alloc(), &WITH_SHA1[31..47]) else {
        holds(&rt, false);
        return;
    };
    holds(&rt, parameters.prf.0.oid == id_hmac_with_sha1());
    match parameters.prf.0.parameters.0 {
        Some(null) => holds(&rt, null.tag == Tag::Null && null.contents.is_empty()),
        None => holds(&rt, false),
    }
}

// `openssl asn1parse` lists the length of the key, 16, at octet 47.
#[test]
fn the_length_of_the_key_may_be_written(rt: HostRuntime) {
    let Ok(parameters) = Pbkdf2Params::from_der(rt.alloc(), &WITH_LENGTH[31..64]) else {
        holds(&rt, false);
        return;
    };
    match parameters.key_length.0 {
        Some(length) => same(&rt, length.to_number::<u32>(), Some(16)),
        None => holds(&rt, false),
    }
}

// A salt of one octet and one iteration.
#[test]
fn other_octets_are_no_parameters(rt: HostRuntime) {
    let alloc = rt.alloc();
    let tag = Tag::Sequence;
    let sha1 = b"\x30\x14\x04\x01\x07\x02\x01\x01\x30\x0C\x06\x08\x2A\x86\x48\x86\xF7\x0D\x02\x07\
        \x05\x00";
    same_at(
        &rt,
        "HMAC with SHA-1, which is the default",
        refusal::<Pbkdf2Params>(alloc, sha1),
        Some(ErrorKind::Noncanonical { tag }.at(Length::new(22))),
    );
    same_at(
        &rt,
        "a salt alone",
        refusal::<Pbkdf2Params>(alloc, &[0x30, 3, 4, 1, 7]),
        Some(incomplete(6, 5, 5)),
    );
    same_at(
        &rt,
        "a function that is an OCTET STRING",
        refusal::<Pbkdf2Params>(alloc, &[0x30, 9, 4, 1, 7, 2, 1, 1, 4, 1, 7]),
        Some(trailing(8, 3)),
    );
    let choice = ErrorKind::TagUnexpected {
        expected: None,
        actual: Tag::Integer,
    };
    same_at(
        &rt,
        "no salt",
        refusal::<Pbkdf2Params>(alloc, &[0x30, 3, 2, 1, 1]),
        Some(choice.at(Length::new(2))),
    );
}
