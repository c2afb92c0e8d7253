//! Parameters of PSS and OAEP.
use super::rsa_parameter_octets::{OAEP, PSS, WITH_MASK};
use crate::checks::{holds, same, same_at, same_octets};
use crate::fixtures::again::{is_same, refusal};
use crate::fixtures::errors::{trailing, unexpected};
use der::{DecodeBytes, Error, ErrorKind, Length, Tag, TagNumber};
use pkcs1::asn1::values::{id_mgf1, id_p_specified, id_sha1, id_sha256};
use pkcs1::{RsaOaepParams, RsaPssParams};

#[test]
fn parameters_are_written_as_they_were(rt: HostRuntime) {
    holds(&rt, is_same::<RsaPssParams>(rt.alloc(), &PSS));
    holds(&rt, is_same::<RsaPssParams>(rt.alloc(), &WITH_MASK));
    holds(&rt, is_same::<RsaPssParams>(rt.alloc(), &[0x30, 0]));
    holds(&rt, is_same::<RsaOaepParams>(rt.alloc(), &OAEP));
    holds(&rt, is_same::<RsaOaepParams>(rt.alloc(), &[0x30, 0]));
}

// In the parameters, `openssl asn1parse` lists the hash of the mask at octet 34, and the length of
// the salt, 32, at octet 51.
#[test]
fn pss_has_a_hash_a_mask_and_a_salt(rt: HostRuntime) {
    let Ok(parameters) = RsaPssParams::from_der(rt.alloc(), &PSS) else {
        holds(&rt, false);
        return;
    };
    holds(&rt, parameters.hash.0.0.oid == id_sha256());
    holds(&rt, parameters.mask_gen.0.0.oid == id_mgf1());
    match parameters.mask_gen.0.0.parameters.0 {
        Some(hash) => same_octets(&rt, hash.contents, &PSS[36..49]),
        None => holds(&rt, false),
    }
    same(&rt, parameters.salt_len.0.0.value.number, 32);
    same(&rt, parameters.trailer_field.0.0.value.number, 1);
}

// In the parameters, `openssl asn1parse` lists the label at octet 60.
#[test]
fn oaep_has_a_hash_a_mask_and_a_label(rt: HostRuntime) {
    let Ok(parameters) = RsaOaepParams::from_der(rt.alloc(), &OAEP) else {
        holds(&rt, false);
        return;
    };
    holds(&rt, parameters.hash.0.0.oid == id_sha256());
    holds(&rt, parameters.hash.0.0.parameters.0.is_none());
    holds(&rt, parameters.mask_gen.0.0.oid == id_mgf1());
    holds(&rt, parameters.p_source.0.0.oid == id_p_specified());
    match parameters.p_source.0.0.parameters.0 {
        Some(label) => same_octets(&rt, label.contents, &[1, 2]),
        None => holds(&rt, false),
    }
}

// SHA-1 with NULL, without the header.
static SHA1: [u8; 9] = [0x06, 0x05, 0x2B, 0x0E, 0x03, 0x02, 0x1A, 0x05, 0x00];

// RFC 8017, A.2.3: SHA-1 in both places, a salt of 20 octets, and the trailer 0xBC.
#[test]
fn absent_parameters_of_pss_have_their_defaults(rt: HostRuntime) {
    let Ok(parameters) = RsaPssParams::from_der(rt.alloc(), &[0x30, 0]) else {
        holds(&rt, false);
        return;
    };
    holds(&rt, parameters.hash.0.0.oid == id_sha1());
    match parameters.hash.0.0.parameters.0 {
        Some(null) => holds(&rt, null.tag == Tag::Null && null.contents.is_empty()),
        None => holds(&rt, false),
    }
    holds(&rt, parameters.mask_gen.0.0.oid == id_mgf1());
    match parameters.mask_gen.0.0.parameters.0 {
        Some(hash) => {
            holds(&rt, hash.tag == Tag::Sequence);
            same_octets(&rt, hash.contents, &SHA1);
        }
        None => holds(&rt, false),
    }
    same(&rt, parameters.salt_len.0.0.value.number, 20);
    same(&rt, parameters.trailer_field.0.0.value.number, 1);
}

// RFC 8017, A.2.1: SHA-1 in both places, and the empty label.
#[test]
fn absent_parameters_of_oaep_have_their_defaults(rt: HostRuntime) {
    let Ok(parameters) = RsaOaepParams::from_der(rt.alloc(), &[0x30, 0]) else {
        holds(&rt, false);
        return;
    };
    holds(&rt, parameters.hash.0.0.oid == id_sha1());
    holds(&rt, parameters.mask_gen.0.0.oid == id_mgf1());
    match parameters.mask_gen.0.0.parameters.0 {
        Some(hash) => same_octets(&rt, hash.contents, &SHA1),
        None => holds(&rt, false),
    }
    holds(&rt, parameters.p_source.0.0.oid == id_p_specified());
    match parameters.p_source.0.0.parameters.0 {
        Some(label) => holds(&rt, label.tag == Tag::OctetString && label.contents.is_empty()),
        None => holds(&rt, false),
    }
}

// A default that is written in [number], and ends at this octet.
fn written(number: u32, end: u32) -> Option<Error> {
    let tag = Tag::ContextSpecific {
        constructed: true,
        number: TagNumber(number),
    };
    Some(ErrorKind::Noncanonical { tag }.at(Length::new(end)))
}

// SHA-1 in [0], MGF1 with SHA-1 in [1], a salt of 20 octets in [2] and the trailer 1 in [3].
#[test]
fn defaults_of_pss_that_are_written_are_refused_after_them(rt: HostRuntime) {
    let alloc = rt.alloc();
    let hash = b"\x30\x0D\xA0\x0B\x30\x09\x06\x05\x2B\x0E\x03\x02\x1A\x05\x00";
    same_at(&rt, "hash", refusal::<RsaPssParams>(alloc, hash), written(0, 15));
    let mask = b"\x30\x1A\xA1\x18\x30\x16\x06\x09\x2A\x86\x48\x86\xF7\x0D\x01\x01\x08\
        \x30\x09\x06\x05\x2B\x0E\x03\x02\x1A\x05\x00";
    same_at(&rt, "mask", refusal::<RsaPssParams>(alloc, mask), written(1, 28));
    let salt = b"\x30\x05\xA2\x03\x02\x01\x14";
    same_at(&rt, "salt", refusal::<RsaPssParams>(alloc, salt), written(2, 7));
    let trailer = b"\x30\x05\xA3\x03\x02\x01\x01";
    same_at(&rt, "trailer", refusal::<RsaPssParams>(alloc, trailer), written(3, 7));
}

// The empty label in [2].
#[test]
fn defaults_of_oaep_that_are_written_are_refused_after_them(rt: HostRuntime) {
    let label = b"\x30\x11\xA2\x0F\x30\x0D\x06\x09\x2A\x86\x48\x86\xF7\x0D\x01\x01\x09\x04\x00";
    same(&rt, refusal::<RsaOaepParams>(rt.alloc(), label), written(2, 19));
}

// RFC 4055, 2.1: SHA-1 without parameters means the same, but is another value.
#[test]
fn sha1_without_parameters_is_no_default(rt: HostRuntime) {
    let hash = b"\x30\x0B\xA0\x09\x30\x07\x06\x05\x2B\x0E\x03\x02\x1A";
    holds(&rt, is_same::<RsaPssParams>(rt.alloc(), hash));
    holds(&rt, is_same::<RsaOaepParams>(rt.alloc(), hash));
}

#[test]
fn other_octets_are_no_parameters(rt: HostRuntime) {
    let alloc = rt.alloc();
    same_at(
        &rt,
        "tag 4",
        refusal::<RsaPssParams>(alloc, &[0x30, 5, 0xA4, 3, 2, 1, 1]),
        Some(trailing(2, 5)),
    );
    same_at(
        &rt,
        "an implicit tag",
        refusal::<RsaPssParams>(alloc, &[0x30, 3, 0x82, 1, 32]),
        Some(trailing(2, 3)),
    );
    same_at(
        &rt,
        "tag 2 behind tag 3",
        refusal::<RsaPssParams>(alloc, b"\x30\x0A\xA3\x03\x02\x01\x02\xA2\x03\x02\x01\x20"),
        Some(trailing(7, 5)),
    );
    let mut octets = PSS;
    octets[4] = 0x31;
    same_at(
        &rt,
        "an algorithm that is a SET",
        refusal::<RsaPssParams>(alloc, &octets),
        Some(unexpected(Tag::Sequence, Tag::Set)),
    );
    octets = PSS;
    octets[53] = 20;
    same_at(&rt, "a salt of 20", refusal::<RsaPssParams>(alloc, &octets), written(2, 54));
}
