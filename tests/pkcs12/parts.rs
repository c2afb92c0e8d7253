//! Parts of files that are encrypted.
use super::octets::{ENCRYPTED, LEGACY};
use crate::checks::{holds, same, same_octets};
use crate::fixtures::again::is_same;
use cms::asn1::values::{id_data, id_encrypted_data};
use cms::{ContentInfo, EncryptedData};
use der::{DecodeBytes, Tag};
use pkcs8::Pbes2Params;
use pkcs8::asn1::values::id_pbes2;
use pkcs12::asn1::values::pbewith_sha_and40_bit_rc2_cbc;
use pkcs12::{AuthenticatedSafe, Pkcs12PbeParams};

// `openssl asn1parse -strparse 26` lists the first part at octet 4 and the second one at 426; so
// these are octets of the file that are 30 higher.
#[test]
fn the_first_part_is_encrypted_and_the_second_one_is_not(rt: HostRuntime) {
    let alloc = rt.alloc();
    let Ok(safe) = AuthenticatedSafe::from_der(alloc, &ENCRYPTED[30..695]) else {
        holds(&rt, false);
        return;
    };
    let mut parts = safe.iter(alloc);
    let (Some(first), Some(second)) = (parts.next(), parts.next()) else {
        holds(&rt, false);
        return;
    };
    holds(&rt, first.content_type == id_encrypted_data());
    same(&rt, first.content.0.tag, Tag::Sequence);
    same_octets(&rt, first.content.0.contents, &ENCRYPTED[57..456]);
    holds(&rt, second.content_type == id_data());
    same(&rt, second.content.0.tag, Tag::OctetString);
    same_octets(&rt, second.content.0.contents, &ENCRYPTED[476..695]);
    holds(&rt, parts.next().is_none());
    holds(&rt, is_same::<ContentInfo>(alloc, &ENCRYPTED[34..456]));
}

// `openssl asn1parse -strparse 26` lists the encrypted data at octet 23, the parameters at 58 and
// the encrypted octets at 134.
#[test]
fn a_part_is_encrypted_by_pbes2(rt: HostRuntime) {
    let alloc = rt.alloc();
    let octets = &ENCRYPTED[53..456];
    holds(&rt, is_same::<EncryptedData>(alloc, octets));
    let Ok(data) = EncryptedData::from_der(alloc, octets) else {
        holds(&rt, false);
        return;
    };
    let info = data.encrypted_content_info;
    holds(&rt, info.content_type == id_data());
    holds(&rt, info.content_encryption_algorithm.oid == id_pbes2());
    holds(&rt, is_same::<Pbes2Params>(alloc, &ENCRYPTED[88..164]));
    match info.encrypted_content.0 {
        Some(content) => same_octets(&rt, content.0.octets(), &ENCRYPTED[168..456]),
        None => holds(&rt, false),
    }
}

// `openssl asn1parse -strparse 26` lists the encrypted data at octet 23 and the parameters, a salt
// and 2048 iterations, at 59.
#[test]
fn an_older_part_is_encrypted_by_rc2(rt: HostRuntime) {
    let alloc = rt.alloc();
    let Ok(data) = EncryptedData::from_der(alloc, &LEGACY[53..389]) else {
        holds(&rt, false);
        return;
    };
    let algorithm = data.encrypted_content_info.content_encryption_algorithm;
    holds(&rt, algorithm.oid == pbewith_sha_and40_bit_rc2_cbc());
    match algorithm.parameters.0 {
        Some(parameters) => same_octets(&rt, parameters.contents, &LEGACY[91..105]),
        None => holds(&rt, false),
    }
    match Pkcs12PbeParams::from_der(alloc, &LEGACY[89..105]) {
        Ok(parameters) => {
            same_octets(&rt, parameters.salt.octets(), &LEGACY[93..101]);
            same(
                &rt,
                parameters.iteration_count.to_number::<u32>(),
                Some(2048),
            );
        }
        Err(_) => holds(&rt, false),
    }
}
