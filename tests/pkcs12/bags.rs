//! Bags with keys, certificates and other contents, and their attributes.
use super::octets::{BAGS, CERTIFICATES, ENCRYPTED, LEGACY, PLAIN};
use crate::checks::{holds, same, same_octets};
use crate::fixtures::again::is_same;
use der::{DecodeBytes, Tag};
use pkcs8::asn1::values::id_pbes2;
use pkcs12::asn1::values::{
    cert_bag, crl_bag, friendly_name, key_bag, local_key_id, pbe_with_sha_and3_key_triple_des_cbc,
    pkcs8_shrouded_key_bag, safe_contents_bag, secret_bag, x509_certificate, x509_crl,
};
use pkcs12::{
    CertBag, CrlBag, FriendlyName, KeyBag, LocalKeyId, Pkcs8ShroudedKeyBag, SafeBag, SafeContents,
    SecretBag,
};
use std::alloc::Global;
use x509::Certificate;

// The first of the bags that the octets are; `None` if they are no bags.
fn first_bag<'a>(alloc: Global, octets: &'a [u8]) -> Option<SafeBag<'a>> {
    let bags = SafeContents::from_der(alloc, octets).ok()?;
    bags.iter(alloc).next()
}

// In the bags, `openssl asn1parse` lists the bag at octet 4, the certificate's at 24 and its octets
// at 42, with a header of three octets. The bags begin at octet 57 of the file.
#[test]
fn a_bag_has_a_certificate(rt: HostRuntime) {
    let alloc = rt.alloc();
    let Some(bag) = first_bag(alloc, &PLAIN[57..359]) else {
        holds(&rt, false);
        return;
    };
    holds(&rt, bag.bag_id == cert_bag());
    same_octets(&rt, bag.bag_value.0.contents, &PLAIN[84..297]);
    let octets = &PLAIN[81..297];
    holds(&rt, is_same::<CertBag>(alloc, octets));
    let Ok(certificate) = CertBag::from_der(alloc, octets) else {
        holds(&rt, false);
        return;
    };
    holds(&rt, certificate.oid == x509_certificate());
    same(&rt, certificate.value.0.tag, Tag::OctetString);
    match Certificate::from_der(alloc, certificate.value.0.contents) {
        Ok(found) => {
            same(
                &rt,
                found.tbs_certificate.serial_number.to_number::<u8>(),
                Some(1),
            );
        }
        Err(_) => holds(&rt, false),
    }
}

// `openssl pkcs12 -info` prints the attributes friendlyName, Ann, and localKeyID. In the bags,
// `openssl asn1parse` lists their values at octets 257 and 280.
#[test]
fn a_bag_has_a_name_and_the_identifier_of_a_key(rt: HostRuntime) {
    let alloc = rt.alloc();
    let Some(bag) = first_bag(alloc, &PLAIN[57..359]) else {
        holds(&rt, false);
        return;
    };
    let Some(attributes) = bag.bag_attributes.0 else {
        holds(&rt, false);
        return;
    };
    let mut attributes = attributes.iter(alloc);
    let (Some(name), Some(key)) = (attributes.next(), attributes.next()) else {
        holds(&rt, false);
        return;
    };
    holds(&rt, name.oid == friendly_name());
    same_octets(&rt, name.values.octets(), &PLAIN[314..322]);
    match FriendlyName::from_der(alloc, name.values.octets()) {
        Ok(text) => same_octets(&rt, text.octets(), &[0, 0x41, 0, 0x6E, 0, 0x6E]),
        Err(_) => holds(&rt, false),
    }
    holds(&rt, key.oid == local_key_id());
    match LocalKeyId::from_der(alloc, key.values.octets()) {
        Ok(identifier) => same_octets(&rt, identifier.octets(), &PLAIN[339..359]),
        Err(_) => holds(&rt, false),
    }
    holds(&rt, attributes.next().is_none());
}

// In the bags, which begin at octet 379 of the file, `openssl asn1parse` lists the key at octet 19
// and its octets at 31.
#[test]
fn a_bag_has_a_key(rt: HostRuntime) {
    let alloc = rt.alloc();
    let Some(bag) = first_bag(alloc, &PLAIN[379..]) else {
        holds(&rt, false);
        return;
    };
    holds(&rt, bag.bag_id == key_bag());
    same_octets(&rt, bag.bag_value.0.contents, &PLAIN[400..446]);
    match KeyBag::from_der(alloc, &PLAIN[398..446]) {
        Ok(key) => same_octets(&rt, key.private_key.octets(), &PLAIN[412..446]),
        Err(_) => holds(&rt, false),
    }
}

// `openssl pkcs12 -info` prints PBES2, and pbeWithSHA1And3-KeyTripleDES-CBC for the older file. In
// the bags, which begin at octets 476 and 409 of the files, `openssl asn1parse` lists the keys at
// octets 22 and 21.
#[test]
fn a_bag_has_an_encrypted_key(rt: HostRuntime) {
    let alloc = rt.alloc();
    let (Some(bag), Some(older)) = (
        first_bag(alloc, &ENCRYPTED[476..695]),
        first_bag(alloc, &LEGACY[409..559]),
    ) else {
        holds(&rt, false);
        return;
    };
    holds(&rt, bag.bag_id == pkcs8_shrouded_key_bag());
    match Pkcs8ShroudedKeyBag::from_der(alloc, &ENCRYPTED[498..656]) {
        Ok(key) => {
            holds(&rt, key.encryption_algorithm.oid == id_pbes2());
            same_octets(&rt, key.encrypted_data.octets(), &ENCRYPTED[592..656]);
        }
        Err(_) => holds(&rt, false),
    }
    holds(&rt, older.bag_id == pkcs8_shrouded_key_bag());
    match Pkcs8ShroudedKeyBag::from_der(alloc, &LEGACY[430..520]) {
        Ok(key) => {
            let oid = key.encryption_algorithm.oid;
            holds(&rt, oid == pbe_with_sha_and3_key_triple_des_cbc());
            same_octets(&rt, key.encrypted_data.octets(), &LEGACY[464..520]);
        }
        Err(_) => holds(&rt, false),
    }
}

// `openssl pkcs12 -info` prints the name Bo for the first certificate, and no attributes for the
// second one, whose serial number is 2.
#[test]
fn a_file_has_several_certificates(rt: HostRuntime) {
    let alloc = rt.alloc();
    let Ok(bags) = SafeContents::from_der(alloc, &CERTIFICATES[57..]) else {
        holds(&rt, false);
        return;
    };
    let mut number = 0;
    for bag in bags.iter(alloc) {
        holds(&rt, bag.bag_id == cert_bag());
        same(&rt, bag.bag_attributes.0.is_some(), number == 0);
        number += 1;
    }
    same(&rt, number, 2);
    match Certificate::from_der(alloc, &CERTIFICATES[364..]) {
        Ok(found) => {
            same(
                &rt,
                found.tbs_certificate.serial_number.to_number::<u8>(),
                Some(2),
            );
        }
        Err(_) => holds(&rt, false),
    }
}

// `openssl asn1parse` lists the three values at octets 19, 56 and 85.
#[test]
fn bags_have_lists_secrets_and_bags(rt: HostRuntime) {
    let alloc = rt.alloc();
    holds(&rt, is_same::<SafeContents>(alloc, &BAGS));
    let Ok(bags) = SafeContents::from_der(alloc, &BAGS) else {
        holds(&rt, false);
        return;
    };
    let mut bags = bags.iter(alloc);
    let (Some(list), Some(secret), Some(nested)) = (bags.next(), bags.next(), bags.next()) else {
        holds(&rt, false);
        return;
    };
    holds(&rt, list.bag_id == crl_bag());
    holds(&rt, secret.bag_id == secret_bag());
    holds(&rt, nested.bag_id == safe_contents_bag());
    match CrlBag::from_der(alloc, &BAGS[19..39]) {
        Ok(list) => {
            holds(&rt, list.oid == x509_crl());
            same_octets(&rt, list.value.0.contents, &[0x30, 0]);
        }
        Err(_) => holds(&rt, false),
    }
    match SecretBag::from_der(alloc, &BAGS[56..68]) {
        Ok(secret) => {
            same_octets(&rt, secret.oid.octets(), &[42, 3, 4]);
            same(&rt, secret.value.0.tag, Tag::Utf8String);
            same_octets(&rt, secret.value.0.contents, b"s");
        }
        Err(_) => holds(&rt, false),
    }
    match first_bag(alloc, &BAGS[85..]) {
        Some(bag) => {
            holds(&rt, bag.bag_id == key_bag());
            same(&rt, bag.bag_value.0.tag, Tag::Null);
        }
        None => holds(&rt, false),
    }
}
