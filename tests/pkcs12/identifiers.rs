//! The identifiers of files with keys. Their octets are those that `openssl asn1parse -genstr
//! OID:NAME` writes for the name that OpenSSL has for them, and for the numbers of the arc.
use crate::checks::{holds, same, same_octets};
use der_asn1::ObjectIdentifierRef;
use pkcs12::asn1::values::{
    cert_bag, crl_bag, friendly_name, key_bag, local_key_id, name_of,
    pbe_with_sha_and2_key_triple_des_cbc, pbe_with_sha_and3_key_triple_des_cbc,
    pbe_with_sha_and40_bit_rc4, pbe_with_sha_and128_bit_rc2_cbc, pbe_with_sha_and128_bit_rc4,
    pbewith_sha_and40_bit_rc2_cbc, pkcs_12, pkcs8_shrouded_key_bag, safe_contents_bag,
    sdsi_certificate, secret_bag, x509_certificate, x509_crl,
};
use std::process::Abort;

// The octets of pkcs, with which the others begin.
static PKCS: [u8; 7] = [0x2A, 0x86, 0x48, 0x86, 0xF7, 0x0D, 0x01];

// Aborts the test if the identifier has other octets behind those of pkcs, or another name.
fn check(rt: &impl Abort, oid: ObjectIdentifierRef<'_>, name: &str, rest: &[u8]) {
    match oid.octets().strip_prefix(&PKCS) {
        Some(found) => same_octets(rt, found, rest),
        None => holds(rt, false),
    }
    same(rt, name_of(&oid), Some(name));
}

#[test]
fn bags_and_attributes_have_the_octets_of_openssl(rt: HostRuntime) {
    check(&rt, pkcs_12(), "pkcs-12", &[12]);
    check(&rt, key_bag(), "keyBag", &[12, 10, 1, 1]);
    check(
        &rt,
        pkcs8_shrouded_key_bag(),
        "pkcs8ShroudedKeyBag",
        &[12, 10, 1, 2],
    );
    check(&rt, cert_bag(), "certBag", &[12, 10, 1, 3]);
    check(&rt, crl_bag(), "crlBag", &[12, 10, 1, 4]);
    check(&rt, secret_bag(), "secretBag", &[12, 10, 1, 5]);
    check(&rt, safe_contents_bag(), "safeContentsBag", &[12, 10, 1, 6]);
    check(&rt, friendly_name(), "friendlyName", &[9, 20]);
    check(&rt, local_key_id(), "localKeyId", &[9, 21]);
    check(&rt, x509_certificate(), "x509Certificate", &[9, 22, 1]);
    check(&rt, sdsi_certificate(), "sdsiCertificate", &[9, 22, 2]);
    check(&rt, x509_crl(), "x509CRL", &[9, 23, 1]);
}

#[test]
fn encryptions_have_the_octets_of_openssl(rt: HostRuntime) {
    check(
        &rt,
        pbe_with_sha_and128_bit_rc4(),
        "pbeWithSHAAnd128BitRC4",
        &[12, 1, 1],
    );
    check(
        &rt,
        pbe_with_sha_and40_bit_rc4(),
        "pbeWithSHAAnd40BitRC4",
        &[12, 1, 2],
    );
    check(
        &rt,
        pbe_with_sha_and3_key_triple_des_cbc(),
        "pbeWithSHAAnd3-KeyTripleDES-CBC",
        &[12, 1, 3],
    );
    check(
        &rt,
        pbe_with_sha_and2_key_triple_des_cbc(),
        "pbeWithSHAAnd2-KeyTripleDES-CBC",
        &[12, 1, 4],
    );
    check(
        &rt,
        pbe_with_sha_and128_bit_rc2_cbc(),
        "pbeWithSHAAnd128BitRC2-CBC",
        &[12, 1, 5],
    );
    check(
        &rt,
        pbewith_sha_and40_bit_rc2_cbc(),
        "pbewithSHAAnd40BitRC2-CBC",
        &[12, 1, 6],
    );
}
