//! The identifiers of algorithms that encrypt private keys. Their octets are those that `openssl
//! asn1parse -genstr OID:NAME` writes for the name that OpenSSL has for the algorithm, or for the
//! arcs of RFC 8018 where it has none.
use crate::checks::{same, same_octets};
use der_asn1::ObjectIdentifierRef;
use pkcs8::asn1::values::{
    aes128_cbc_pad, aes192_cbc_pad, aes256_cbc_pad, des_cbc, des_ede3_cbc, id_hmac_with_sha1,
    id_hmac_with_sha224, id_hmac_with_sha256, id_hmac_with_sha384, id_hmac_with_sha512,
    id_hmac_with_sha512_224, id_hmac_with_sha512_256, id_pbes2, id_pbkdf2, id_pbmac1, id_scrypt,
    name_of, pbe_with_md2_and_des_cbc, pbe_with_md2_and_rc2_cbc, pbe_with_md5_and_des_cbc,
    pbe_with_md5_and_rc2_cbc, pbe_with_sha1_and_des_cbc, pbe_with_sha1_and_rc2_cbc, rc2_cbc,
    rc5_cbc_pad,
};
use std::process::Abort;

// Aborts the test if the identifier has other octets or another name.
fn check(rt: &impl Abort, oid: ObjectIdentifierRef<'_>, name: &str, octets: &[u8]) {
    same_octets(rt, oid.octets(), octets);
    same(rt, name_of(&oid), Some(name));
}

#[test]
fn functions_that_derive_keys_have_the_octets_of_openssl(rt: HostRuntime) {
    check(&rt, id_pbkdf2(), "id-PBKDF2", b"\x2A\x86\x48\x86\xF7\x0D\x01\x05\x0C");
    check(&rt, id_pbes2(), "id-PBES2", b"\x2A\x86\x48\x86\xF7\x0D\x01\x05\x0D");
    check(&rt, id_pbmac1(), "id-PBMAC1", b"\x2A\x86\x48\x86\xF7\x0D\x01\x05\x0E");
    check(&rt, id_scrypt(), "id-scrypt", b"\x2B\x06\x01\x04\x01\xDA\x47\x04\x0B");
    check(&rt, id_hmac_with_sha1(), "id-hmacWithSHA1", b"\x2A\x86\x48\x86\xF7\x0D\x02\x07");
    check(&rt, id_hmac_with_sha224(), "id-hmacWithSHA224", b"\x2A\x86\x48\x86\xF7\x0D\x02\x08");
    check(&rt, id_hmac_with_sha256(), "id-hmacWithSHA256", b"\x2A\x86\x48\x86\xF7\x0D\x02\x09");
    check(&rt, id_hmac_with_sha384(), "id-hmacWithSHA384", b"\x2A\x86\x48\x86\xF7\x0D\x02\x0A");
    check(&rt, id_hmac_with_sha512(), "id-hmacWithSHA512", b"\x2A\x86\x48\x86\xF7\x0D\x02\x0B");
    check(
        &rt,
        id_hmac_with_sha512_224(),
        "id-hmacWithSHA512-224",
        b"\x2A\x86\x48\x86\xF7\x0D\x02\x0C",
    );
    check(
        &rt,
        id_hmac_with_sha512_256(),
        "id-hmacWithSHA512-256",
        b"\x2A\x86\x48\x86\xF7\x0D\x02\x0D",
    );
}

#[test]
fn encryption_has_the_octets_of_openssl(rt: HostRuntime) {
    check(
        &rt,
        pbe_with_md2_and_des_cbc(),
        "pbeWithMD2AndDES-CBC",
        b"\x2A\x86\x48\x86\xF7\x0D\x01\x05\x01",
    );
    check(
        &rt,
        pbe_with_md2_and_rc2_cbc(),
        "pbeWithMD2AndRC2-CBC",
        b"\x2A\x86\x48\x86\xF7\x0D\x01\x05\x04",
    );
    check(
        &rt,
        pbe_with_md5_and_des_cbc(),
        "pbeWithMD5AndDES-CBC",
        b"\x2A\x86\x48\x86\xF7\x0D\x01\x05\x03",
    );
    check(
        &rt,
        pbe_with_md5_and_rc2_cbc(),
        "pbeWithMD5AndRC2-CBC",
        b"\x2A\x86\x48\x86\xF7\x0D\x01\x05\x06",
    );
    check(
        &rt,
        pbe_with_sha1_and_des_cbc(),
        "pbeWithSHA1AndDES-CBC",
        b"\x2A\x86\x48\x86\xF7\x0D\x01\x05\x0A",
    );
    check(
        &rt,
        pbe_with_sha1_and_rc2_cbc(),
        "pbeWithSHA1AndRC2-CBC",
        b"\x2A\x86\x48\x86\xF7\x0D\x01\x05\x0B",
    );
    check(&rt, des_cbc(), "desCBC", b"\x2B\x0E\x03\x02\x07");
    check(&rt, des_ede3_cbc(), "des-EDE3-CBC", b"\x2A\x86\x48\x86\xF7\x0D\x03\x07");
    check(&rt, rc2_cbc(), "rc2CBC", b"\x2A\x86\x48\x86\xF7\x0D\x03\x02");
    check(&rt, rc5_cbc_pad(), "rc5-CBC-PAD", b"\x2A\x86\x48\x86\xF7\x0D\x03\x09");
    check(&rt, aes128_cbc_pad(), "aes128-CBC-PAD", b"\x60\x86\x48\x01\x65\x03\x04\x01\x02");
    check(&rt, aes192_cbc_pad(), "aes192-CBC-PAD", b"\x60\x86\x48\x01\x65\x03\x04\x01\x16");
    check(&rt, aes256_cbc_pad(), "aes256-CBC-PAD", b"\x60\x86\x48\x01\x65\x03\x04\x01\x2A");
}
