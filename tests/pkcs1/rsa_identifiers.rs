//! The identifiers of algorithms with RSA. Their octets are those that `openssl asn1parse -genstr
//! OID:NAME` writes for the name that OpenSSL has for the algorithm.
use crate::checks::{same, same_octets};
use der_asn1::ObjectIdentifierRef;
use pkcs1::asn1::values::{
    id_md2, id_md5, id_mgf1, id_p_specified, id_rsaes_oaep, id_rsassa_pss, id_sha1, id_sha224,
    id_sha256, id_sha384, id_sha512, id_sha512_224, id_sha512_256, md2_with_rsa_encryption,
    md5_with_rsa_encryption, name_of, rsa_encryption, sha1_with_rsa_encryption,
    sha224_with_rsa_encryption, sha256_with_rsa_encryption, sha384_with_rsa_encryption,
    sha512_224_with_rsa_encryption, sha512_256_with_rsa_encryption, sha512_with_rsa_encryption,
};
use std::process::Abort;

// Aborts the test if the identifier has other octets or another name.
fn check(rt: &impl Abort, oid: ObjectIdentifierRef<'_>, name: &str, octets: &[u8]) {
    same_octets(rt, oid.octets(), octets);
    same(rt, name_of(&oid), Some(name));
}

#[test]
fn algorithms_with_rsa_have_the_octets_of_openssl(rt: HostRuntime) {
    check(&rt, rsa_encryption(), "rsaEncryption", b"\x2A\x86\x48\x86\xF7\x0D\x01\x01\x01");
    check(&rt, id_rsaes_oaep(), "id-RSAES-OAEP", b"\x2A\x86\x48\x86\xF7\x0D\x01\x01\x07");
    check(&rt, id_mgf1(), "id-mgf1", b"\x2A\x86\x48\x86\xF7\x0D\x01\x01\x08");
    check(&rt, id_p_specified(), "id-pSpecified", b"\x2A\x86\x48\x86\xF7\x0D\x01\x01\x09");
    check(&rt, id_rsassa_pss(), "id-RSASSA-PSS", b"\x2A\x86\x48\x86\xF7\x0D\x01\x01\x0A");
    check(
        &rt,
        md2_with_rsa_encryption(),
        "md2WithRSAEncryption",
        b"\x2A\x86\x48\x86\xF7\x0D\x01\x01\x02",
    );
    check(
        &rt,
        md5_with_rsa_encryption(),
        "md5WithRSAEncryption",
        b"\x2A\x86\x48\x86\xF7\x0D\x01\x01\x04",
    );
    check(
        &rt,
        sha1_with_rsa_encryption(),
        "sha1WithRSAEncryption",
        b"\x2A\x86\x48\x86\xF7\x0D\x01\x01\x05",
    );
    check(
        &rt,
        sha224_with_rsa_encryption(),
        "sha224WithRSAEncryption",
        b"\x2A\x86\x48\x86\xF7\x0D\x01\x01\x0E",
    );
    check(
        &rt,
        sha256_with_rsa_encryption(),
        "sha256WithRSAEncryption",
        b"\x2A\x86\x48\x86\xF7\x0D\x01\x01\x0B",
    );
    check(
        &rt,
        sha384_with_rsa_encryption(),
        "sha384WithRSAEncryption",
        b"\x2A\x86\x48\x86\xF7\x0D\x01\x01\x0C",
    );
    check(
        &rt,
        sha512_with_rsa_encryption(),
        "sha512WithRSAEncryption",
        b"\x2A\x86\x48\x86\xF7\x0D\x01\x01\x0D",
    );
    check(
        &rt,
        sha512_224_with_rsa_encryption(),
        "sha512-224WithRSAEncryption",
        b"\x2A\x86\x48\x86\xF7\x0D\x01\x01\x0F",
    );
    check(
        &rt,
        sha512_256_with_rsa_encryption(),
        "sha512-256WithRSAEncryption",
        b"\x2A\x86\x48\x86\xF7\x0D\x01\x01\x10",
    );
}

#[test]
fn hashes_have_the_octets_of_openssl(rt: HostRuntime) {
    check(&rt, id_md2(), "id-md2", b"\x2A\x86\x48\x86\xF7\x0D\x02\x02");
    check(&rt, id_md5(), "id-md5", b"\x2A\x86\x48\x86\xF7\x0D\x02\x05");
    check(&rt, id_sha1(), "id-sha1", b"\x2B\x0E\x03\x02\x1A");
    check(&rt, id_sha224(), "id-sha224", b"\x60\x86\x48\x01\x65\x03\x04\x02\x04");
    check(&rt, id_sha256(), "id-sha256", b"\x60\x86\x48\x01\x65\x03\x04\x02\x01");
    check(&rt, id_sha384(), "id-sha384", b"\x60\x86\x48\x01\x65\x03\x04\x02\x02");
    check(&rt, id_sha512(), "id-sha512", b"\x60\x86\x48\x01\x65\x03\x04\x02\x03");
    check(&rt, id_sha512_224(), "id-sha512-224", b"\x60\x86\x48\x01\x65\x03\x04\x02\x05");
    check(&rt, id_sha512_256(), "id-sha512-256", b"\x60\x86\x48\x01\x65\x03\x04\x02\x06");
}
