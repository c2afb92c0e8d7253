//! The identifiers of messages. Their octets are those that `openssl asn1parse -genstr OID:NAME`
//! writes for the name that OpenSSL has for them.
use crate::checks::{holds, same, same_octets};
use cms::asn1::values::{
    id_aa_signing_certificate, id_aa_signing_certificate_v2, id_aa_time_stamp_token,
    id_alg_pwri_kek, id_alg_zlib_compress, id_content_type, id_countersignature, id_ct_auth_data,
    id_ct_auth_enveloped_data, id_ct_compressed_data, id_ct_content_info, id_ct_tst_info, id_data,
    id_digested_data, id_encrypted_data, id_enveloped_data, id_message_digest, id_sha256,
    id_signed_data, id_signing_time, id_smime, name_of, pkcs,
};
use der_asn1::ObjectIdentifierRef;
use std::process::Abort;

// The octets of pkcs, with which the others begin.
static PKCS: [u8; 7] = [0x2A, 0x86, 0x48, 0x86, 0xF7, 0x0D, 0x01];

// Aborts the test if the identifier has other octets behind those of pkcs, or another name.
fn check(rt: &impl Abort, oid: ObjectIdentifierRef<'_>, name: &str, rest: &[u8]) {
    match oid.octets().strip_prefix(&PKCS) {
        Some(found) => same_octets(rt, found, rest),
        None => holds(rt, false),
    }
    same(rt, name_of(&oid), Some(name));
}

#[test]
fn contents_have_the_octets_of_openssl(rt: HostRuntime) {
    check(&rt, pkcs(), "pkcs", &[]);
    check(&rt, id_data(), "id-data", &[7, 1]);
    check(&rt, id_signed_data(), "id-signedData", &[7, 2]);
    check(&rt, id_enveloped_data(), "id-envelopedData", &[7, 3]);
    check(&rt, id_digested_data(), "id-digestedData", &[7, 5]);
    check(&rt, id_encrypted_data(), "id-encryptedData", &[7, 6]);
    check(&rt, id_smime(), "id-smime", &[9, 16]);
    check(&rt, id_ct_auth_data(), "id-ct-authData", &[9, 16, 1, 2]);
    check(&rt, id_ct_tst_info(), "id-ct-TSTInfo", &[9, 16, 1, 4]);
    check(
        &rt,
        id_ct_content_info(),
        "id-ct-contentInfo",
        &[9, 16, 1, 6],
    );
    check(
        &rt,
        id_ct_compressed_data(),
        "id-ct-compressedData",
        &[9, 16, 1, 9],
    );
    check(
        &rt,
        id_ct_auth_enveloped_data(),
        "id-ct-authEnvelopedData",
        &[9, 16, 1, 23],
    );
}

#[test]
fn attributes_and_algorithms_have_the_octets_of_openssl(rt: HostRuntime) {
    check(&rt, id_content_type(), "id-contentType", &[9, 3]);
    check(&rt, id_message_digest(), "id-messageDigest", &[9, 4]);
    check(&rt, id_signing_time(), "id-signingTime", &[9, 5]);
    check(&rt, id_countersignature(), "id-countersignature", &[9, 6]);
    check(
        &rt,
        id_aa_signing_certificate(),
        "id-aa-signingCertificate",
        &[9, 16, 2, 12],
    );
    check(
        &rt,
        id_aa_time_stamp_token(),
        "id-aa-timeStampToken",
        &[9, 16, 2, 14],
    );
    check(
        &rt,
        id_aa_signing_certificate_v2(),
        "id-aa-signingCertificateV2",
        &[9, 16, 2, 47],
    );
    check(
        &rt,
        id_alg_zlib_compress(),
        "id-alg-zlibCompress",
        &[9, 16, 3, 8],
    );
    check(&rt, id_alg_pwri_kek(), "id-alg-PWRI-KEK", &[9, 16, 3, 9]);
    same_octets(
        &rt,
        id_sha256().octets(),
        b"\x60\x86\x48\x01\x65\x03\x04\x02\x01",
    );
    same(&rt, name_of(&id_sha256()), Some("id-sha256"));
}
