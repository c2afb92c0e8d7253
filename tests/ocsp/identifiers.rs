//! The identifiers of OCSP. Their octets are those that `openssl asn1parse -genstr OID:NAME` writes
//! for the name that OpenSSL has for them. It has none for the last two, whose arcs are those of
//! RFC 6960, B.1.
use crate::checks::{same, same_octets};
use der_asn1::ObjectIdentifierRef;
use ocsp::asn1::values::{
    id_kp_ocsp_signing, id_pkix_ocsp, id_pkix_ocsp_archive_cutoff, id_pkix_ocsp_basic,
    id_pkix_ocsp_crl, id_pkix_ocsp_extended_revoke, id_pkix_ocsp_nocheck, id_pkix_ocsp_nonce,
    id_pkix_ocsp_pref_sig_algs, id_pkix_ocsp_response, id_pkix_ocsp_service_locator, name_of,
};
use std::process::Abort;

// Aborts the test if the identifier has other octets or another name.
fn check(rt: &impl Abort, oid: ObjectIdentifierRef<'_>, name: &str, octets: &[u8]) {
    same_octets(rt, oid.octets(), octets);
    same(rt, name_of(&oid), Some(name));
}

#[test]
fn identifiers_have_the_octets_of_openssl(rt: HostRuntime) {
    check(&rt, id_kp_ocsp_signing(), "id-kp-OCSPSigning", b"\x2B\x06\x01\x05\x05\x07\x03\x09");
    check(&rt, id_pkix_ocsp(), "id-pkix-ocsp", b"\x2B\x06\x01\x05\x05\x07\x30\x01");
    check(&rt, id_pkix_ocsp_basic(), "id-pkix-ocsp-basic", b"\x2B\x06\x01\x05\x05\x07\x30\x01\x01");
    check(&rt, id_pkix_ocsp_nonce(), "id-pkix-ocsp-nonce", b"\x2B\x06\x01\x05\x05\x07\x30\x01\x02");
    check(&rt, id_pkix_ocsp_crl(), "id-pkix-ocsp-crl", b"\x2B\x06\x01\x05\x05\x07\x30\x01\x03");
    check(
        &rt,
        id_pkix_ocsp_response(),
        "id-pkix-ocsp-response",
        b"\x2B\x06\x01\x05\x05\x07\x30\x01\x04",
    );
    check(
        &rt,
        id_pkix_ocsp_nocheck(),
        "id-pkix-ocsp-nocheck",
        b"\x2B\x06\x01\x05\x05\x07\x30\x01\x05",
    );
    check(
        &rt,
        id_pkix_ocsp_archive_cutoff(),
        "id-pkix-ocsp-archive-cutoff",
        b"\x2B\x06\x01\x05\x05\x07\x30\x01\x06",
    );
    check(
        &rt,
        id_pkix_ocsp_service_locator(),
        "id-pkix-ocsp-service-locator",
        b"\x2B\x06\x01\x05\x05\x07\x30\x01\x07",
    );
    check(
        &rt,
        id_pkix_ocsp_pref_sig_algs(),
        "id-pkix-ocsp-pref-sig-algs",
        b"\x2B\x06\x01\x05\x05\x07\x30\x01\x08",
    );
    check(
        &rt,
        id_pkix_ocsp_extended_revoke(),
        "id-pkix-ocsp-extended-revoke",
        b"\x2B\x06\x01\x05\x05\x07\x30\x01\x09",
    );
}
