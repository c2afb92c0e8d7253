//! The identifiers of curves, of fields, and of algorithms with elliptic curves and DSA. Their
//! octets are those that `openssl asn1parse -genstr OID:NAME` writes for the name that OpenSSL has
//! for them; it has no names for id-ecDH and id-ecMQV, whose arcs are those of RFC 5480.
use crate::checks::{same, same_octets};
use der_asn1::ObjectIdentifierRef;
use sec1::asn1::values::{
    characteristic_two_field, ecdsa_with_sha1, ecdsa_with_sha224, ecdsa_with_sha256,
    ecdsa_with_sha384, ecdsa_with_sha512, gn_basis, id_dsa, id_dsa_with_sha1, id_dsa_with_sha224,
    id_dsa_with_sha256, id_ec_dh, id_ec_mqv, id_ec_public_key, name_of, pp_basis, prime_field,
    secp192r1, secp224r1, secp256k1, secp256r1, secp384r1, secp521r1, sect163k1, sect163r2,
    sect233k1, sect233r1, sect283k1, sect283r1, sect409k1, sect409r1, sect571k1, sect571r1,
    tp_basis,
};
use std::process::Abort;

// Aborts the test if the identifier has other octets or another name.
fn check(rt: &impl Abort, oid: ObjectIdentifierRef<'_>, name: &str, octets: &[u8]) {
    same_octets(rt, oid.octets(), octets);
    same(rt, name_of(&oid), Some(name));
}

#[test]
fn curves_have_the_octets_of_openssl(rt: HostRuntime) {
    check(&rt, secp192r1(), "secp192r1", b"\x2A\x86\x48\xCE\x3D\x03\x01\x01");
    check(&rt, secp224r1(), "secp224r1", b"\x2B\x81\x04\x00\x21");
    check(&rt, secp256r1(), "secp256r1", b"\x2A\x86\x48\xCE\x3D\x03\x01\x07");
    check(&rt, secp384r1(), "secp384r1", b"\x2B\x81\x04\x00\x22");
    check(&rt, secp521r1(), "secp521r1", b"\x2B\x81\x04\x00\x23");
    check(&rt, sect163k1(), "sect163k1", b"\x2B\x81\x04\x00\x01");
    check(&rt, sect163r2(), "sect163r2", b"\x2B\x81\x04\x00\x0F");
    check(&rt, sect233k1(), "sect233k1", b"\x2B\x81\x04\x00\x1A");
    check(&rt, sect233r1(), "sect233r1", b"\x2B\x81\x04\x00\x1B");
    check(&rt, sect283k1(), "sect283k1", b"\x2B\x81\x04\x00\x10");
    check(&rt, sect283r1(), "sect283r1", b"\x2B\x81\x04\x00\x11");
    check(&rt, sect409k1(), "sect409k1", b"\x2B\x81\x04\x00\x24");
    check(&rt, sect409r1(), "sect409r1", b"\x2B\x81\x04\x00\x25");
    check(&rt, sect571k1(), "sect571k1", b"\x2B\x81\x04\x00\x26");
    check(&rt, sect571r1(), "sect571r1", b"\x2B\x81\x04\x00\x27");
    check(&rt, secp256k1(), "secp256k1", b"\x2B\x81\x04\x00\x0A");
}

#[test]
fn fields_have_the_octets_of_openssl(rt: HostRuntime) {
    check(&rt, prime_field(), "prime-field", b"\x2A\x86\x48\xCE\x3D\x01\x01");
    check(
        &rt,
        characteristic_two_field(),
        "characteristic-two-field",
        b"\x2A\x86\x48\xCE\x3D\x01\x02",
    );
    check(&rt, gn_basis(), "gnBasis", b"\x2A\x86\x48\xCE\x3D\x01\x02\x03\x01");
    check(&rt, tp_basis(), "tpBasis", b"\x2A\x86\x48\xCE\x3D\x01\x02\x03\x02");
    check(&rt, pp_basis(), "ppBasis", b"\x2A\x86\x48\xCE\x3D\x01\x02\x03\x03");
}

#[test]
fn algorithms_have_the_octets_of_openssl(rt: HostRuntime) {
    check(&rt, id_ec_public_key(), "id-ecPublicKey", b"\x2A\x86\x48\xCE\x3D\x02\x01");
    check(&rt, id_ec_dh(), "id-ecDH", b"\x2B\x81\x04\x01\x0C");
    check(&rt, id_ec_mqv(), "id-ecMQV", b"\x2B\x81\x04\x01\x0D");
    check(&rt, ecdsa_with_sha1(), "ecdsa-with-SHA1", b"\x2A\x86\x48\xCE\x3D\x04\x01");
    check(&rt, ecdsa_with_sha224(), "ecdsa-with-SHA224", b"\x2A\x86\x48\xCE\x3D\x04\x03\x01");
    check(&rt, ecdsa_with_sha256(), "ecdsa-with-SHA256", b"\x2A\x86\x48\xCE\x3D\x04\x03\x02");
    check(&rt, ecdsa_with_sha384(), "ecdsa-with-SHA384", b"\x2A\x86\x48\xCE\x3D\x04\x03\x03");
    check(&rt, ecdsa_with_sha512(), "ecdsa-with-SHA512", b"\x2A\x86\x48\xCE\x3D\x04\x03\x04");
    check(&rt, id_dsa(), "id-dsa", b"\x2A\x86\x48\xCE\x38\x04\x01");
    check(&rt, id_dsa_with_sha1(), "id-dsa-with-sha1", b"\x2A\x86\x48\xCE\x38\x04\x03");
    check(&rt, id_dsa_with_sha224(), "id-dsa-with-sha224", b"\x60\x86\x48\x01\x65\x03\x04\x03\x01");
    check(&rt, id_dsa_with_sha256(), "id-dsa-with-sha256", b"\x60\x86\x48\x01\x65\x03\x04\x03\x02");
}
