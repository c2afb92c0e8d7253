//! Messages: bare, by Authenticode, with a fault, and with certificates. Offsets and values are those of `openssl asn1parse`.
use super::octets::{ATTRIBUTE_CERTIFICATE, AUTHENTICODE, SPKAC};
use super::printed::{has, is_shown};
use crate::cms::signed_octets::ATTACHED;
use crate::cms::timestamp_octets::RESPONSE;

#[test]
fn a_content_of_authenticode_is_shown(rt: HostRuntime) {
    let printed = is_shown(&rt, rt.alloc(), &AUTHENTICODE, 0);
    has(&rt, &printed, "contentType: pkcs7-signedData (1.2.840.113549.1.7.2)\n");
    has(&rt, &printed, "flags: includeResources\n");
    has(&rt, &printed, "unicode: obsolete\n");
    has(&rt, &printed, "digest: 00112233\n");
    has(&rt, &printed, "issuer: CN=a\n");
}

#[test]
fn an_octet_changed_in_a_message_leaves_its_fields(rt: HostRuntime) {
    let mut octets = ATTACHED;
    octets[26] = 0x30;
    let printed = is_shown(&rt, rt.alloc(), &octets, 1);
    has(&rt, &printed, "contentType: pkcs7-signedData (1.2.840.113549.1.7.2)\n");
    has(&rt, &printed, "content at offset 26: X.680 25, 27: missing component; found 30:0D:30:0B:");
    has(&rt, &printed, "OBJECT IDENTIFIER: pkcs7-data (1.2.840.113549.1.7.1)\n");
}

#[test]
fn an_octet_changed_in_a_timestamp_leaves_its_fields(rt: HostRuntime) {
    let mut octets = RESPONSE;
    octets[138] = 0x17;
    let printed = is_shown(&rt, rt.alloc(), &octets, 1);
    has(&rt, &printed, "eContentType: id-smime-ct-TSTInfo (1.2.840.113549.1.9.16.1.4)\n");
    has(&rt, &printed, "policy: 1.2.3.4.5\n");
    has(&rt, &printed, "Subject: CN=T\n");
    has(&rt, &printed, "at offset 138: X.680 31: tag of another type; found 17:0F:32:30:");
}

#[test]
fn the_signed_data_of_a_message_is_shown(rt: HostRuntime) {
    let printed = is_shown(&rt, rt.alloc(), ATTACHED.get(19..).unwrap_or(&[]), 0);
    has(&rt, &printed, "version: v1 (1)\ndigestAlgorithms:\n");
    has(&rt, &printed, "            Issuer: CN=A\n");
    has(&rt, &printed, "issuer: CN=A\n");
}

#[test]
fn a_signed_key_is_shown(rt: HostRuntime) {
    let printed = is_shown(&rt, rt.alloc(), &SPKAC, 0);
    has(&rt, &printed, "Public-Key: (512 bit)\n");
    has(&rt, &printed, "challenge: hello\n");
    has(&rt, &printed, "algorithm: md5WithRSAEncryption (1.2.840.113549.1.1.4)\n");
}

#[test]
fn an_attribute_certificate_is_shown(rt: HostRuntime) {
    let printed = is_shown(&rt, rt.alloc(), &ATTRIBUTE_CERTIFICATE, 0);
    has(&rt, &printed, "entityName: DNS:example.org\n");
    has(&rt, &printed, "issuerName: DirName:CN=a\n");
    has(&rt, &printed, "serialNumber: 7\n");
    has(&rt, &printed, "notAfterTime: 2027-01-01T00:00:00Z\n");
    has(&rt, &printed, "uniformResourceIdentifier: urn%x\n");
}
