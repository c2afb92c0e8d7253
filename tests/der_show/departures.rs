//! What departs from the Distinguished Encoding Rules is shown as far as its types go, and listed. Offsets are those of
//! `openssl asn1parse`, sections those of X.690 and X.680, and words of fields those of openssl.
use super::octets::{BAGS, CERTIFICATE, DSA_KEY, UNSORTED};
use super::printed::{has, is_shown, lacks};
use crate::cms::streamed_octets::STREAMED;
use der_show_lib::{Options, Shown, show_in_memory};

// The certificate with other octets from a place on.
fn changed(place: usize, octets: &[u8]) -> [u8; 439] {
    let mut copy = CERTIFICATE;
    for (at, octet) in octets.iter().enumerate() {
        if let Some(own) = copy.get_mut(place.saturating_add(at)) {
            *own = *octet;
        }
    }
    copy
}

#[test]
fn uses_of_a_key_in_ber_are_printed(rt: HostRuntime) {
    let printed = is_shown(&rt, rt.alloc(), &changed(361, &[0x03, 0x02, 0x00, 0x04]), 1);
    has(&rt, &printed, "X509v3 Key Usage (2.5.29.15): critical\n        Certificate Sign\n");
    has(&rt, &printed, ".extnValue at offset 361: X.690 11.2.2: ");
    has(&rt, &printed, "; found 03:02:00:04\n1 departure from DER, 0 of them from BER too\n");
}

#[test]
fn an_octet_string_has_no_uses_of_a_key(rt: HostRuntime) {
    let printed = is_shown(&rt, rt.alloc(), &changed(361, &[0x04]), 1);
    lacks(&rt, &printed, "Certificate Sign");
    has(&rt, &printed, "OCTET STRING: 0204\n");
    has(&rt, &printed, ".extnValue at offset 361: X.680 31: ");
    has(&rt, &printed, "1 departure from DER, 1 of them from BER too\n");
}

#[test]
fn a_set_has_no_alternative_names(rt: HostRuntime) {
    let printed = is_shown(&rt, rt.alloc(), &changed(334, &[0x31]), 1);
    lacks(&rt, &printed, "DNS:");
    has(&rt, &printed, ".extnValue at offset 334: X.680 31: ");
}

#[test]
fn certificates_of_a_message_out_of_order_are_shown(rt: HostRuntime) {
    let printed = is_shown(&rt, rt.alloc(), &UNSORTED, 1);
    has(&rt, &printed, "contentType: pkcs7-signedData (1.2.840.113549.1.7.2)\n");
    has(&rt, &printed, "Subject: CN=a\n");
    has(&rt, &printed, "content.certificates at offset 238: X.690 11.6: ");
    has(&rt, &printed, "1 departure from DER, 0 of them from BER too\n");
}

#[test]
fn a_date_that_does_not_exist_is_printed_and_listed(rt: HostRuntime) {
    let printed = is_shown(&rt, rt.alloc(), &changed(125, b"3"), 1);
    has(&rt, &printed, "Not After : 20513717202644Z\n");
    has(&rt, &printed, "tbsCertificate.validity.notAfter at offset 119: X.680 46: ");
}

#[test]
fn a_streamed_message_is_shown(rt: HostRuntime) {
    let printed = is_shown(&rt, rt.alloc(), &STREAMED, 1);
    has(&rt, &printed, "contentType: pkcs7-signedData (1.2.840.113549.1.7.2)\n");
    has(&rt, &printed, "at offset 0: X.690 10.1: indefinite length; found 30:80:06:09:");
    has(&rt, &printed, " departures from DER, 0 of them from BER too\n");
}

#[test]
fn secrets_are_not_printed(rt: HostRuntime) {
    // what `openssl dsa -text` prints as `priv`
    let printed = is_shown(&rt, rt.alloc(), &DSA_KEY, 0);
    has(&rt, &printed, "Private-Key: (1024 bit), not shown\n");
    for secret in ["8a:2a:25:d4:d5:97:31", "8A2A25D4D59731", "8A:2A:25:D4:D5:97:31"] {
        lacks(&rt, &printed, secret);
    }
    // the attributes of the bags are out of order
    let printed = is_shown(&rt, rt.alloc(), &BAGS, 1);
    has(&rt, &printed, "Private-Key: 32 octets, not shown\n");
    has(&rt, &printed, "authSafe.content[1].content[0].bagAttributes at offset 477: X.690 11.6: ");
}

#[test]
fn departures_alone_are_printed_with_the_file(rt: HostRuntime) {
    let mut options = Options::new();
    options.shown = Shown::Departures;
    let finished = show_in_memory(rt.alloc(), options, "f", &changed(361, &[0x04]));
    let text = "f: tbsCertificate.extensions[4].extnValue at offset 361: X.680 31: tag of another type; \
        found 04:02:02:04\n1 departure from DER, 1 of them from BER too\n";
    crate::checks::same_octets(&rt, finished.out.target.buffer.as_slice(), text.as_bytes());
    let finished = show_in_memory(rt.alloc(), options, "f", &CERTIFICATE);
    crate::checks::same_octets(&rt, finished.out.target.buffer.as_slice(), b"");
    crate::checks::same(&rt, finished.status, 0);
}

#[test]
fn octets_after_a_value_are_listed(rt: HostRuntime) {
    let mut octets = [0u8; 442];
    octets[..439].copy_from_slice(&CERTIFICATE);
    octets[439..].copy_from_slice(b"xyz");
    let printed = is_shown(&rt, rt.alloc(), &octets, 1);
    has(&rt, &printed, "Signature Value: 64 octets\n");
    has(&rt, &printed, "at offset 439: X.690 8.1.1, 8.9.2: unexpected element; found 78:79:7A\n");
}

#[test]
fn a_certificate_that_is_cut_off_is_shown_as_elements(rt: HostRuntime) {
    let printed = is_shown(&rt, rt.alloc(), &CERTIFICATE[..438], 1);
    has(&rt, &printed, "OBJECT IDENTIFIER :commonName (2.5.4.3)\n");
    has(&rt, &printed, "at offset 0: X.690 8.1.4: contents cut off; found 30:82:01:B3:");
}

#[test]
fn what_is_written_and_is_not_der_is_an_error(rt: HostRuntime) {
    // a local time (X.690, 11.7.1)
    let mut options = Options::new();
    options.shown = Shown::Der;
    let finished = show_in_memory(rt.alloc(), options, "f", &changed(121, b"2051071720.2644"));
    has(&rt, &finished.errors.target.buffer, "error: f: a part of the value is not written in DER\n");
    crate::checks::same(&rt, finished.status, 1);
}

#[test]
fn fingerprints_of_ber_are_of_its_der(rt: HostRuntime) {
    // the certificate with an indefinite length around it. `openssl dgst -sha256 -c` and `-sha1 -c` of the certificate
    let mut octets = [0u8; 439];
    octets[..437].copy_from_slice(&CERTIFICATE[2..]);
    octets[..2].copy_from_slice(&[0x30, 0x80]);
    let printed = is_shown(&rt, rt.alloc(), &octets, 1);
    has(&rt, &printed, "SHA-256 Fingerprint: C4:39:B6:E4:62:87:F3:FC:75:96:D1:C4:68:7D:72:5C:69:70:56:03:87:9D:C2:79:4C:5E:C1:3F:F3:93:EE:24\nSHA-1 Fingerprint: 16:05:5B:D4:9C:7A:81:E1:AD:87:1A:0E:A9:E7:3F:33:E9:32:63:AD\n");
    has(&rt, &printed, "X.690 10.1: indefinite length;");
    let mut options = Options::new();
    options.shown = Shown::Short;
    let finished = show_in_memory(rt.alloc(), options, "f", &octets);
    has(&rt, &finished.out.target.buffer, "; SHA-256 C4:39:B6:E4:62:87:F3:FC:75:96:D1:C4:68:7D:72:5C:69:70:56:03:87:9D:C2:79:4C:5E:C1:3F:F3:93:EE:24\n");
}
