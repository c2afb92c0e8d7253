//! Texts that are PEM but for their form: each is shown as the same key is in PEM. And lines: folded, and one for a value.
use super::files::{FIELDS, KEY};
use super::octets::CERTIFICATE;
use super::printed::{has, lacks};
use crate::checks::{same, same_octets};
use der_show_lib::{Options, Shown, show_in_memory};

#[test]
fn other_forms_of_a_text_are_read(rt: HostRuntime) {
    let (mut marked, mut wide) = (Vec::new(rt.alloc()), Vec::new(rt.alloc()));
    let _ = marked.extend_from_slice(&[0xEF, 0xBB, 0xBF]);
    let _ = wide.extend_from_slice(&[0xFF, 0xFE]);
    let mut indented = Vec::new(rt.alloc());
    for octet in KEY.bytes() {
        let _ = marked.push(octet);
        let _ = wide.extend_from_slice(&[octet, 0]);
        let _ = indented.push(octet);
        if octet == b'\n' {
            let _ = indented.extend_from_slice(b" \t");
        }
    }
    for text in [&marked, &wide, &indented] {
        let finished = show_in_memory(rt.alloc(), Options::new(), "f", text.as_slice());
        let heading = b"PUBLIC KEY (line 2):\n";
        let printed = finished.out.target.buffer.as_slice();
        same_octets(&rt, printed.get(..heading.len()).unwrap_or(&[]), heading);
        same_octets(&rt, printed.get(heading.len()..).unwrap_or(&[]), FIELDS.as_bytes());
        same(&rt, finished.status, 0);
    }
}

// What `openssl smime -sign -nodetach -nocerts -nosmimecap` wrote, for a file with `hi` and a line feed.
const MAIL: &str = "MIME-Version: 1.0\n\
    Content-Disposition: attachment; filename=\"smime.p7m\"\n\
    Content-Type: application/x-pkcs7-mime; smime-type=signed-data; name=\"smime.p7m\"\n\
    Content-Transfer-Encoding: base64\n\n\
    MIIBagYJKoZIhvcNAQcCoIIBWzCCAVcCAQExDzANBglghkgBZQMEAgEFADATBgkq\n\
    hkiG9w0BBwGgBgQEaGkNCjGCASowggEmAgEBMFEwOTELMAkGA1UEBhMCREUxFTAT\n\
    BgNVBAoMDEV4YW1wbGUsIEluYzETMBEGA1UEAwwKbGVhZiBQLTI1NgIUQspv+bsv\n\
    +jAzm3rHm/MwIRqaE9cwDQYJYIZIAWUDBAIBBQCgaTAYBgkqhkiG9w0BCQMxCwYJ\n\
    KoZIhvcNAQcBMBwGCSqGSIb3DQEJBTEPFw0yNjExMjkwMDQyMTNaMC8GCSqGSIb3\n\
    DQEJBDEiBCBEcj3U0ODUajx/qKyiVLYcJ7a1eJ+WF36CyAcAQJ8VNTAKBggqhkjO\n\
    PQQDAgRIMEYCIQD202K+IDktWatd15DTyEalh5AJUpgsKbjSDyQjG8XpbwIhAPNw\n\
    IvAK2gN2zBcXEHs/WwYw91G1h283NxvSxUrz9/K1\n\n";

#[test]
fn messages_in_mail_are_read(rt: HostRuntime) {
    let finished = show_in_memory(rt.alloc(), Options::new(), "f", MAIL.as_bytes());
    has(&rt, &finished.out.target.buffer, "PKCS7 (line 5):\ncontentType: pkcs7-signedData (1.2.840.113549.1.7.2)\n");
    has(&rt, &finished.out.target.buffer, "issuer: C=DE, O=Example\\, Inc, CN=leaf P-256\n");
    has(&rt, &finished.out.target.buffer, "2026-11-29T00:42:13Z\n");
    same(&rt, finished.status, 0);
    // the type of the whole mail is no type of its body
    let text = "Content-Type: multipart/signed; protocol=\"application/pkcs7-signature\"\n\nAAAA\n";
    let finished = show_in_memory(rt.alloc(), Options::new(), "f", text.as_bytes());
    has(&rt, &finished.errors.target.buffer, "error: f: the file is a text without a PEM block\n");
}

#[test]
fn long_lines_are_folded(rt: HostRuntime) {
    let mut options = Options::new();
    options.width = Some(40);
    let whole = show_in_memory(rt.alloc(), Options::new(), "f", &CERTIFICATE);
    let folded = show_in_memory(rt.alloc(), options, "f", &CERTIFICATE);
    let (mut column, mut kept) = (0, Vec::new(rt.alloc()));
    for octet in folded.out.target.buffer.as_slice() {
        column = if *octet == b'\n' { 0 } else { column + 1 };
        same(&rt, column.min(40), column);
        if !octet.is_ascii_whitespace() {
            let _ = kept.push(*octet);
        }
    }
    let mut expected = Vec::new(rt.alloc());
    for octet in whole.out.target.buffer.as_slice() {
        if !octet.is_ascii_whitespace() {
            let _ = expected.push(*octet);
        }
    }
    same_octets(&rt, kept.as_slice(), expected.as_slice());
}

#[test]
fn a_certificate_is_shown_on_one_line(rt: HostRuntime) {
    let mut options = Options::new();
    options.shown = Shown::Short;
    options.now = Some(1798761600); // 2027-01-01
    let finished = show_in_memory(rt.alloc(), options, "f", &CERTIFICATE);
    let line = "f: certificate; C=DE, O=Example\\, Inc, CN=example.org; ED25519; Nov 25 20:26:44 2026 GMT to \
        Jul 17 20:26:44 2051 GMT, 8963 days left; SHA-256 C4:39:B6:E4:62:87:F3:FC:75:96:D1:C4:68:7D:72:5C:69:70:56:03:\
        87:9D:C2:79:4C:5E:C1:3F:F3:93:EE:24\n";
    same_octets(&rt, finished.out.target.buffer.as_slice(), line.as_bytes());
    // secrets have no digest
    let finished = show_in_memory(rt.alloc(), options, "f", super::files::PRIVATE_KEY.as_bytes());
    lacks(&rt, &finished.out.target.buffer, "SHA-256");
    has(&rt, &finished.out.target.buffer, "f: PRIVATE KEY at line 1: private-key; ED25519 (1.3.101.112)\n");
}
