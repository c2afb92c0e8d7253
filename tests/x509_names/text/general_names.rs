//! Names of a subjectAltName and serial numbers as text. The expected texts are those of `openssl x509
//! -noout -ext subjectAltName` and `-serial`.
use crate::checks::{holds, same, same_octets};
use der::DecodeBytes;
use der_asn1::IntRef;
use x509::GeneralNames;
use x509_names::{GeneralNameText, SerialNumberText};

// By `openssl req -x509 -addext
// subjectAltName=DNS:example.org,email:a@example.org,URI:https://example.org/a,IP:192.0.2.1,IP:2001:db8::1,RID:1.2.3.4`.
static NAMES: [u8; 82] = [
    0x30, 0x50, 0x82, 0x0B, 0x65, 0x78, 0x61, 0x6D, 0x70, 0x6C, 0x65, 0x2E, 0x6F, 0x72,
    0x67, 0x81, 0x0D, 0x61, 0x40, 0x65, 0x78, 0x61, 0x6D, 0x70, 0x6C, 0x65, 0x2E, 0x6F,
    0x72, 0x67, 0x86, 0x15, 0x68, 0x74, 0x74, 0x70, 0x73, 0x3A, 0x2F, 0x2F, 0x65, 0x78,
    0x61, 0x6D, 0x70, 0x6C, 0x65, 0x2E, 0x6F, 0x72, 0x67, 0x2F, 0x61, 0x87, 0x04, 0xC0,
    0x00, 0x02, 0x01, 0x87, 0x10, 0x20, 0x01, 0x0D, 0xB8, 0x00, 0x00, 0x00, 0x00, 0x00,
    0x00, 0x00, 0x00, 0x00, 0x00, 0x00, 0x01, 0x88, 0x03, 0x2A, 0x03, 0x04,
];

static TEXTS: [&str; 6] = [
    "DNS:example.org",
    "email:a@example.org",
    "URI:https://example.org/a",
    "IP Address:192.0.2.1",
    "IP Address:2001:DB8:0:0:0:0:0:1",
    "Registered ID:1.2.3.4",
];

#[test]
fn general_names_have_the_texts_of_openssl(rt: HostRuntime) {
    let alloc = rt.alloc();
    let Ok(names) = GeneralNames::from_der(alloc, &NAMES) else {
        holds(&rt, false);
        return;
    };
    let mut count = 0;
    for (name, expected) in names.iter(alloc).zip(&TEXTS) {
        match format!(in alloc; "{}", GeneralNameText::new(alloc, &name)) {
            Ok(text) => same_octets(&rt, text.as_bytes(), expected.as_bytes()),
            Err(_) => holds(&rt, false),
        }
        count += 1;
    }
    same(&rt, count, TEXTS.len());
}

// `openssl x509 -serial` prints `serial=8D0042`.
#[test]
fn a_serial_number_is_printed_in_hexadecimal(rt: HostRuntime) {
    let alloc = rt.alloc();
    let Ok(number) = IntRef::from_der(alloc, &[0x02, 0x04, 0x00, 0x8D, 0x00, 0x42]) else {
        holds(&rt, false);
        return;
    };
    let text = format!(in alloc; "{}", SerialNumberText(number));
    holds(&rt, text.is_ok_and(|it| it.as_str() == "8D:00:42"));
}
