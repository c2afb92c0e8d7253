//! The attributes of names, and their characters.
use super::extension_octets::CERTIFICATE;
use crate::checks::{holds, holds_at, same_at};
use der::{DecodeBytes, Tag};
use der_asn1::{AnyRef, ObjectIdentifierRef};
use std::alloc::Global;
use x509::{Certificate, DirectoryString, Name, Occurrence, Text, values};

// The characters of the only attribute of this type in the certificate's subject.
fn subject_text(alloc: Global, oid: &ObjectIdentifierRef<'_>) -> Option<Text<'static>> {
    let Ok(certificate) = Certificate::from_der(alloc, &CERTIFICATE) else {
        return None;
    };
    match certificate.tbs_certificate.subject.get(alloc, oid) {
        Occurrence::Once(attribute) => attribute.text(),
        _ => None,
    }
}

// Whether the text prints as expected.
fn is_printed(alloc: Global, text: Option<Text<'_>>, expected: &str) -> bool {
    let Some(text) = text else {
        return false;
    };
    match format!(in alloc; "{text}") {
        Ok(printed) => printed.as_str() == expected,
        Err(_) => false,
    }
}

// openssl wrote the organization as a TeletexString in ISO 8859-1: 42 FC 63 68 65 72.
#[test]
fn attributes_of_a_name_print_as_openssl_prints_them(rt: HostRuntime) {
    let alloc = rt.alloc();
    let cases = [
        (values::id_at_country_name(), "DE"),
        (values::id_at_organization_name(), "Bücher"),
        (values::id_at_organizational_unit_name(), "one"),
        (values::id_at_common_name(), "example.org"),
        (values::id_email_address(), "a@example.org"),
    ];
    for (oid, expected) in cases {
        holds_at(
            &rt,
            expected,
            is_printed(alloc, subject_text(alloc, &oid), expected),
        );
    }
    holds(&rt, subject_text(alloc, &values::id_at_title()).is_none());
}

// Two levels: the domain components "a" and "b" (0.9.2342.19200300.100.1.25), the second with the
// common name "c".
static COMPONENTS: [u8; 58] = [
    0x30, 0x38, //
    0x31, 0x13, 0x30, 0x11, 0x06, 0x0A, 0x09, 0x92, 0x26, 0x89, 0x93, 0xF2, 0x2C, 0x64, 0x01, 0x19, //
    0x16, 0x03, 0x61, 0x61, 0x61, //
    0x31, 0x21, 0x30, 0x0C, 0x06, 0x03, 0x55, 0x04, 0x03, 0x0C, 0x05, 0x63, 0x63, 0x63, 0x63, 0x63, //
    0x30, 0x11, 0x06, 0x0A, 0x09, 0x92, 0x26, 0x89, 0x93, 0xF2, 0x2C, 0x64, 0x01, 0x19, //
    0x16, 0x03, 0x62, 0x62, 0x62,
];

// The number of attributes in all levels of the name.
fn attribute_count(alloc: Global, name: &Name<'_>) -> usize {
    let mut count = 0;
    for level in name.levels.iter(alloc) {
        for _attribute in level.attributes.iter(alloc) {
            count += 1;
        }
    }
    count
}

#[test]
fn attributes_that_occur_twice_are_found_in_their_levels(rt: HostRuntime) {
    let alloc = rt.alloc();
    let Ok(name) = Name::from_der(alloc, &COMPONENTS) else {
        holds(&rt, false);
        return;
    };
    let component = values::id_domain_component();
    holds(
        &rt,
        matches!(name.get(alloc, &component), Occurrence::Several),
    );
    holds(
        &rt,
        matches!(
            name.get(alloc, &values::id_at_common_name()),
            Occurrence::Once(_)
        ),
    );
    holds(
        &rt,
        matches!(name.get(alloc, &values::id_at_title()), Occurrence::Absent),
    );
    let mut at = 0;
    for level in name.levels.iter(alloc) {
        let expected = if at == 0 { "aaa" } else { "bbb" };
        match level.get(alloc, &component) {
            Occurrence::Once(attribute) => {
                holds_at(&rt, at, is_printed(alloc, attribute.text(), expected))
            }
            _ => holds(&rt, false),
        }
        at += 1;
    }
    same_at(&rt, "levels", at, 2);
    same_at(&rt, "attributes", attribute_count(alloc, &name), 3);
}

// The first component, the common name and the second component, in this order.
#[test]
fn attributes_of_a_name_are_walked_in_order(rt: HostRuntime) {
    let alloc = rt.alloc();
    let Ok(name) = Name::from_der(alloc, &COMPONENTS) else {
        holds(&rt, false);
        return;
    };
    let expected = ["aaa", "ccccc", "bbb"];
    let mut at = 0;
    for attribute in name.attributes(alloc) {
        let printed = at < 3 && is_printed(alloc, attribute.text(), expected[at]);
        holds_at(&rt, at, printed);
        at += 1;
    }
    same_at(&rt, "attributes", at, 3);
    let Ok(none) = Name::from_der(alloc, &[0x30, 0x02, 0x31, 0x00]) else {
        holds(&rt, false);
        return;
    };
    holds(&rt, none.attributes(alloc).next().is_none());
}

// U+00FC and U+20AC in each string type that has them; surrogates, an odd number of octets, octets
// that are not UTF-8, and characters outside of an alphabet.
#[test]
fn strings_of_each_type_have_their_characters(rt: HostRuntime) {
    let alloc = rt.alloc();
    let cases: [(Tag, &'static [u8], Option<&'static str>); 15] = [
        (Tag::Utf8String, &[0xC3, 0xBC, 0xE2, 0x82, 0xAC], Some("ü€")),
        (Tag::Utf8String, &[0xFC], None),
        (Tag::BmpString, &[0x00, 0xFC, 0x20, 0xAC], Some("ü€")),
        (Tag::BmpString, &[], Some("")),
        (Tag::BmpString, &[0x00], None),
        (Tag::BmpString, &[0xD8, 0x00, 0xDC, 0x00], None),
        (Tag::TeletexString, &[0x42, 0xFC, 0x80], Some("Bü\u{80}")),
        (Tag::PrintableString, b"a (1)", Some("a (1)")),
        (Tag::PrintableString, b"a@b", None),
        (Tag::Ia5String, b"a@b", Some("a@b")),
        (Tag::Ia5String, &[0x80], None),
        (Tag::NumericString, b"1 2", Some("1 2")),
        (Tag::VisibleString, b"~", Some("~")),
        (Tag::VisibleString, &[0x0A], None),
        (Tag::OctetString, b"a", None),
    ];
    let mut at = 0;
    for (tag, contents, expected) in cases {
        let text = Text::of(&AnyRef { tag, contents });
        match expected {
            Some(expected) => holds_at(&rt, at, is_printed(alloc, text, expected)),
            None => holds_at(&rt, at, text.is_none()),
        }
        at += 1;
    }
}

// A text is a `str` if its octets are UTF-8: those of ASCII are, and those of U+00FC in ISO 8859-1 are
// not.
#[test]
fn texts_of_ascii_are_strings(rt: HostRuntime) {
    let cases: [(Tag, &'static [u8], Option<&'static str>); 4] = [
        (Tag::Utf8String, &[0xC3, 0xBC], Some("ü")),
        (Tag::Ia5String, b"a@b", Some("a@b")),
        (Tag::TeletexString, &[0xFC], None),
        (Tag::BmpString, &[0x00, 0x42], None),
    ];
    for (tag, contents, expected) in cases {
        let text = Text::of(&AnyRef { tag, contents });
        let found = match text {
            Some(text) => text.as_str(),
            None => Some(""),
        };
        holds_at(&rt, tag, found == expected);
    }
}

#[test]
fn a_directory_string_prints_its_characters(rt: HostRuntime) {
    let alloc = rt.alloc();
    let cases: [(&'static [u8], &'static str); 4] = [
        (&[0x14, 0x02, 0x42, 0xFC], "Bü"),
        (&[0x13, 0x01, 0x42], "B"),
        (&[0x0C, 0x02, 0xC3, 0xBC], "ü"),
        (&[0x1E, 0x02, 0x20, 0xAC], "€"),
    ];
    for (octets, expected) in cases {
        let Ok(string) = DirectoryString::from_der(alloc, octets) else {
            holds_at(&rt, expected, false);
            return;
        };
        match format!(in alloc; "{string}") {
            Ok(printed) => holds_at(&rt, expected, printed.as_str() == expected),
            Err(_) => holds(&rt, false),
        }
    }
}
