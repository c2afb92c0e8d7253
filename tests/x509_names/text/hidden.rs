//! Characters that a reader would not see as they are. The expected texts are those of `openssl
//! x509 -noout -subject -nameopt RFC2253` for subjects that `openssl req -subj /CN=a..b -utf8` made.
use crate::checks::{holds_at, same_octets};
use der::DecodeBytes;
use std::alloc::Global;
use std::process::Abort;
use std::vec::Vec;
use x509::Name;
use x509_names::NameText;

// Each character between `a` and `b` in a UTF8String, and the text of the name.
static HIDDEN: [(&str, &str); 31] = [
    // Cc
    ("\u{1}", "CN=a\\01b"),
    ("\u{1F}", "CN=a\\1Fb"),
    ("\u{7F}", "CN=a\\7Fb"),
    ("\u{80}", "CN=a\\C2\\80b"),
    ("\u{85}", "CN=a\\C2\\85b"),
    ("\u{9F}", "CN=a\\C2\\9Fb"),
    // Cf
    ("\u{AD}", "CN=a\\C2\\ADb"),
    ("\u{600}", "CN=a\\D8\\80b"),
    ("\u{61C}", "CN=a\\D8\\9Cb"),
    ("\u{180E}", "CN=a\\E1\\A0\\8Eb"),
    ("\u{200B}", "CN=a\\E2\\80\\8Bb"),
    ("\u{200F}", "CN=a\\E2\\80\\8Fb"),
    ("\u{202A}", "CN=a\\E2\\80\\AAb"),
    ("\u{202E}", "CN=a\\E2\\80\\AEb"),
    ("\u{2060}", "CN=a\\E2\\81\\A0b"),
    ("\u{2066}", "CN=a\\E2\\81\\A6b"),
    ("\u{2069}", "CN=a\\E2\\81\\A9b"),
    ("\u{FEFF}", "CN=a\\EF\\BB\\BFb"),
    ("\u{FFF9}", "CN=a\\EF\\BF\\B9b"),
    ("\u{110BD}", "CN=a\\F0\\91\\82\\BDb"),
    ("\u{1D173}", "CN=a\\F0\\9D\\85\\B3b"),
    ("\u{E0041}", "CN=a\\F3\\A0\\81\\81b"),
    // Zl and Zp
    ("\u{2028}", "CN=a\\E2\\80\\A8b"),
    ("\u{2029}", "CN=a\\E2\\80\\A9b"),
    // Default_Ignorable_Code_Point, of the categories Mn and Lo
    ("\u{34F}", "CN=a\\CD\\8Fb"),
    ("\u{115F}", "CN=a\\E1\\85\\9Fb"),
    ("\u{3164}", "CN=a\\E3\\85\\A4b"),
    ("\u{FE0F}", "CN=a\\EF\\B8\\8Fb"),
    ("\u{FFA0}", "CN=a\\EF\\BE\\A0b"),
    ("\u{E01EF}", "CN=a\\F3\\A0\\87\\AFb"),
    // the Braille pattern without dots
    ("\u{2800}", "CN=a\\E2\\A0\\80b"),
];

// The same with the option `-esc_msb`, for characters that are seen as they are.
static SEEN: [(&str, &str); 6] = [
    ("~", "CN=a~b"),
    ("\u{E9}", "CN=a\u{E9}b"),
    ("e\u{301}", "CN=ae\u{301}b"),
    ("\u{4E2D}", "CN=a\u{4E2D}b"),
    ("\u{2801}", "CN=a\u{2801}b"),
    ("\u{1F600}", "CN=a\u{1F600}b"),
];

// Names with strings in ISO 8859-1 and in two octets for each character, from `string_mask=default`.
static OTHER_TYPES: [(&[u8], &str); 4] = [
    (
        &[
            0x30, 0x0E, 0x31, 0x0C, 0x30, 0x0A, 0x06, 0x03, 0x55, 0x04, 0x03, 0x14, 0x03, 0x61,
            0x85, 0x62,
        ],
        "CN=a\\C2\\85b",
    ),
    (
        &[
            0x30, 0x0E, 0x31, 0x0C, 0x30, 0x0A, 0x06, 0x03, 0x55, 0x04, 0x03, 0x14, 0x03, 0x61,
            0xAD, 0x62,
        ],
        "CN=a\\C2\\ADb",
    ),
    (
        &[
            0x30, 0x11, 0x31, 0x0F, 0x30, 0x0D, 0x06, 0x03, 0x55, 0x04, 0x03, 0x1E, 0x06, 0x00,
            0x61, 0x20, 0x2E, 0x00, 0x62,
        ],
        "CN=a\\E2\\80\\AEb",
    ),
    (
        &[
            0x30, 0x11, 0x31, 0x0F, 0x30, 0x0D, 0x06, 0x03, 0x55, 0x04, 0x03, 0x1E, 0x06, 0x00,
            0x61, 0x20, 0x28, 0x00, 0x62,
        ],
        "CN=a\\E2\\80\\A8b",
    ),
];

#[test]
fn hidden_characters_are_escaped_as_openssl_does(rt: HostRuntime) {
    see_characters(&rt, rt.alloc(), &HIDDEN);
}

#[test]
fn other_characters_are_not_escaped(rt: HostRuntime) {
    see_characters(&rt, rt.alloc(), &SEEN);
}

#[test]
fn hidden_characters_of_other_types_are_escaped(rt: HostRuntime) {
    for (octets, expected) in &OTHER_TYPES {
        see_name(&rt, rt.alloc(), octets, expected);
    }
}

fn see_characters(rt: &impl Abort, alloc: Global, rows: &[(&str, &str)]) {
    for (character, expected) in rows {
        match name_of(alloc, character.as_bytes()) {
            Some(octets) => see_name(rt, alloc, &octets, expected),
            None => holds_at(rt, *expected, false),
        }
    }
}

// The name with one attribute, a commonName with these octets between `a` and `b`.
fn name_of(alloc: Global, octets: &[u8]) -> Option<Vec<u8>> {
    let count = octets.len() as u8;
    let front = [
        0x30,
        count + 13,
        0x31,
        count + 11,
        0x30,
        count + 9,
        0x06,
        0x03,
        0x55,
        0x04,
        0x03,
        0x0C,
        count + 2,
        b'a',
    ];
    let mut name = Vec::new(alloc);
    name.extend_from_slice(&front).ok()?;
    name.extend_from_slice(octets).ok()?;
    name.push(b'b').ok()?;
    Some(name)
}

fn see_name(rt: &impl Abort, alloc: Global, octets: &[u8], expected: &str) {
    let Ok(name) = Name::from_der(alloc, octets) else {
        holds_at(rt, expected, false);
        return;
    };
    match format!(in alloc; "{}", NameText::new(alloc, &name)) {
        Ok(text) => same_octets(rt, text.as_bytes(), expected.as_bytes()),
        Err(_) => holds_at(rt, expected, false),
    }
}
