//! Octets with the tags and sizes of certificates (RFC 5280, 4.1), and random contents.
use crate::common::{Numbers, push_length};
use crate::hand::element_at;

const BOOLEAN: u8 = 0x01;
const INTEGER: u8 = 0x02;
const BIT_STRING: u8 = 0x03;
const OCTET_STRING: u8 = 0x04;
const NULL: u8 = 0x05;
const OBJECT_IDENTIFIER: u8 = 0x06;
const UTF8_STRING: u8 = 0x0C;
const PRINTABLE_STRING: u8 = 0x13;
const UTC_TIME: u8 = 0x17;
const SEQUENCE: u8 = 0x30;
const SET: u8 = 0x31;
const VERSION: u8 = 0xA0;
const EXTENSIONS: u8 = 0xA3;

/// The number of octets of the identifier and of the value of each extension, and whether it is
/// critical.
const KNOWN_EXTENSIONS: [(usize, usize, bool); 9] = [
    (3, 4, true),
    (3, 22, false),
    (3, 2, true),
    (3, 22, false),
    (3, 24, false),
    (8, 73, false),
    (3, 31, false),
    (3, 12, false),
    (10, 246, false),
];

/// Certificates of `wanted` octets or more together.
pub fn certificates(wanted: usize) -> Vec<u8> {
    let mut numbers = Numbers(0x9E37_79B9_7F4A_7C15);
    let mut out = Vec::with_capacity(wanted + (1 << 12));
    while out.len() < wanted {
        out.extend(certificate(&mut numbers));
    }
    out
}

fn certificate(numbers: &mut Numbers) -> Vec<u8> {
    let is_curve = numbers.below(2) == 0;
    let signature_len = if is_curve { 72 } else { 257 };
    let algorithm = algorithm(numbers, is_curve);
    let certified = [
        element(VERSION, &element(INTEGER, &[2])),
        random(INTEGER, numbers, 16),
        algorithm.clone(),
        name(numbers, 3),
        validity(numbers),
        name(numbers, 1),
        key(numbers, is_curve),
        element(EXTENSIONS, &extensions(numbers)),
    ]
    .concat();
    let signature = random(BIT_STRING, numbers, signature_len);
    let contents = [element(SEQUENCE, &certified), algorithm, signature].concat();
    element(SEQUENCE, &contents)
}

fn element(tag: u8, contents: &[u8]) -> Vec<u8> {
    let mut out = vec![tag];
    push_length(&mut out, contents.len());
    out.extend_from_slice(contents);
    out
}

/// An element with `len` random octets of contents.
fn random(tag: u8, numbers: &mut Numbers, len: usize) -> Vec<u8> {
    let contents: Vec<u8> = (0..len).map(|_| numbers.next() as u8).collect();
    element(tag, &contents)
}

fn algorithm(numbers: &mut Numbers, is_curve: bool) -> Vec<u8> {
    if is_curve {
        return element(SEQUENCE, &random(OBJECT_IDENTIFIER, numbers, 8));
    }
    let identifier = random(OBJECT_IDENTIFIER, numbers, 9);
    element(SEQUENCE, &[identifier, element(NULL, &[])].concat())
}

/// A name of `parts` attributes, one of them a country.
fn name(numbers: &mut Numbers, parts: usize) -> Vec<u8> {
    let mut contents = Vec::new();
    for part in 0..parts {
        let len = 8 + numbers.below(24) as usize;
        let (tag, len) = match part {
            1 => (PRINTABLE_STRING, 2),
            _ => (UTF8_STRING, len),
        };
        let identifier = random(OBJECT_IDENTIFIER, numbers, 3);
        let pair = [identifier, random(tag, numbers, len)].concat();
        contents.extend(element(SET, &element(SEQUENCE, &pair)));
    }
    element(SEQUENCE, &contents)
}

fn validity(numbers: &mut Numbers) -> Vec<u8> {
    let times = [random(UTC_TIME, numbers, 13), random(UTC_TIME, numbers, 13)];
    element(SEQUENCE, &times.concat())
}

fn key(numbers: &mut Numbers, is_curve: bool) -> Vec<u8> {
    let identifier = random(OBJECT_IDENTIFIER, numbers, if is_curve { 7 } else { 9 });
    let (parameter, key) = if is_curve {
        let curve = random(OBJECT_IDENTIFIER, numbers, 8);
        (curve, random(BIT_STRING, numbers, 66))
    } else {
        (element(NULL, &[]), random(BIT_STRING, numbers, 271))
    };
    let algorithm = element(SEQUENCE, &[identifier, parameter].concat());
    element(SEQUENCE, &[algorithm, key].concat())
}

fn extensions(numbers: &mut Numbers) -> Vec<u8> {
    let mut contents = Vec::new();
    for (identifier_len, value_len, is_critical) in KNOWN_EXTENSIONS {
        let mut extension = random(OBJECT_IDENTIFIER, numbers, identifier_len);
        if is_critical {
            extension.extend(element(BOOLEAN, &[0xFF]));
        }
        extension.extend(random(OCTET_STRING, numbers, value_len));
        contents.extend(element(SEQUENCE, &extension));
    }
    element(SEQUENCE, &contents)
}

/// The first octet and the number of octets of contents of each element of certificates with
/// `octets` octets, in the order in which they are read.
pub fn headers(octets: usize) -> Vec<(u8, usize)> {
    let mut headers = Vec::new();
    push_headers(&mut headers, &certificates(octets));
    headers
}

fn push_headers(headers: &mut Vec<(u8, usize)>, bytes: &[u8]) {
    let mut at = 0;
    while let Some(element) = element_at(bytes, at, bytes.len()) {
        headers.push((element.first, element.end - element.start));
        if element.is_constructed() {
            push_headers(headers, &bytes[element.start..element.end]);
        }
        at = element.end;
    }
}
