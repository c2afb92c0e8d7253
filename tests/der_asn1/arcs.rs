//! Arcs of OBJECT IDENTIFIERs. The example of X.690 8.19.5 is a row here.
use crate::checks::same_at;
use der_asn1::ObjectIdentifierRef;
use std::alloc::{AllocError, Global};
use std::fmt::Write;

// The first five arcs of these contents, and whether there are more.
fn reported(contents: &[u8]) -> Option<([Option<Option<u128>>; 5], bool)> {
    let identifier = ObjectIdentifierRef::new(contents)?;
    let mut arcs = identifier.arcs();
    let first = [
        arcs.next(),
        arcs.next(),
        arcs.next(),
        arcs.next(),
        arcs.next(),
    ];
    Some((first, arcs.next().is_some()))
}

// The arcs of these numbers, of 128 bits each.
fn arcs(numbers: &[u128]) -> Option<([Option<Option<u128>>; 5], bool)> {
    let mut all = [None; 5];
    let mut place = 0;
    for number in numbers {
        if place < 5 {
            all[place] = Some(Some(*number));
            place += 1;
        }
    }
    Some((all, false))
}

#[test]
fn arcs_are_reported(rt: HostRuntime) {
    let rows: [(&[u8], &[u128]); 12] = [
        (&[0x81, 0x34, 0x03], &[2, 100, 3]),
        (&[0x2A, 0x86, 0x48], &[1, 2, 840]),
        (&[0x2B, 0x65, 0x70], &[1, 3, 101, 112]),
        (&[0x55, 0x04, 0x03], &[2, 5, 4, 3]),
        (&[0x88, 0x37], &[2, 999]),
        (&[0x00], &[0, 0]),
        (&[0x27], &[0, 39]),
        (&[0x28], &[1, 0]),
        (&[0x4F], &[1, 39]),
        (&[0x50], &[2, 0]),
        (&[0x90, 0x80, 0x80, 0x80, 0x4F], &[2, 4294967295]),
        (&[0x2A, 0x8F, 0xFF, 0xFF, 0xFF, 0x7F], &[1, 2, 4294967295]),
    ];
    for (row, (contents, expected)) in rows.into_iter().enumerate() {
        same_at(&rt, row, reported(contents), arcs(expected));
    }
}

// 2.25 with the UUID f81d4fae-7dec-11d0-a765-00a0c91e6bf6, the example of X.667, 6.3.
const UUID: [u8; 20] = [
    0x69, 0x83, 0xF0, 0x9D, 0xA7, 0xEB, 0xCF, 0xDE, 0xE0, 0xC7, 0xA1, 0xA7, 0xB2, 0xC0, 0x94, 0x8C,
    0xC8, 0xF9, 0xD7, 0x76,
];

// 2.25.(2^128 - 1) and 2.25.2^128
const MOST: [u8; 20] = [
    0x69, 0x83, 0xFF, 0xFF, 0xFF, 0xFF, 0xFF, 0xFF, 0xFF, 0xFF, 0xFF, 0xFF, 0xFF, 0xFF, 0xFF, 0xFF,
    0xFF, 0xFF, 0xFF, 0x7F,
];
const MORE: [u8; 20] = [
    0x69, 0x84, 0x80, 0x80, 0x80, 0x80, 0x80, 0x80, 0x80, 0x80, 0x80, 0x80, 0x80, 0x80, 0x80, 0x80,
    0x80, 0x80, 0x80, 0x00,
];

#[test]
fn arcs_of_128_bits_are_reported(rt: HostRuntime) {
    let rows: [(&[u8], &[u128]); 5] = [
        (
            &[0x2A, 0x90, 0x80, 0x80, 0x80, 0x00, 0x05],
            &[1, 2, 4294967296, 5],
        ),
        (&[0x90, 0x80, 0x80, 0x80, 0x50], &[2, 4294967296]),
        (
            &[
                0x69, 0x81, 0x80, 0x80, 0x80, 0x80, 0x80, 0x80, 0x80, 0x80, 0x80, 0x00, 0x01,
            ],
            &[2, 25, 1180591620717411303424, 1],
        ),
        (&UUID, &[2, 25, 329800735698586629295641978511506172918]),
        (&MOST, &[2, 25, 340282366920938463463374607431768211455]),
    ];
    for (row, (contents, expected)) in rows.into_iter().enumerate() {
        same_at(&rt, row, reported(contents), arcs(expected));
    }
}

#[test]
fn an_arc_of_more_than_128_bits_has_no_number(rt: HostRuntime) {
    let expected = [Some(Some(2)), Some(Some(25)), Some(None), None, None];
    same_at(&rt, 0, reported(&MORE), Some((expected, false)));
}

// The OBJECT IDENTIFIER of these contents in dotted notation.
fn dotted(alloc: Global, contents: &[u8]) -> Result<String, AllocError> {
    let mut text = String::new(alloc);
    if let Some(identifier) = ObjectIdentifierRef::new(contents) {
        write!(text, "{identifier}")?;
    }
    Ok(text)
}

#[test]
fn identifiers_are_printed_in_dotted_notation(rt: HostRuntime) {
    let rows: [(&[u8], &str); 5] = [
        (&[0x2A, 0x86, 0x48, 0x86, 0xF7, 0x0D], "1.2.840.113549"),
        (&[0x55, 0x04, 0x03], "2.5.4.3"),
        (&[0x00], "0.0"),
        (&UUID, "2.25.329800735698586629295641978511506172918"),
        (&MORE, "2.25.?"),
    ];
    for (row, (contents, expected)) in rows.into_iter().enumerate() {
        match dotted(rt.alloc(), contents) {
            Ok(text) => same_at(&rt, row, text.as_str(), expected),
            Err(_) => same_at(&rt, row, "out of memory", expected),
        }
    }
}

// 1.2.840.113549.1.1.1 has six arcs, of which the first five are compared.
#[test]
fn further_arcs(rt: HostRuntime) {
    let contents = [0x2A, 0x86, 0x48, 0x86, 0xF7, 0x0D, 0x01, 0x01, 0x01];
    let first = [
        Some(Some(1)),
        Some(Some(2)),
        Some(Some(840)),
        Some(Some(113549)),
        Some(Some(1)),
    ];
    same_at(&rt, 0, reported(&contents), Some((first, true)));
}
