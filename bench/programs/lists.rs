//! Revocation lists (RFC 5280, 5.1) with random serial numbers and dates. Each third entry has a
//! reason.
use crate::common::{Numbers, push_length};

const INTEGER: u8 = 0x02;
const BIT_STRING: u8 = 0x03;
const OCTET_STRING: u8 = 0x04;
const OBJECT_IDENTIFIER: u8 = 0x06;
const ENUMERATED: u8 = 0x0A;
const UTF8_STRING: u8 = 0x0C;
const UTC_TIME: u8 = 0x17;
const SEQUENCE: u8 = 0x30;
const SET: u8 = 0x31;
const LIST_EXTENSIONS: u8 = 0xA0;

/// ecdsa-with-SHA256.
const ALGORITHM: [u8; 8] = [0x2A, 0x86, 0x48, 0xCE, 0x3D, 0x04, 0x03, 0x02];
const COMMON_NAME: [u8; 3] = [0x55, 0x04, 0x03];
const CRL_NUMBER: [u8; 3] = [0x55, 0x1D, 0x14];
const CRL_REASONS: [u8; 3] = [0x55, 0x1D, 0x15];

/// A list with so many entries, with octets at random in place of its signature.
pub fn revocation_list(entries: usize) -> Vec<u8> {
    let mut numbers = Numbers(0x9E37_79B9_7F4A_7C15);
    let revoked: Vec<u8> = (0..entries)
        .flat_map(|at| entry(&mut numbers, at))
        .collect();
    let algorithm = element(SEQUENCE, &element(OBJECT_IDENTIFIER, &ALGORITHM));
    let name = [
        element(OBJECT_IDENTIFIER, &COMMON_NAME),
        element(UTF8_STRING, b"Example"),
    ];
    let name = element(SEQUENCE, &element(SET, &element(SEQUENCE, &name.concat())));
    let number = extension(&CRL_NUMBER, &element(INTEGER, &[1]));
    let signed = [
        element(INTEGER, &[1]),
        algorithm.clone(),
        name,
        element(UTC_TIME, b"261126120000Z"),
        element(UTC_TIME, b"261226120000Z"),
        element(SEQUENCE, &revoked),
        element(LIST_EXTENSIONS, &element(SEQUENCE, &number)),
    ]
    .concat();
    let signature = [vec![0], octets(&mut numbers, 70)].concat();
    let contents = [
        element(SEQUENCE, &signed),
        algorithm,
        element(BIT_STRING, &signature),
    ];
    element(SEQUENCE, &contents.concat())
}

fn entry(numbers: &mut Numbers, at: usize) -> Vec<u8> {
    let mut serial_number = octets(numbers, 16);
    // an INTEGER of 16 octets whose first nine bits are not alike
    serial_number[0] = 0x40 | serial_number[0] & 0x3F;
    let day = 1 + numbers.below(28);
    let date = format!("26{:02}{day:02}120000Z", 1 + numbers.below(12));
    let mut contents = element(INTEGER, &serial_number);
    contents.extend(element(UTC_TIME, date.as_bytes()));
    if at % 3 == 0 {
        let reason = element(ENUMERATED, &[1 + numbers.below(5) as u8]);
        contents.extend(element(SEQUENCE, &extension(&CRL_REASONS, &reason)));
    }
    element(SEQUENCE, &contents)
}

fn extension(identifier: &[u8], value: &[u8]) -> Vec<u8> {
    let contents = [
        element(OBJECT_IDENTIFIER, identifier),
        element(OCTET_STRING, value),
    ];
    element(SEQUENCE, &contents.concat())
}

fn octets(numbers: &mut Numbers, len: usize) -> Vec<u8> {
    (0..len).map(|_| numbers.next() as u8).collect()
}

fn element(tag: u8, contents: &[u8]) -> Vec<u8> {
    let mut out = vec![tag];
    push_length(&mut out, contents.len());
    out.extend_from_slice(contents);
    out
}
