//! What the worked cases of all tests decode, as data; tags and lengths alone are in
//! `test_fixtures`.
use der::EncodingRules::{self, Ber, Der};
use crate::fixtures::bodies::{ENCRYPTED_CONTENT_INFO, SEGMENT_OF_ZEROS};

/// The types that octets are decoded as.
#[derive(Clone, Copy)]
pub enum Kind {
    Tag,
    Length,
    Header,
    Month,
    Borrowed,
    Text,
    Joined,
    Nest,
    /// A whole element, which is borrowed.
    Element,
}

/// The type to decode, the rules, the octets, and how many of them are consumed.
pub const ROWS: [(Kind, EncodingRules, &[u8], u32); 32] = [
    (Kind::Length, Ber, &[0x80, 0x05, 0x00, 0x00, 0x00], 1),
    (Kind::Tag, Der, &[0xA0, 0x00], 1),
    (Kind::Header, Der, &[0x02, 0x01, 0x2A, 0x00], 2),
    (Kind::Header, Der, &[0x04, 0x02, 0x31, 0x32], 2),
    (Kind::Header, Der, &[0x30, 0x00], 2),
    (Kind::Header, Der, &[0x30, 0x82, 0x01, 0x00], 4),
    (Kind::Header, Der, &[0x30, 0x84, 0xFF, 0xFF, 0xFF, 0xFF], 6),
    (
        Kind::Header,
        Der,
        &[
            0xBF, 0x8F, 0xFF, 0xFF, 0xFF, 0x7F, 0x84, 0xFF, 0xFF, 0xFF, 0xFF,
        ],
        11,
    ),
    (Kind::Header, Ber, &[0x24, 0x01, 0x09], 2),
    (Kind::Header, Ber, &SEGMENT_OF_ZEROS, 2),
    (Kind::Header, Ber, &ENCRYPTED_CONTENT_INFO, 2),
    (Kind::Month, Der, &[0x04, 0x01, 0x09], 3),
    (Kind::Month, Der, &[0x04, 0x01, 0x09, 0x05, 0x00], 3),
    (Kind::Month, Ber, &[0x24, 0x01, 0x09], 3),
    (Kind::Borrowed, Der, &[0x04, 0x01, 0xFF], 3),
    (Kind::Borrowed, Der, &[0x04, 0x02, 0x00, 0x00], 4),
    (Kind::Text, Der, &[0x0C, 0x02, 0x68, 0x69], 4),
    (Kind::Joined, Der, &[0x04, 0x02, 0xAA, 0xBB], 4),
    (Kind::Joined, Ber, &[0x24, 0x80, 0x00, 0x00], 4),
    (
        Kind::Joined,
        Ber,
        &[
            0x24, 0x80, 0x04, 0x02, 0xAA, 0xBB, 0x04, 0x01, 0xCC, 0x00, 0x00,
        ],
        11,
    ),
    (Kind::Nest, Der, &[0x04, 0x00], 2),
    (Kind::Element, Der, &[0x30, 0x02, 0x05, 0x00, 0xFF], 4),
    (Kind::Element, Der, &[0x02, 0x01, 0x2A, 0x00], 3),
    (Kind::Element, Der, &[0x16, 0x00], 2),
    (Kind::Element, Der, &[0x04, 0x00], 2),
    (Kind::Element, Der, &[0x9F, 0xFF, 0x7F, 0x00], 4),
    (Kind::Element, Der, &[0x9F, 0x81, 0x80, 0x00, 0x00], 5),
    (Kind::Element, Ber, &[0x24, 0x01, 0x09], 3),
    (Kind::Element, Ber, &SEGMENT_OF_ZEROS, 12),
    (Kind::Element, Ber, &ENCRYPTED_CONTENT_INFO, 68),
    (
        Kind::Element,
        Ber,
        &[0x30, 0x80, 0x05, 0x00, 0x00, 0x00, 0xFF],
        6,
    ),
    (
        Kind::Element,
        Ber,
        &[0x30, 0x80, 0x05, 0x00, 0x05, 0x00, 0x05, 0x00, 0x00, 0x00],
        10,
    ),
];
