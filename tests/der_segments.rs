//! Tests of `der_segments`, from outside the library like a user's code. The expected results are
//! worked out by hand from X.690 8.7 and the rules for errors.
use der::{DecodeBytes, Error};
use der_segments::Segmented;
use std::alloc::Global;

mod cuts;
mod faults;
mod read;
mod written;

// Three octets, AA BB CC, in the forms that BER allows.
const PRIMITIVE: [u8; 5] = [0x04, 3, 0xAA, 0xBB, 0xCC];
const DEFINITE: [u8; 9] = [0x24, 7, 0x04, 2, 0xAA, 0xBB, 0x04, 1, 0xCC];
const INDEFINITE: [u8; 11] = [0x24, 0x80, 0x04, 2, 0xAA, 0xBB, 0x04, 1, 0xCC, 0, 0];
const NESTED: [u8; 19] = [
    0x24, 0x80, 0x24, 0x80, 0x04, 1, 0xAA, 0, 0, 0x24, 3, 0x04, 1, 0xBB, 0x04, 1, 0xCC, 0, 0,
];

// The value of all of the octets, under the Basic Encoding Rules.
fn of_ber<'a>(alloc: Global, octets: &'a [u8]) -> Result<Segmented<'a>, Error> {
    Segmented::from_ber(alloc, octets)
}

// The value of all of the octets, under the Distinguished Encoding Rules.
fn of_der<'a>(alloc: Global, octets: &'a [u8]) -> Result<Segmented<'a>, Error> {
    Segmented::from_der(alloc, octets)
}
