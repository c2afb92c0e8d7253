//! Names, whose levels are SETs of attributes.
use crate::checks::same_at;
use der::{DecodeBytes, Error, ErrorKind, Length};
use crate::fixtures::errors::trailing;
use std::alloc::Global;
use x509::Name;

// The error of a name of these octets, if there is one.
fn refusal(alloc: Global, octets: &[u8]) -> Option<Error> {
    let name: Result<Name<'_>, Error> = Name::from_der(alloc, octets);
    name.err()
}

// One level, with a common name (2.5.4.3) before a country (2.5.4.6).
static IN_ORDER: [u8; 24] = [
    0x30, 0x16, 0x31, 0x14, 0x30, 0x08, 0x06, 0x03, 0x55, 0x04, 0x03, 0x13, 0x01, 0x42, 0x30, 0x08,
    0x06, 0x03, 0x55, 0x04, 0x06, 0x13, 0x01, 0x41,
];

// The encodings of the attributes are in order (X.690 11.6). If they are not, reading fails at the
// second, which begins at octet 14.
#[test]
fn attributes_out_of_order_are_refused_where_the_second_begins(rt: HostRuntime) {
    same_at(&rt, "in order", refusal(rt.alloc(), &IN_ORDER), None);
    let mut octets = IN_ORDER;
    octets[10] = 6;
    octets[20] = 3;
    same_at(
        &rt,
        "out of order",
        refusal(rt.alloc(), &octets),
        Some(ErrorKind::SetOrdering.at(Length::new(14))),
    );
}

#[test]
fn an_octet_after_a_name_is_rejected(rt: HostRuntime) {
    same_at(
        &rt,
        "no levels",
        refusal(rt.alloc(), &[0x30, 0, 0]),
        Some(trailing(2, 1)),
    );
}
