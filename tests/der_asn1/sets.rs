//! SET OF INTEGER: the encodings are in order (X.690 11.6).
use crate::checks::same_at;
use crate::der_asn1::walks::{FirstTwo, first_two};
use der::{DecodeBytes, Encode, Error, ErrorKind, Length, Tag};
use der_asn1::{IntRef, SetOf, lawful_from_der};
use crate::fixtures::errors::{incomplete, unexpected};
use std::alloc::Global;

// The first two members of a set, and whether the set is written exactly as it was read.
fn walked<'a>(alloc: Global, octets: &'a [u8]) -> Result<(FirstTwo<'a>, bool), Error> {
    let set: SetOf<'a, IntRef<'a>> = lawful_from_der(alloc, octets)?;
    let written = set.to_der(alloc)?;
    Ok((first_two(alloc, set.items()), written.as_slice() == octets))
}

// The shorter element comes first, so -128 comes before 255. Equal ones may follow each other.
#[test]
fn integers_of_a_set_are_walked(rt: HostRuntime) {
    let rows: [(&[u8], FirstTwo); 5] = [
        (&[0x31, 0], (None, None, true)),
        (&[0x31, 3, 2, 1, 5], (Some(&[5]), None, true)),
        (&[0x31, 6, 2, 1, 5, 2, 1, 6], (Some(&[5]), Some(&[6]), true)),
        (&[0x31, 6, 2, 1, 5, 2, 1, 5], (Some(&[5]), Some(&[5]), true)),
        (
            &[0x31, 11, 2, 1, 0x80, 2, 2, 0, 0xFF, 2, 2, 1, 0],
            (Some(&[0x80]), Some(&[0, 0xFF]), false),
        ),
    ];
    for (row, (octets, reported)) in rows.into_iter().enumerate() {
        same_at(&rt, row, walked(rt.alloc(), octets), Ok((reported, true)));
    }
}

// The error of a set with these contents, if there is one.
fn refusal(alloc: Global, contents: &[u8]) -> Option<Error> {
    let set: Result<SetOf<'_, IntRef<'_>>, Error> = SetOf::new(alloc, contents);
    set.err()
}

#[test]
fn elements_of_a_set_are_checked(rt: HostRuntime) {
    let spare = ErrorKind::Value { tag: Tag::Integer };
    let order = ErrorKind::SetOrdering;
    let rows: [(&[u8], Option<Error>); 8] = [
        (&[], None),
        (&[2, 1, 0x7F, 2, 2, 0, 0x80], None),
        (&[2, 1, 6, 2, 1, 5], Some(order.at(Length::new(3)))),
        (&[2, 2, 0, 0x80, 2, 1, 0x7F], Some(order.at(Length::new(4)))),
        (&[2, 1, 5, 2, 1, 5, 2, 1, 4], Some(order.at(Length::new(6)))),
        (&[2, 1, 5, 5, 0], Some(unexpected(Tag::Integer, Tag::Null))),
        (&[2, 1, 5, 2, 1], Some(incomplete(6, 5, 5))),
        (&[2, 1, 5, 2, 2, 0, 5], Some(spare.at(Length::new(7)))),
    ];
    for (row, (contents, expected)) in rows.into_iter().enumerate() {
        same_at(&rt, row, refusal(rt.alloc(), contents), expected);
    }
}

// Whether a set is read under BER, in order and out of order.
#[test]
fn the_order_is_wanted_under_ber_too(rt: HostRuntime) {
    let rows: [(&[u8], bool); 2] = [
        (&[0x31, 6, 2, 1, 5, 2, 1, 6], true),
        (&[0x31, 6, 2, 1, 6, 2, 1, 5], false),
    ];
    for (row, (octets, is_read)) in rows.into_iter().enumerate() {
        let set: Result<SetOf<'_, IntRef<'_>>, Error> = SetOf::from_ber(rt.alloc(), octets);
        same_at(&rt, row, set.is_ok(), is_read);
    }
}
