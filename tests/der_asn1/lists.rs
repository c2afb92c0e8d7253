//! SEQUENCE OF INTEGER.
use crate::checks::{holds, same_at};
use crate::der_asn1::walks::{FirstTwo, first_two};
use der::{Encode, Error, ErrorKind, Length, Tag};
use der_asn1::{Explicit, IntRef, SequenceOf, lawful_from_der};
use crate::fixtures::errors::{incomplete, unexpected};
use std::alloc::Global;

// The first two items of a list, and whether the list is written exactly as it was read.
fn walked<'a>(alloc: Global, octets: &'a [u8]) -> Result<(FirstTwo<'a>, bool), Error> {
    let list: SequenceOf<'a, IntRef<'a>> = lawful_from_der(alloc, octets)?;
    let written = list.to_der(alloc)?;
    Ok((first_two(alloc, list.items()), written.as_slice() == octets))
}

#[test]
fn integers_of_a_list_are_walked(rt: HostRuntime) {
    let rows: [(&[u8], FirstTwo); 4] = [
        (&[0x30, 0], (None, None, true)),
        (&[0x30, 3, 2, 1, 5], (Some(&[5]), None, true)),
        (
            &[0x30, 7, 2, 1, 5, 2, 2, 1, 0],
            (Some(&[5]), Some(&[1, 0]), true),
        ),
        (
            &[0x30, 9, 2, 1, 5, 2, 1, 6, 2, 1, 7],
            (Some(&[5]), Some(&[6]), false),
        ),
    ];
    for (row, (octets, reported)) in rows.into_iter().enumerate() {
        same_at(&rt, row, walked(rt.alloc(), octets), Ok((reported, true)));
    }
}

// The error of a list with these contents, if there is one.
fn refusal(alloc: Global, contents: &[u8]) -> Option<Error> {
    let list: Result<SequenceOf<'_, IntRef<'_>>, Error> = SequenceOf::new(alloc, contents);
    list.err()
}

#[test]
fn elements_of_a_list_are_checked(rt: HostRuntime) {
    let spare = ErrorKind::Value { tag: Tag::Integer };
    let rows: [(&[u8], Option<Error>); 5] = [
        (&[], None),
        (&[2, 1, 5, 2, 1, 5], None),
        (&[2, 1, 5, 5, 0], Some(unexpected(Tag::Integer, Tag::Null))),
        (&[2, 1, 5, 2, 1], Some(incomplete(6, 5, 5))),
        (&[2, 1, 5, 2, 2, 0, 5], Some(spare.at(Length::new(7)))),
    ];
    for (row, (contents, expected)) in rows.into_iter().enumerate() {
        same_at(&rt, row, refusal(rt.alloc(), contents), expected);
    }
}

// The contents of a list in an element of tag [3].
fn tagged<'a>(alloc: Global, octets: &'a [u8]) -> Result<&'a [u8], Error> {
    let list: Explicit<SequenceOf<'a, IntRef<'a>>, 3> = lawful_from_der(alloc, octets)?;
    Ok(list.0.octets())
}

#[test]
fn a_list_is_in_an_element(rt: HostRuntime) {
    same_at(
        &rt,
        0,
        tagged(rt.alloc(), &[0xA3, 5, 0x30, 3, 2, 1, 5]),
        Ok(&[2, 1, 5]),
    );
    holds(
        &rt,
        tagged(rt.alloc(), &[0xA3, 5, 0x30, 3, 2, 2, 0]).is_err(),
    );
}
