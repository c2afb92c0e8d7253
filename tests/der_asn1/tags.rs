//! Context-specific tags in the place of others, and around elements.
use crate::checks::same_at;
use der::{Encode, Error, ErrorKind, Length, Tag, TagNumber};
use der_asn1::{Explicit, Implicit, IntRef, lawful_from_der};
use crate::fixtures::errors::{trailing, unexpected};
use std::alloc::Global;

// The contents of an integer with the implicit tag [1], and whether it is written exactly as it was
// read.
fn implicit<'a>(alloc: Global, octets: &'a [u8]) -> Result<(&'a [u8], bool), Error> {
    let value: Implicit<IntRef<'a>, 1> = lawful_from_der(alloc, octets)?;
    let written = value.to_der(alloc)?;
    Ok((value.0.octets(), written.as_slice() == octets))
}

// The contents of an integer in an element of tag [300].
fn explicit<'a>(alloc: Global, octets: &'a [u8]) -> Result<(&'a [u8], bool), Error> {
    let value: Explicit<IntRef<'a>, 300> = lawful_from_der(alloc, octets)?;
    let written = value.to_der(alloc)?;
    Ok((value.0.octets(), written.as_slice() == octets))
}

// The contents of an integer in two elements, of tags [0] and [1].
fn explicit_twice<'a>(alloc: Global, octets: &'a [u8]) -> Result<(&'a [u8], bool), Error> {
    let value: Implicit<Explicit<IntRef<'a>, 1>, 0> = lawful_from_der(alloc, octets)?;
    let written = value.to_der(alloc)?;
    Ok((value.0.0.octets(), written.as_slice() == octets))
}

#[test]
fn a_tag_is_in_the_place_of_another(rt: HostRuntime) {
    let tag = TagNumber(1).context_specific(false);
    let rows: [(&[u8], Result<(&[u8], bool), Error>); 4] = [
        (&[0x81, 1, 5], Ok((&[5], true))),
        (&[2, 1, 5], Err(unexpected(tag, Tag::Integer))),
        (
            &[0xA1, 1, 5],
            Err(unexpected(tag, TagNumber(1).context_specific(true))),
        ),
        (
            &[0x81, 2, 0, 5],
            Err(ErrorKind::Value { tag: Tag::Integer }.at(Length::new(4))),
        ),
    ];
    for (row, (octets, expected)) in rows.into_iter().enumerate() {
        same_at(&rt, row, implicit(rt.alloc(), octets), expected);
    }
}

#[test]
fn a_tag_is_around_an_element(rt: HostRuntime) {
    let tag = TagNumber(300).context_specific(true);
    let rows: [(&[u8], Result<(&[u8], bool), Error>); 4] = [
        (&[0xBF, 0x82, 0x2C, 3, 2, 1, 5], Ok((&[5], true))),
        (
            &[0xA1, 3, 2, 1, 5],
            Err(unexpected(tag, TagNumber(1).context_specific(true))),
        ),
        (
            &[0xBF, 0x82, 0x2C, 2, 5, 0],
            Err(unexpected(Tag::Integer, Tag::Null)),
        ),
        (&[0xBF, 0x82, 0x2C, 4, 2, 1, 5, 0], Err(trailing(7, 1))),
    ];
    for (row, (octets, expected)) in rows.into_iter().enumerate() {
        same_at(&rt, row, explicit(rt.alloc(), octets), expected);
    }
    same_at(
        &rt,
        4,
        explicit_twice(rt.alloc(), &[0xA0, 3, 2, 1, 5]),
        Ok((&[5], true)),
    );
}
