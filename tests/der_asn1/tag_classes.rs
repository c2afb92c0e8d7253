//! Tags of the classes application and private. The octets are those of X.690 8.14 and table 1.
use crate::checks::{holds, same_at};
use crate::fixtures::constants::tags_agree;
use crate::fixtures::errors::unexpected;
use der::{Encode, Error, Tag, TagNumber};
use der_asn1::{
    Application, Enumerated, Explicit, Implicit, InClass, IntRef, IntegerIn, IntegerOf,
    NamedBitsRef, Private, lawful_from_der,
};
use std::alloc::Global;
use x509::CrlReason;

// [APPLICATION 5] IMPLICIT INTEGER
type ImplicitNumber<'a> = Application<Implicit<IntRef<'a>, 5>>;

// [APPLICATION 5] EXPLICIT INTEGER
type ExplicitNumber<'a> = Application<Explicit<IntRef<'a>, 5>>;

// [PRIVATE 300] EXPLICIT INTEGER
type PrivateNumber<'a> = Private<Explicit<IntRef<'a>, 300>>;

// The contents of the integer, and whether it is written exactly as it was read.
fn implicit<'a>(alloc: Global, octets: &'a [u8]) -> Result<(&'a [u8], bool), Error> {
    let value: ImplicitNumber<'a> = lawful_from_der(alloc, octets)?;
    let written = value.to_der(alloc)?;
    Ok((value.0.0.octets(), written.as_slice() == octets))
}

fn explicit<'a>(alloc: Global, octets: &'a [u8]) -> Result<(&'a [u8], bool), Error> {
    let value: ExplicitNumber<'a> = lawful_from_der(alloc, octets)?;
    let written = value.to_der(alloc)?;
    Ok((value.0.0.octets(), written.as_slice() == octets))
}

fn private<'a>(alloc: Global, octets: &'a [u8]) -> Result<(&'a [u8], bool), Error> {
    let value: PrivateNumber<'a> = lawful_from_der(alloc, octets)?;
    let written = value.to_der(alloc)?;
    Ok((value.0.0.octets(), written.as_slice() == octets))
}

#[test]
fn a_tag_of_class_application_is_in_the_place_of_another(rt: HostRuntime) {
    let tag = TagNumber(5).application(false);
    let rows: [(&[u8], Result<(&[u8], bool), Error>); 4] = [
        (&[0x45, 1, 7], Ok((&[7], true))),
        (
            &[0x85, 1, 7],
            Err(unexpected(tag, TagNumber(5).context_specific(false))),
        ),
        (
            &[0xC5, 1, 7],
            Err(unexpected(tag, TagNumber(5).private(false))),
        ),
        (
            &[0x65, 1, 7],
            Err(unexpected(tag, TagNumber(5).application(true))),
        ),
    ];
    for (row, (octets, expected)) in rows.into_iter().enumerate() {
        same_at(&rt, row, implicit(rt.alloc(), octets), expected);
    }
}

#[test]
fn tags_of_both_classes_are_around_an_element(rt: HostRuntime) {
    let tag = TagNumber(5).application(true);
    let rows: [(&[u8], Result<(&[u8], bool), Error>); 3] = [
        (&[0x65, 3, 2, 1, 7], Ok((&[7], true))),
        (
            &[0x66, 3, 2, 1, 7],
            Err(unexpected(tag, TagNumber(6).application(true))),
        ),
        (
            &[0x65, 2, 5, 0],
            Err(unexpected(Tag::Integer, Tag::Null)),
        ),
    ];
    for (row, (octets, expected)) in rows.into_iter().enumerate() {
        same_at(&rt, row, explicit(rt.alloc(), octets), expected);
    }
    let octets = [0xFF, 0x82, 0x2C, 3, 2, 1, 7];
    same_at(&rt, 3, private(rt.alloc(), &octets), Ok((&[7], true)));
}

// The octets of the number as [PRIVATE 0] IMPLICIT INTEGER.
fn written(alloc: Global, number: u8) -> Result<Vec<u8>, Error> {
    let value: Private<Implicit<IntegerOf<u8>, 0>> = InClass(Implicit(IntegerOf { number }));
    value.to_der(alloc)
}

#[test]
fn a_value_is_written_with_a_private_tag(rt: HostRuntime) {
    match written(rt.alloc(), 200) {
        Ok(octets) => same_at(&rt, 0, octets.as_slice(), &[0xC0, 2, 0, 200]),
        Err(error) => same_at(&rt, 0, Some(error), None),
    }
}

#[test]
fn constants_and_functions_report_equal_tags(rt: HostRuntime) {
    let application = TagNumber(5).application(false);
    holds(&rt, tags_agree::<ImplicitNumber>(application, false));
    let application = TagNumber(5).application(true);
    holds(&rt, tags_agree::<ExplicitNumber>(application, true));
    let private = TagNumber(300).private(true);
    holds(&rt, tags_agree::<PrivateNumber>(private, true));
    holds(&rt, tags_agree::<IntegerIn<0, 2>>(Tag::Integer, false));
    holds(
        &rt,
        tags_agree::<Enumerated<CrlReason>>(Tag::Enumerated, false),
    );
    holds(&rt, tags_agree::<NamedBitsRef>(Tag::BitString, false));
}
