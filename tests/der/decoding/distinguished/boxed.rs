//! A boxed month.
use super::*;
use crate::checks::{same, same_octets};
use der::{EncodeValue, Tagged};
use example_calls::my_octets::MyOctets;

// Reads the octets as exactly one month.
fn boxed_month(alloc: Global, octets: &[u8]) -> Result<Box<MyByteMonth>, Error> {
    value_of(alloc, octets)
}

// The error of reading the octets.
fn refusal(alloc: Global, octets: &[u8]) -> Option<Error> {
    boxed_month(alloc, octets).err()
}

#[test]
fn a_boxed_month_is_read_and_written(rt: HostRuntime) -> Result<(), Fail> {
    let octets = [0x04, 0x01, 0x09];
    let boxed = boxed_month(rt.alloc(), &octets)?;
    same(&rt, month_number(&boxed), 9);
    same(&rt, boxed.tag(), Tag::OctetString);
    same(&rt, boxed.value_len(), Ok(Length::ONE));
    same(&rt, len_of(&boxed), Ok(Length::new(3)));
    same_octets(&rt, der_of(rt.alloc(), &boxed)?.as_slice(), &octets);
    Ok(())
}

#[test]
fn a_boxed_month_at_the_front_is_read(rt: HostRuntime) -> Result<(), Fail> {
    let octets = [0x04, 0x01, 0x09, 0x05, 0x00];
    let mut reader = der_reader(&octets)?;
    let boxed = Box::<MyByteMonth>::decode(rt.alloc(), &mut reader)?;
    same(&rt, boxed.month(), 9);
    same(&rt, reader.place(), (3, 5, false));
    Ok(())
}

#[test]
fn a_boxed_month_is_refused_as_a_month_is(rt: HostRuntime) {
    let alloc = rt.alloc();
    let no_month = ErrorKind::DateTime.at(Length::new(3));
    same(&rt, refusal(alloc, &[0x04, 0x01, 0x0C]), Some(no_month));
    let other_tag = unexpected(Tag::OctetString, Tag::Sequence);
    same(&rt, refusal(alloc, &[0x30, 0x01, 0x09]), Some(other_tag));
    same(
        &rt,
        refusal(alloc, &[0x04, 0x02, 0x09, 0x00]),
        Some(trailing(3, 1)),
    );
}

#[test]
fn boxed_contents_are_read_and_written(rt: HostRuntime) -> Result<(), Fail> {
    let octets = [0x04, 0x02, 0x2A, 0x2B];
    let boxed: Box<MyOctets> = value_of(rt.alloc(), &octets)?;
    same_octets(&rt, boxed.octets, &[0x2A, 0x2B]);
    same_octets(&rt, der_of(rt.alloc(), &boxed)?.as_slice(), &octets);
    Ok(())
}
