//! Values in sequence.
use super::*;
use crate::checks::{same, same_at, same_octets};
use std::marker::PhantomData;

// Reads the octets as exactly two months.
fn pair_of(alloc: Global, bytes: &[u8]) -> Result<(MyByteMonth, MyByteMonth), Error> {
    value_of(alloc, bytes)
}

// Their numbers.
fn months(alloc: Global, bytes: &[u8]) -> Result<(u8, u8), Error> {
    let (first, second) = pair_of(alloc, bytes)?;
    Ok((first.month(), second.month()))
}

#[test]
fn a_pair_of_a_tag_and_a_length_is_read_and_written(rt: HostRuntime) -> Result<(), Fail> {
    let pair: (Tag, Length) = value_of(rt.alloc(), &[0x04, 0x05])?;
    same(&rt, pair, (Tag::OctetString, Length::new(5)));
    same(&rt, len_of(&pair), Ok(Length::new(2)));
    let der = der_of(rt.alloc(), &pair)?;
    same_octets(&rt, der.as_slice(), &[0x04, 0x05]);
    Ok(())
}

#[test]
fn a_pair_with_nothing_is_read_and_octets_after_it_rejected(rt: HostRuntime) -> Result<(), Fail> {
    let (header, _): (Header, PhantomData<u8>) = value_of(rt.alloc(), &[0x04, 0x05])?;
    same(&rt, header, Header::new(Tag::OctetString, Length::new(5)));
    let octets = [0x04, 0x05, 0x00];
    let refused = refusal_of::<(Header, PhantomData<u8>)>(rt.alloc(), &octets);
    same(&rt, refused, Some(trailing(2, 1)));
    Ok(())
}

#[test]
fn two_months_are_read_and_written(rt: HostRuntime) -> Result<(), Fail> {
    let octets = [0x04, 0x01, 0x09, 0x04, 0x01, 0x02];
    same(&rt, months(rt.alloc(), &octets), Ok((9, 2)));
    let pair = pair_of(rt.alloc(), &octets)?;
    same(&rt, len_of(&pair), Ok(Length::new(6)));
    let der = der_of(rt.alloc(), &pair)?;
    same_octets(&rt, der.as_slice(), &octets);
    Ok(())
}

// The numbers of the three months at the front, and the octets after them.
fn three_months(alloc: Global, bytes: &[u8]) -> Result<((u8, u8, u8), &[u8]), Error> {
    let ((first, (second, third)), rest): ((MyByteMonth, (MyByteMonth, MyByteMonth)), &[u8]) =
        front_of(alloc, bytes)?;
    Ok(((first.month(), second.month(), third.month()), rest))
}

#[test]
fn three_months_at_the_front_are_read_and_the_rest_is_reported(rt: HostRuntime) -> Result<(), Fail> {
    let octets = [0x04, 0x01, 0x09, 0x04, 0x01, 0x02, 0x04, 0x01, 0x00, 0x05];
    let (months, rest) = three_months(rt.alloc(), &octets)?;
    same(&rt, months, (9, 2, 0));
    same_octets(&rt, rest, &[0x05]);
    Ok(())
}

#[test]
fn a_pair_with_wrong_missing_or_spare_octets_is_refused(rt: HostRuntime) {
    let no_month = ErrorKind::DateTime;
    let rows: [(&[u8], Error); 8] = [
        (
            &[0x04, 0x01, 0x0C, 0x04, 0x01, 0x0C],
            no_month.at(Length::new(3)),
        ),
        (&[], incomplete(1, 0, 0)),
        (
            &[0x02, 0x01, 0x09, 0x04, 0x01, 0x02],
            unexpected(Tag::OctetString, Tag::Integer),
        ),
        (
            &[0x04, 0x01, 0x09, 0x04, 0x01, 0x0C],
            no_month.at(Length::new(6)),
        ),
        (&[0x04, 0x01, 0x09], incomplete(4, 3, 3)),
        (&[0x04, 0x01, 0x09, 0x04, 0x01], incomplete(6, 5, 5)),
        (
            &[0x04, 0x01, 0x09, 0x05, 0x00],
            unexpected(Tag::OctetString, Tag::Null),
        ),
        (&[0x04, 0x01, 0x09, 0x04, 0x01, 0x02, 0x00], trailing(6, 1)),
    ];
    for (octets, error) in rows {
        same_at(&rt, error, months(rt.alloc(), octets), Err(error));
    }
}

#[test]
fn a_rejected_second_month_leaves_the_reader_after_its_header(rt: HostRuntime) -> Result<(), Fail> {
    let octets = [0x04, 0x01, 0x09, 0x05, 0x00];
    let mut reader = der_reader(&octets)?;
    let months = decoded_months(rt.alloc(), &mut reader);
    same(&rt, months, Err(unexpected(Tag::OctetString, Tag::Null)));
    same(&rt, reader.place(), (5, 5, false));
    Ok(())
}
