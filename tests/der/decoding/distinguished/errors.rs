//! A type with its own error type, to which decoding errors are converted.

use super::*;
use crate::checks::{holds, same, same_at};
use der::DecodeError;
use test_fixtures::octet::{Octet, OctetError};

#[test]
fn errors_of_decoding_are_converted_to_those_of_the_type(rt: HostRuntime) {
    let number = Ok(Octet { number: 0xFF });
    same(
        &rt,
        Octet::from_der(rt.alloc(), &[0x04, 0x01, 0xFF]),
        number,
    );
    let rows: [(&[u8], Error); 4] = [
        (&[0x04], incomplete(2, 1, 1)),
        (&[0x05, 0x00], unexpected(Tag::OctetString, Tag::Null)),
        (&[0x04, 0x02, 0xFF, 0x00], trailing(3, 1)),
        (&[0x04, 0x01, 0xFF, 0x00], trailing(3, 1)),
    ];
    for (octets, error) in rows {
        let converted = Err(OctetError { error });
        same_at(&rt, error, Octet::from_der(rt.alloc(), octets), converted);
    }
}

#[test]
fn a_failed_reader_refuses_by_an_error_of_the_type(rt: HostRuntime) -> Result<(), Fail> {
    let octets = [0x05, 0x00];
    let mut reader = der_reader(&octets)?;
    let octet: Result<Octet, OctetError> = reader.decode(rt.alloc());
    holds(&rt, octet.is_err());
    let again: Result<Octet, OctetError> = reader.decode(rt.alloc());
    let failed = ErrorKind::Failed.at(Length::new(2));
    same(&rt, again, Err(OctetError { error: failed }));
    Ok(())
}

#[test]
fn pairs_and_boxes_refuse_by_an_error_of_their_type(rt: HostRuntime) {
    let alloc = rt.alloc();
    let refused = Box::<Octet>::from_der(alloc, &[0x04, 0x00]).err();
    let error = incomplete(3, 2, 2);
    same(&rt, refused, Some(OctetError { error }));
    let octets = [0x04, 0x01, 0xFF, 0x04, 0x01, 0x00];
    let pair = <(Octet, Octet)>::from_der(alloc, &octets);
    same(&rt, pair, Ok((Octet { number: 0xFF }, Octet { number: 0 })));
    let refused = <(Octet, Octet)>::from_der(alloc, &[0x04, 0x01, 0xFF]).err();
    let error = incomplete(4, 3, 3);
    same(&rt, refused, Some(OctetError { error }));
}

#[test]
fn an_error_of_a_type_distinguishes_failed_allocation_from_overflow(rt: HostRuntime) {
    let error = ErrorKind::OutOfMemory.to_error();
    holds(&rt, OctetError { error }.is_out_of_memory());
    let error = ErrorKind::Overflow.to_error();
    holds(&rt, !OctetError { error }.is_out_of_memory());
}
