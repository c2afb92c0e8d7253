//! Nothing, which is read from no octets.
use super::*;
use crate::checks::{holds, same, same_octets};
use std::marker::PhantomData;

// Reads the octets as exactly nothing.
fn nothing_of(alloc: Global, bytes: &[u8]) -> Result<PhantomData<u8>, Error> {
    value_of(alloc, bytes)
}

#[test]
fn nothing_is_read_from_no_octets(rt: HostRuntime) {
    holds(&rt, nothing_of(rt.alloc(), &[]).is_ok());
}

#[test]
fn octets_after_nothing_are_left_or_rejected(rt: HostRuntime) -> Result<(), Fail> {
    let refused = nothing_of(rt.alloc(), &[0x00]).err();
    same(&rt, refused, Some(trailing(0, 1)));
    let (_, rest): (PhantomData<u8>, &[u8]) = front_of(rt.alloc(), &[0x00])?;
    same_octets(&rt, rest, &[0x00]);
    Ok(())
}

#[test]
fn decoding_nothing_leaves_the_reader_where_it_is(rt: HostRuntime) -> Result<(), Fail> {
    let octets = [0x04, 0x01];
    let mut reader = der_reader(&octets)?;
    same(&rt, reader.read_byte(), Ok(0x04));
    holds(
        &rt,
        PhantomData::<u8>::decode(rt.alloc(), &mut reader).is_ok(),
    );
    same(&rt, reader.place(), (1, 2, false));
    Ok(())
}

#[test]
fn nothing_is_written_as_no_octets(rt: HostRuntime) -> Result<(), Fail> {
    let nothing = PhantomData::<u8>;
    same(&rt, len_of(&nothing), Ok(Length::ZERO));
    same_octets(&rt, der_of(rt.alloc(), &nothing)?.as_slice(), &[]);
    Ok(())
}
