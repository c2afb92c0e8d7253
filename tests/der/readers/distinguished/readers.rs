//! A reader of a slice: its state, the slices it returns, and its errors.
use super::*;
use crate::checks::{holds, same};
use der::DecodeError;

fn octets_of<'a>(reader: &mut SliceReader<'a>, length: Length) -> Result<&'a [u8], Error> {
    reader.read_slice(length)
}

#[test]
fn a_new_reader_is_at_the_front_under_der(rt: HostRuntime) -> Result<(), Fail> {
    let reader = der_reader(&[0x01, 0x02])?;
    holds(&rt, reader.encoding_rules().is_der());
    same(&rt, reader.place(), (0, 2, false));
    Ok(())
}

#[test]
fn octets_are_borrowed_in_turn(rt: HostRuntime) -> Result<(), Fail> {
    let octets = [0x01, 0x02, 0x03, 0x04];
    let mut reader = der_reader(&octets)?;
    same(&rt, octet(&mut reader), Ok(0x01));
    let borrowed = octets_of(&mut reader, Length::new(2))?;
    same(&rt, borrowed, [0x02, 0x03].as_slice());
    same(&rt, borrowed.as_slice().len(), 2);
    same(&rt, reader.remaining()?, [0x04].as_slice());
    same(&rt, reader.place(), (3, 4, false));
    Ok(())
}

#[test]
fn contents_after_a_header_are_borrowed(rt: HostRuntime) -> Result<(), Fail> {
    let octets = [0x04, 0x02, 0x31, 0x32];
    let mut reader = der_reader(&octets)?;
    let header: Result<Header, Error> = reader.decode(rt.alloc());
    let two = Length::new(2);
    same(&rt, header, Ok(Header::new(Tag::OctetString, two)));
    let contents = octets_of(&mut reader, two)?;
    same(&rt, contents, [0x31, 0x32].as_slice());
    same(&rt, reader.place(), (4, 4, false));
    Ok(())
}

#[test]
fn octets_are_read_to_the_end_and_no_further(rt: HostRuntime) -> Result<(), Fail> {
    let mut reader = der_reader(&[0x03, 0x04])?;
    let mut octets = [0u8; 2];
    same(&rt, reader.read_into(&mut octets), Ok(()));
    same(&rt, octets, [0x03, 0x04]);
    same(&rt, reader.place(), (2, 2, false));
    same(&rt, octet(&mut reader), Err(incomplete(3, 2, 2)));
    same(&rt, reader.place(), (2, 2, true));
    Ok(())
}

#[test]
fn octets_that_are_missing_are_refused_and_the_reader_fails(rt: HostRuntime) -> Result<(), Fail> {
    let octets = [0x01, 0x02];
    let mut reader = der_reader(&octets)?;
    let missing = Some(incomplete(4294967295, 2, 0));
    same(&rt, octets_of(&mut reader, Length::MAX).err(), missing);
    same(&rt, reader.place(), (0, 2, true));
    let failed = ErrorKind::Failed.at(Length::ZERO);
    let again = octets_of(&mut reader, Length::ZERO).err();
    same(&rt, again, Some(failed));
    same(&rt, reader.remaining().err(), Some(failed));
    let mut buffer = [7u8, 7];
    same(&rt, reader.read_into(&mut buffer), Err(failed));
    same(&rt, buffer, [7, 7]);
    Ok(())
}

#[test]
fn more_octets_than_a_length_counts_leave_the_reader_usable(rt: HostRuntime) -> Result<(), Fail> {
    let octets = [0x01, 0x02];
    let mut reader = der_reader(&octets)?;
    same(&rt, octet(&mut reader), Ok(0x01));
    let overflow = ErrorKind::Overflow.to_error();
    let refused = octets_of(&mut reader, Length::MAX).err();
    same(&rt, refused, Some(overflow));
    same(&rt, reader.place(), (1, 2, false));
    same(&rt, octet(&mut reader), Ok(0x02));
    Ok(())
}

#[test]
fn an_error_of_the_caller_is_placed_and_fails_the_reader(rt: HostRuntime) -> Result<(), Fail> {
    let octets = [0x01, 0x02];
    let mut reader = der_reader(&octets)?;
    same(&rt, octet(&mut reader), Ok(0x01));
    let error = reader.error(ErrorKind::DateTime);
    same(&rt, error, ErrorKind::DateTime.at(Length::ONE));
    same(&rt, reader.place(), (1, 2, true));
    Ok(())
}

#[test]
fn failed_allocation_is_distinguished_from_overflow(rt: HostRuntime) {
    holds(&rt, ErrorKind::OutOfMemory.to_error().is_out_of_memory());
    holds(&rt, !ErrorKind::Overflow.to_error().is_out_of_memory());
}
