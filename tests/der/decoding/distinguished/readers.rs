//! Values that a type decodes from a reader, and values that the reader decodes: in the latter case
//! the reader has failed after every error.
use super::*;
use crate::checks::{holds, same};
use der::{DecodeValue, IsValue, decode_contents, decode_tlv};

// The number of the month that the reader decodes.
fn next_month(alloc: Global, reader: &mut SliceReader<'_>) -> Result<u8, Error> {
    let month: MyByteMonth = next_of(alloc, reader)?;
    Ok(month.month())
}

// The number of the month that is the next element.
fn element_month(alloc: Global, reader: &mut SliceReader<'_>) -> Result<u8, Error> {
    let month: MyByteMonth = decode_tlv(alloc, reader)?;
    Ok(month.month())
}

// The number of the month whose contents are next, after this header.
fn month_by_header(
    alloc: Global,
    reader: &mut SliceReader<'_>,
    header: Header,
) -> Result<u8, Error> {
    let month = MyByteMonth::decode_value(alloc, reader, header)?;
    month.is_value();
    Ok(month.month())
}

// The number of the month that is all of the next contents, after this header.
fn field_month(alloc: Global, reader: &mut SliceReader<'_>, header: Header) -> Result<u8, Error> {
    let month: MyByteMonth = decode_contents(alloc, reader, header)?;
    Ok(month.month())
}

#[test]
fn a_type_leaves_the_reader_after_another_tag(rt: HostRuntime) -> Result<(), Fail> {
    let octets = [0x30, 0x01, 0x09];
    let mut reader = der_reader(&octets)?;
    let refused = unexpected(Tag::OctetString, Tag::Sequence);
    let month = decoded_month(rt.alloc(), &mut reader);
    same(&rt, month, Err(refused));
    same(&rt, reader.place(), (2, 3, false));
    Ok(())
}

#[test]
fn a_reader_fails_after_another_tag(rt: HostRuntime) -> Result<(), Fail> {
    let octets = [0x30, 0x01, 0x09];
    let mut reader = der_reader(&octets)?;
    let month = next_month(rt.alloc(), &mut reader);
    same(&rt, month, Err(unexpected(Tag::OctetString, Tag::Sequence)));
    same(&rt, reader.place(), (2, 3, true));
    let again = next_month(rt.alloc(), &mut reader);
    same(&rt, again, Err(ErrorKind::Failed.at(Length::new(2))));
    same(&rt, reader.place(), (2, 3, true));
    Ok(())
}

#[test]
fn a_reader_has_failed_after_a_number_of_no_month(rt: HostRuntime) -> Result<(), Fail> {
    let octets = [0x04, 0x01, 0x0C, 0x05];
    let mut reader = der_reader(&octets)?;
    let no_month = ErrorKind::DateTime.at(Length::new(3));
    let month = decoded_month(rt.alloc(), &mut reader);
    same(&rt, month, Err(no_month));
    same(&rt, reader.place(), (3, 4, true));
    Ok(())
}

#[test]
fn months_are_decoded_in_turn(rt: HostRuntime) -> Result<(), Fail> {
    let octets = [0x04, 0x01, 0x09, 0x04, 0x01, 0x02, 0x05, 0x00];
    let mut reader = der_reader(&octets)?;
    same(&rt, next_month(rt.alloc(), &mut reader), Ok(9));
    same(&rt, reader.place(), (3, 8, false));
    same(&rt, element_month(rt.alloc(), &mut reader), Ok(2));
    same(&rt, reader.place(), (6, 8, false));
    Ok(())
}

#[test]
fn contents_are_decoded_without_their_header(rt: HostRuntime) -> Result<(), Fail> {
    let octets = [0x09, 0x05];
    let mut reader = der_reader(&octets)?;
    let header = Header::new(Tag::OctetString, Length::ONE);
    same(&rt, month_by_header(rt.alloc(), &mut reader, header), Ok(9));
    same(&rt, reader.position(), Length::ONE);
    Ok(())
}

#[test]
fn a_field_is_decoded_that_is_all_of_the_contents(rt: HostRuntime) -> Result<(), Fail> {
    let octets = [0x04, 0x01, 0x09];
    let mut reader = der_reader(&octets)?;
    let header = Header::new(Tag::Sequence, Length::new(3));
    same(&rt, field_month(rt.alloc(), &mut reader, header), Ok(9));
    holds(&rt, reader.is_finished());
    Ok(())
}
