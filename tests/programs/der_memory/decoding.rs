//! Calls that decode values from slices without allocating.
use crate::print::print_result;
use der::example::{BorrowedOctets, MyByteMonth};
use der::{
    BytesRef, Decode, DecodeBytes, DecodeValue, Error, Header, Length, ReaderExt, SliceReader,
    StringRef, Tag, decode_header, decode_length,
};
use example_calls::set_of::set_of_contents;
use std::alloc::Global;
use std::io;
use std::marker::PhantomData;

const MONTH: [u8; 3] = [0x04, 0x01, 0x09];

pub fn headers(rt: &impl Print, alloc: Global) -> io::Result<()> {
    print_result(
        rt,
        "tag from_der",
        Tag::from_der(alloc, &[0x5F, 0x81, 0x80, 0x01]),
    )?;
    print_result(rt, "tag from_ber", Tag::from_ber(alloc, &[0x24]))?;
    print_result(
        rt,
        "length from_der",
        Length::from_der(alloc, &[0x82, 0x01, 0x00]),
    )?;
    print_result(rt, "length from_ber", Length::from_ber(alloc, &[0x7F]))?;
    print_result(rt, "header from_der", header(alloc))?;
    print_result(rt, "header from_ber", header_by_ber(alloc))?;
    print_result(rt, "decode_header", header_of(&MONTH))?;
    print_result(rt, "decode_length", length_of(&[0x05]))
}

fn header(alloc: Global) -> Result<Length, Error> {
    Ok(Header::from_der(alloc, &[0x30, 0x05])?.length())
}

fn header_by_ber(alloc: Global) -> Result<Length, Error> {
    Ok(Header::from_ber(alloc, &[0x24, 0x05])?.length())
}

fn header_of(octets: &[u8]) -> Result<Length, Error> {
    Ok(decode_header(&mut SliceReader::new(octets)?)?.length())
}

fn length_of(octets: &[u8]) -> Result<Length, Error> {
    decode_length(&mut SliceReader::new(octets)?)
}

pub fn elements(rt: &impl Print, alloc: Global) -> io::Result<()> {
    print_result(rt, "month from_der", month(alloc))?;
    print_result(rt, "month from_ber", month_by_ber(alloc))?;
    print_result(rt, "borrowed from_der", octets(alloc))?;
    print_result(rt, "borrowed from_ber", octets_by_ber(alloc))?;
    print_result(rt, "nothing from_der", nothing(alloc))?;
    print_result(rt, "pair from_der", pair(alloc))?;
    print_result(rt, "set_of_contents", set_in_order(alloc))
}

fn month(alloc: Global) -> Result<u8, Error> {
    Ok(MyByteMonth::from_der(alloc, &MONTH)?.month())
}

fn month_by_ber(alloc: Global) -> Result<u8, Error> {
    Ok(MyByteMonth::from_ber(alloc, &[0x24, 0x01, 0x09])?.month())
}

fn octets(alloc: Global) -> Result<Length, Error> {
    Ok(BorrowedOctets::from_der(alloc, &MONTH)?.octets.len())
}

fn octets_by_ber(alloc: Global) -> Result<Length, Error> {
    let input = [0x24, 0x80, 0x04, 0x00, 0x00, 0x00];
    Ok(BorrowedOctets::from_ber(alloc, &input)?.octets.len())
}

fn nothing(alloc: Global) -> Result<(), Error> {
    let _nothing = PhantomData::<u8>::from_der(alloc, &[])?;
    Ok(())
}

fn pair(alloc: Global) -> Result<u8, Error> {
    let (_, month) = <(MyByteMonth, MyByteMonth)>::from_der(alloc, &[4, 1, 1, 4, 1, 2])?;
    Ok(month.month())
}

// The number of octets of contents of a SET OF that is in order.
fn set_in_order(alloc: Global) -> Result<usize, Error> {
    let octets = [0x31, 0x07, 0x04, 0x01, 0xFF, 0x04, 0x02, 0x00, 0x00];
    Ok(set_of_contents(alloc, &octets)?.len())
}

pub fn fronts(rt: &impl Print, alloc: Global) -> io::Result<()> {
    print_result(rt, "tag from_der_partial", after_tag(alloc))?;
    print_result(rt, "month from_der_partial", after_month(alloc))
}

fn after_tag(alloc: Global) -> Result<usize, Error> {
    Ok(Tag::from_der_partial(alloc, &MONTH)?.1.len())
}

fn after_month(alloc: Global) -> Result<usize, Error> {
    Ok(
        MyByteMonth::from_der_partial(alloc, &[0x04, 0x01, 0x09, 0x05, 0x00])?
            .1
            .len(),
    )
}

pub fn by_a_reader(rt: &impl Print, alloc: Global) -> io::Result<()> {
    print_result(rt, "decode month", decoded_month(alloc))?;
    print_result(rt, "decode tag", decoded_tag(alloc))?;
    print_result(rt, "octets decode_value", octets_value(alloc))?;
    print_result(rt, "text decode_value", text_value(alloc))
}

fn decoded_month(alloc: Global) -> Result<u8, Error> {
    Ok(
        SliceReader::new(&MONTH)?
            .decode::<MyByteMonth>(alloc)?
            .month(),
    )
}

fn decoded_tag(alloc: Global) -> Result<Tag, Error> {
    SliceReader::new(&MONTH)?.decode::<Tag>(alloc)
}

fn octets_value(alloc: Global) -> Result<Length, Error> {
    let header = Header::new(Tag::OctetString, Length::new(2));
    Ok(BytesRef::decode_value(alloc, &mut SliceReader::new(&[0x68, 0x69])?, header)?.len())
}

fn text_value(alloc: Global) -> Result<Length, Error> {
    let header = Header::new(Tag::Utf8String, Length::new(2));
    Ok(StringRef::decode_value(alloc, &mut SliceReader::new(&[0x68, 0x69])?, header)?.len())
}
