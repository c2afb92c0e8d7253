//! Writers over slices, and what is written to them.
use crate::print::{print_result, print_text, print_value};
use der::example::MyByteMonth;
use der::{
    Encode, EncodeRef, EncodeValue, EncodeValueRef, Error, ErrorKind, Header, IsConstructed,
    Length, SliceWriter, Tag, Tagged, Writer, encode_value_to_slice,
};
use std::io;
use std::marker::PhantomData;

fn september() -> Result<MyByteMonth, Error> {
    match MyByteMonth::new(9) {
        Some(month) => Ok(month),
        None => Err(ErrorKind::DateTime.to_error()),
    }
}

pub fn pieces(rt: &impl Print) -> io::Result<()> {
    let mut buffer = [0; 6];
    let mut writer = SliceWriter::new(&mut buffer);
    print_result(rt, "write", writer.write(&[0x05]))?;
    print_result(rt, "write_byte", writer.write_byte(0x00))?;
    print_result(rt, "encode tag", writer.encode(&Tag::Null))?;
    print_result(rt, "encode length", Length::new(128).encode(&mut writer))?;
    print_result(rt, "encode nothing", PhantomData::<u8>.encode(&mut writer))?;
    print_value(rt, "writer is_failed", writer.is_failed())?;
    print_result(rt, "writer finish", writer.finish())
}

pub fn sequences(rt: &impl Print) -> io::Result<()> {
    print_result(rt, "writer sequence", sequence_of_null(&mut [0; 4]))?;
    print_result(rt, "writer error", printed_error(&mut [0; 4]))
}

fn sequence_of_null(buffer: &mut [u8]) -> Result<usize, Error> {
    let mut writer = SliceWriter::new(buffer);
    writer.sequence(Length::new(2), |part| part.write(&[0x05, 0x00]))?;
    Ok(writer.finish()?.len())
}

fn printed_error(buffer: &mut [u8]) -> Result<(), Error> {
    SliceWriter::new(buffer).error(ErrorKind::DateTime)
}

pub fn values(rt: &impl Print) -> io::Result<()> {
    let Ok(month) = september() else {
        return Ok(());
    };
    print_text(rt, "month tag", month.tag())?;
    print_value(
        rt,
        "has_constructed_bit",
        MyByteMonth::has_constructed_bit(),
    )?;
    print_result(rt, "header", length_of(&month))?;
    print_result(rt, "value_len", month.value_len())?;
    print_result(rt, "encoded_len", month.encoded_len())?;
    print_result(rt, "encoded_len of a header", header().encoded_len())?;
    print_result(rt, "encode_to_slice", month.encode_to_slice(&mut [0; 3]))?;
    print_result(
        rt,
        "encode_value_to_slice",
        encode_value_to_slice(&mut [0], &month),
    )?;
    print_result(
        rt,
        "EncodeRef",
        EncodeRef(&month).encode_to_slice(&mut [0; 3]),
    )?;
    print_result(rt, "EncodeValueRef", EncodeValueRef(&month).encoded_len())?;
    print_result(rt, "encode_value", contents(&month, &mut [0]))
}

fn header() -> Header {
    Header::new(Tag::Sequence, Length::new(256))
}

fn length_of(month: &MyByteMonth) -> Result<Length, Error> {
    Ok(month.header()?.length())
}

fn contents(month: &MyByteMonth, buffer: &mut [u8]) -> Result<(), Error> {
    month.encode_value(&mut SliceWriter::new(buffer))
}
