//! Parts and values of a reader that returns no slices.

use super::*;
use crate::checks::same;
use der::{close_value, read_value};

fn read_one<R: Reader>(reader: &mut R) -> Result<u8, Error>
{
    reader.read_byte()
}

#[test]
fn a_reader_that_cannot_read_slices_reads_a_part(rt: HostRuntime) -> Result<(), Fail> {
    let octets = [0x07, 0x05];
    let mut reader = der_not_borrowed(&octets)?;
    same(&rt, reader.read_nested(Length::ONE, read_one), Ok(0x07));
    same(&rt, reader.offset(), Length::ONE);
    same(&rt, reader.remaining_len(), Length::ONE);
    Ok(())
}

fn read_contents<R: Reader>(reader: &mut R, header: Header) -> Result<(u8, Length), Error>
{
    match reader.read_byte() {
        Ok(octet) => Ok((octet, header.length())),
        Err(error) => Err(error),
    }
}

#[test]
fn a_reader_that_cannot_read_slices_reads_a_value_with_its_eoc(rt: HostRuntime) -> Result<(), Fail> {
    let octets = [0x07, 0x00, 0x00];
    let mut reader = der_not_borrowed(&octets)?;
    let header = Header::new(Tag::OctetString, Length::new_indefinite(3));
    let read = read_value(&mut reader, header, read_contents);
    same(&rt, read, Ok((0x07, Length::new_indefinite(1))));
    same(&rt, reader.place(), (3, 3, false));
    Ok(())
}

#[test]
fn a_reader_that_cannot_read_slices_rejects_octets_left_in_contents(rt: HostRuntime) -> Result<(), Fail> {
    let octets = [0x07, 0x05];
    let mut reader = der_not_borrowed(&octets)?;
    let outer = reader.enter_nested(Length::new(2))?;
    let answer = reader.read_byte();
    let closed = close_value(&mut reader, Length::new(2), outer, answer);
    same(&rt, closed, Err(trailing(1, 1)));
    same(&rt, reader.place(), (1, 2, true));
    Ok(())
}
