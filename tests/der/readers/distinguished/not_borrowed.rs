//! The generic calls again, on a reader that returns no slices.

use super::*;
use crate::checks::{holds, same};
use der::read_eoc;
use crate::fixtures::errors::incorrect;

fn read_header<R: Reader>(reader: &mut R) -> Result<Header, Error>
{
    decode_header(reader)
}

#[test]
fn a_reader_that_cannot_read_slices_reads_and_rejects_headers(rt: HostRuntime) -> Result<(), Fail> {
    let octets = [0x30, 0x02, 0x05, 0x00, 0x04, 0x81, 0x7F];
    let mut reader = der_not_borrowed(&octets)?;
    let null = Header::new(Tag::Null, Length::ZERO);
    same(&rt, reader.sequence(read_header), Ok(null));
    let refused = Err(incorrect(Tag::OctetString, 7));
    same(&rt, decode_header(&mut reader), refused);
    same(&rt, reader.place(), (7, 7, true));
    Ok(())
}

#[test]
fn nothing_is_borrowed(rt: HostRuntime) -> Result<(), Fail> {
    let octets = [0x05, 0x00];
    let mut reader = der_not_borrowed(&octets)?;
    let refused = ErrorKind::Reader.at(Length::ZERO);
    same(&rt, reader.tlv_bytes().err(), Some(refused));
    same(&rt, reader.read_slice(Length::ONE).err(), Some(refused));
    same(&rt, reader.remaining().err(), Some(refused));
    same(&rt, reader.place(), (0, 2, false));
    Ok(())
}

#[test]
fn a_reader_that_cannot_read_slices_peeks_and_copies_octets(rt: HostRuntime) -> Result<(), Fail> {
    let octets = [0x05, 0x00];
    let mut reader = der_not_borrowed(&octets)?;
    same(&rt, decode_length(&mut reader), Ok(Length::new(5)));
    same(&rt, reader.peek_byte(), Some(0x00));
    let copy = reader.read_vec(rt.alloc(), Length::ONE)?;
    same(&rt, copy.as_slice(), [0x00].as_slice());
    same(&rt, read_eoc(&mut reader), Err(incomplete(3, 2, 2)));
    Ok(())
}

#[test]
fn a_reader_that_cannot_read_slices_decodes_a_tag_and_finishes(rt: HostRuntime) -> Result<(), Fail> {
    let octets = [0x05, 0x30];
    let mut reader = der_not_borrowed(&octets)?;
    same(&rt, reader.peek_tag(), Ok(Tag::Null));
    same(&rt, not_borrowed_tag(rt.alloc(), &mut reader), Ok(Tag::Null));
    same(&rt, reader.drain(Length::ONE), Ok(()));
    holds(&rt, reader.is_finished());
    same(&rt, reader.finish(), Ok(()));
    Ok(())
}
