//! Values at the maximum nesting depth.
use super::*;
use crate::checks::same;

// A reader of three octets inside `parts` nested parts, each of which is all of them.
fn reader_inside(octets: &[u8; 3], parts: u8) -> Result<SliceReader<'_>, Error> {
    let mut reader = der_reader(octets)?;
    for _ in 0..parts {
        reader.enter_nested(Length::new(3))?;
    }
    Ok(reader)
}

#[test]
fn a_month_inside_63_parts_is_read(rt: HostRuntime) -> Result<(), Fail> {
    let octets = [0x04, 0x01, 0x09];
    let mut reader = reader_inside(&octets, 63)?;
    same(&rt, decoded_month(rt.alloc(), &mut reader), Ok(9));
    same(&rt, reader.place(), (3, 3, false));
    Ok(())
}

#[test]
fn a_month_inside_64_parts_is_refused_as_too_deep(rt: HostRuntime) -> Result<(), Fail> {
    let octets = [0x04, 0x01, 0x09];
    let mut reader = reader_inside(&octets, 64)?;
    let too_deep = ErrorKind::NestingDepth.at(Length::new(2));
    let month = decoded_month(rt.alloc(), &mut reader);
    same(&rt, month, Err(too_deep));
    same(&rt, reader.place(), (2, 3, true));
    Ok(())
}

#[test]
fn a_tag_inside_64_parts_is_read(rt: HostRuntime) -> Result<(), Fail> {
    let octets = [0x04, 0x01, 0x09];
    let mut reader = reader_inside(&octets, 64)?;
    same(
        &rt,
        Tag::decode(rt.alloc(), &mut reader),
        Ok(Tag::OctetString),
    );
    Ok(())
}
