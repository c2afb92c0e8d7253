//! Values from a reader that returns no slices.
use super::*;
use crate::checks::{holds, same};
use example_calls::algorithm_identifier::AlgorithmIdentifier;
use example_calls::my_octets::MyOctets;
use example_calls::reader::CopyingReader;

fn is_finished(reader: &CopyingReader<'_>) -> bool {
    reader.is_finished()
}

#[test]
fn a_reader_that_cannot_read_slices_decodes_a_month(rt: HostRuntime) -> Result<(), Fail> {
    let octets = [0x04, 0x01, 0x09, 0x05, 0x00];
    let mut reader = der_not_borrowed(&octets)?;
    let month = MyByteMonth::decode(rt.alloc(), &mut reader)?;
    same(&rt, month.month(), 9);
    same(&rt, reader.place(), (3, 5, false));
    Ok(())
}

#[test]
fn a_reader_that_cannot_read_slices_decodes_a_boxed_month(rt: HostRuntime) -> Result<(), Fail> {
    let octets = [0x04, 0x01, 0x09];
    let mut reader = der_not_borrowed(&octets)?;
    let boxed = Box::<MyByteMonth>::decode(rt.alloc(), &mut reader)?;
    same(&rt, boxed.month(), 9);
    holds(&rt, is_finished(&reader));
    Ok(())
}

#[test]
fn a_rejected_month_fails_a_reader_that_cannot_read_slices(rt: HostRuntime) -> Result<(), Fail> {
    let octets = [0x04, 0x01, 0x0C];
    let mut reader = der_not_borrowed(&octets)?;
    let month: Result<MyByteMonth, Error> = next_of(rt.alloc(), &mut reader);
    same(&rt, month, Err(ErrorKind::DateTime.at(Length::new(3))));
    let (_, _, is_failed) = reader.place();
    holds(&rt, is_failed);
    let again: Result<MyByteMonth, Error> = next_of(rt.alloc(), &mut reader);
    same(&rt, again, Err(ErrorKind::Failed.at(Length::new(3))));
    Ok(())
}

#[test]
fn contents_that_need_slices_are_rejected_after_their_header(rt: HostRuntime) -> Result<(), Fail> {
    let octets = [0x04, 0x01, 0x2A];
    let mut reader = der_not_borrowed(&octets)?;
    let refused = refusal_by::<CopyingReader, MyOctets>(rt.alloc(), &mut reader);
    same(&rt, refused, Some(ErrorKind::Reader.at(Length::new(2))));
    same(&rt, reader.place(), (2, 3, false));
    Ok(())
}

#[test]
fn a_field_that_needs_slices_is_rejected_after_its_header(rt: HostRuntime) -> Result<(), Fail> {
    let octets = [0x30, 0x06, 0x04, 0x01, 0x2A, 0x04, 0x01, 0x09];
    let mut reader = der_not_borrowed(&octets)?;
    let refused = refusal_by::<CopyingReader, AlgorithmIdentifier>(rt.alloc(), &mut reader);
    same(&rt, refused, Some(ErrorKind::Reader.at(Length::new(4))));
    same(&rt, reader.place(), (4, 8, false));
    Ok(())
}

#[test]
fn a_reader_that_cannot_read_slices_decodes_a_pair(rt: HostRuntime) -> Result<(), Fail> {
    let octets = [0x04, 0x01, 0x09, 0x04, 0x01, 0x02];
    let mut reader = der_not_borrowed(&octets)?;
    same(&rt, decoded_months(rt.alloc(), &mut reader), Ok((9, 2)));
    holds(&rt, is_finished(&reader));
    Ok(())
}
