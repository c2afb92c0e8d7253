//! A type with its own tag over octets that are borrowed if the reader returns slices.

use super::*;
use crate::checks::{holds, same};
use test_fixtures::cow_octets::CowOctets;

const ELEMENT: [u8; 4] = [0x04, 0x02, 0x01, 0x02];

#[test]
fn an_element_is_borrowed_from_a_reader_that_reads_slices(rt: HostRuntime) -> Result<(), Fail> {
    let read = CowOctets::from_der(rt.alloc(), &ELEMENT)?;
    holds(&rt, matches!(read.octets, BytesCow::Borrowed(_)));
    same(&rt, read.to_der(rt.alloc())?.as_slice(), ELEMENT.as_slice());
    Ok(())
}

#[test]
fn an_element_is_copied_from_a_reader_that_does_not_read_slices(rt: HostRuntime) -> Result<(), Fail> {
    let mut reader = der_not_borrowed(&ELEMENT)?;
    let read = CowOctets::decode(rt.alloc(), &mut reader)?;
    holds(&rt, matches!(read.octets, BytesCow::Owned(_)));
    same(&rt, reader.place(), (4, 4, false));
    same(&rt, read.to_der(rt.alloc())?.as_slice(), ELEMENT.as_slice());
    Ok(())
}
