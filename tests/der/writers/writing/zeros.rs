//! A type with contents of any length.

use super::*;
use crate::checks::same;
use der::{Encode, encoded_len_tlv, to_der_in};
use test_fixtures::zeros::Zeros;
use linked_list_allocator::LocalHeap;

#[test]
fn elements_with_contents_of_any_length_are_written(rt: HostRuntime) -> Result<(), Fail> {
    let none = Zeros { count: 0 }.to_der(rt.alloc())?;
    same(&rt, none.as_slice(), [0x04, 0x00].as_slice());
    let three = Zeros { count: 3 }.to_der(rt.alloc())?;
    same(
        &rt,
        three.as_slice(),
        [0x04, 0x03, 0x00, 0x00, 0x00].as_slice(),
    );
    let mut buf = [0xAA; 131];
    let long = Zeros { count: 128 }.encode_to_slice(&mut buf)?;
    same(&rt, long.len(), 131);
    same(&rt, &long[..4], [0x04, 0x81, 0x80, 0x00].as_slice());
    same(&rt, &long[127..], [0x00; 4].as_slice());
    Ok(())
}

#[test]
fn the_longest_element_has_4294967295_octets(rt: HostRuntime) {
    let longest = Zeros { count: 4294967289 };
    same(&rt, longest.encoded_len(), Ok(Length::MAX));
}

#[test]
fn an_element_that_is_too_long_overflows(rt: HostRuntime) -> Result<(), Fail> {
    let zeros = Zeros { count: 4294967290 };
    let overflow = ErrorKind::Overflow.to_error();
    same(&rt, zeros.encoded_len(), Err(overflow));
    same(&rt, encoded_len_tlv(&zeros), Err(overflow));
    same(&rt, zeros.to_der(rt.alloc()).err(), Some(overflow));
    Ok(())
}

// The error allocates nothing: no memory is left.
#[test]
fn what_is_too_long_overflows_before_memory_is_asked_for(rt: HostRuntime) -> Result<(), Fail> {
    let heap = LocalHeap::new(rt.alloc(), 32)?;
    let _all = Vec::from_slice(&heap, &[0u8; 20])?;
    let zeros = Zeros { count: 4294967290 };
    let overflow = ErrorKind::Overflow.to_error();
    same(&rt, to_der_in(&heap, &zeros).err(), Some(overflow));
    let refused = to_der_in(&heap, &Zeros { count: 0 }).err();
    same(&rt, refused, Some(ErrorKind::OutOfMemory.to_error()));
    Ok(())
}

#[test]
fn an_element_that_is_too_long_leaves_the_vector(rt: HostRuntime) -> Result<(), Fail> {
    let mut out = Vec::from_slice(rt.alloc(), &[0xBBu8])?;
    let overflow = ErrorKind::Overflow.to_error();
    let zeros = Zeros { count: 4294967290 };
    same(&rt, zeros.encode_to_vec(&mut out), Err(overflow));
    same(&rt, out.as_slice(), [0xBB].as_slice());
    Ok(())
}

#[test]
fn an_element_is_rejected_where_there_is_no_space(rt: HostRuntime) {
    let mut buf = [0; 4];
    let refused = Zeros { count: 3 }.encode_to_slice(&mut buf).err();
    same(&rt, refused, Some(ErrorKind::Overlength.at(Length::new(5))));
}
