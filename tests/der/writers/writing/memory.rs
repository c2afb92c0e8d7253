//! Allocations that fail when octets are written to a vector.
use super::*;
use crate::checks::{holds, same, same_at};
use der::{encode_to_vec_in, to_der_in};
use linked_list_allocator::LocalHeap;

const SIZES: [usize; 8] = [32, 48, 64, 80, 96, 128, 160, 256];

#[test]
fn a_refused_encoding_is_out_of_memory(rt: HostRuntime) -> Result<(), Fail> {
    let header = Header::new(Tag::Sequence, Length::new(256));
    let (mut refused, mut written) = (0u8, 0u8);
    for size in SIZES {
        let heap = LocalHeap::new(rt.alloc(), size)?;
        let Ok(other) = Vec::from_slice(&heap, &[0xAAu8; 30]) else {
            continue;
        };
        match to_der_in(&heap, &header) {
            Ok(der) => {
                same(&rt, der.as_slice(), [0x30, 0x82, 0x01, 0x00].as_slice());
                written = written.wrapping_add(1);
            }
            Err(error) => {
                same_at(&rt, size, error, ErrorKind::OutOfMemory.to_error());
                refused = refused.wrapping_add(1);
            }
        }
        drop(other);
        same_at(&rt, size, heap.used(), 0);
    }
    holds(&rt, refused > 0);
    holds(&rt, written > 0);
    Ok(())
}

#[test]
fn a_vector_that_cannot_grow_is_as_before(rt: HostRuntime) -> Result<(), Fail> {
    let header = Header::new(Tag::Sequence, Length::new(256));
    let (mut refused, mut written) = (0u8, 0u8);
    for size in SIZES {
        let heap = LocalHeap::new(rt.alloc(), size)?;
        let Ok(mut out) = Vec::from_slice(&heap, &[0xAAu8; 30]) else {
            continue;
        };
        match encode_to_vec_in(&header, &mut out) {
            Ok(count) => {
                same_at(&rt, size, count, Length::new(4));
                same_at(&rt, size, out.len(), 34);
                written = written.wrapping_add(1);
            }
            Err(error) => {
                same_at(&rt, size, error, ErrorKind::OutOfMemory.to_error());
                same_at(&rt, size, out.as_slice(), [0xAAu8; 30].as_slice());
                refused = refused.wrapping_add(1);
            }
        }
    }
    holds(&rt, refused > 0);
    holds(&rt, written > 0);
    Ok(())
}
