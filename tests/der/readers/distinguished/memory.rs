//! Allocations that fail when octets are copied from a reader.
use super::*;
use crate::checks::{holds_at, same, same_at};
use linked_list_allocator::LocalHeap;
use std::process::Abort;
use std::test::Fail;

const SIZES: [usize; 8] = [32, 48, 64, 80, 96, 128, 160, 256];

// Copies sixty octets, and returns whether there was enough memory; if not, the reader is
// unchanged.
fn copy_sixty<R: Reader>(rt: &impl Abort, heap: &LocalHeap, mut reader: R, size: usize) -> bool {
    match reader.read_vec_in(heap, Length::new(60)) {
        Ok(copy) => {
            same_at(rt, size, copy.as_slice(), [0x07u8; 60].as_slice());
            same_at(rt, size, reader.position(), Length::new(60));
            true
        }
        Err(error) => {
            same_at(rt, size, error, ErrorKind::OutOfMemory.to_error());
            same_at(rt, size, reader.position(), Length::ZERO);
            holds_at(rt, size, !reader.is_failed());
            false
        }
    }
}

#[test]
fn a_copy_without_memory_leaves_the_reader_where_it_is(rt: HostRuntime) -> Result<(), Fail> {
    let octets = [0x07u8; 60];
    let (mut borrowed, mut filled) = ([false, false], [false, false]);
    for size in SIZES {
        let heap = LocalHeap::new(rt.alloc(), size)?;
        borrowed[copy_sixty(&rt, &heap, der_reader(&octets)?, size) as usize] = true;
        filled[copy_sixty(&rt, &heap, der_not_borrowed(&octets)?, size) as usize] = true;
        same_at(&rt, size, heap.used(), 0);
    }
    // each failed once and copied once
    same(&rt, borrowed, [true, true]);
    same(&rt, filled, [true, true]);
    Ok(())
}
