//! What a walk over a list or a set of integers returns.
use der_asn1::{IntRef, Items};
use std::alloc::Global;

/// The first two integers, and whether that is all.
pub type FirstTwo<'a> = (Option<&'a [u8]>, Option<&'a [u8]>, bool);

// The contents of the next integer.
fn next<'a>(alloc: Global, items: &mut Items<'a, IntRef<'a>>) -> Option<&'a [u8]> {
    match items.next(alloc) {
        Ok(Some(item)) => Some(item.octets()),
        Ok(None) | Err(_) => None,
    }
}

/// The first two integers of a walk, and whether that is all.
pub fn first_two<'a>(alloc: Global, mut items: Items<'a, IntRef<'a>>) -> FirstTwo<'a> {
    let first = next(alloc, &mut items);
    let second = next(alloc, &mut items);
    (first, second, next(alloc, &mut items).is_none())
}
