//! Octets that are no parcels.
use super::octets::{FULL, SMALL, UNSORTED, WITH_TRAILING, WITH_UNIVERSAL};
use crate::checks::{holds, same_at};
use der::DecodeBytes;
use example_parcels::Parcel;
use std::alloc::Global;

fn is_refused(alloc: Global, octets: &[u8]) -> bool {
    Parcel::from_der(alloc, octets).is_err()
}

// Whether the octets are refused with this one at this index.
fn is_refused_with<const N: usize>(
    alloc: Global,
    octets: &[u8; N],
    index: usize,
    octet: u8,
) -> bool {
    let mut changed = *octets;
    changed[index] = octet;
    is_refused(alloc, &changed)
}

// The weight is at 7 and 8.
#[test]
fn a_weight_is_from_1_to_30000_grams(rt: HostRuntime) {
    for (row, high, low, refused) in [
        ("0", 0x00, 0x00, true),
        ("128", 0x00, 0x80, false),
        ("30000", 0x75, 0x30, false),
        ("30001", 0x75, 0x31, true),
        ("-256", 0xFF, 0x00, true),
    ] {
        let mut changed = SMALL;
        changed[7] = high;
        changed[8] = low;
        same_at(&rt, row, is_refused(rt.alloc(), &changed), refused);
    }
}

#[test]
fn fields_of_other_types_are_refused(rt: HostRuntime) {
    for (row, index, octet) in [
        ("the length of all", 1, 0x1E),
        ("the tag of the sender", 11, 0xA2),
        ("a name that is not UTF-8", 15, 0xFF),
        ("a star in a PrintableString", 20, 0x2A),
        ("a SET of stops", 29, 0x31),
    ] {
        let refused = is_refused_with(rt.alloc(), &SMALL, index, octet);
        same_at(&rt, row, refused, true);
    }
}

#[test]
fn values_out_of_their_types_are_refused(rt: HostRuntime) {
    for (row, index, octet) in [
        ("version 3", 7, 2),
        ("an unknown packing", 25, 3),
        ("a last bit that is 0", 29, 0x80),
        ("a BOOLEAN that is neither", 32, 1),
    ] {
        let refused = is_refused_with(rt.alloc(), &FULL, index, octet);
        same_at(&rt, row, refused, true);
    }
}

#[test]
fn defaults_that_are_written_are_refused(rt: HostRuntime) {
    for (row, index, octet) in [
        ("version 1", 7, 0),
        ("a box", 25, 1),
        ("not opened", 32, 0),
        ("no attempts", 181, 0),
    ] {
        let refused = is_refused_with(rt.alloc(), &FULL, index, octet);
        same_at(&rt, row, refused, true);
    }
}

#[test]
fn what_the_module_does_not_allow_is_refused(rt: HostRuntime) {
    holds(&rt, is_refused(rt.alloc(), &UNSORTED));
    holds(&rt, is_refused(rt.alloc(), &WITH_UNIVERSAL));
    holds(&rt, is_refused(rt.alloc(), &WITH_TRAILING));
}
