//! Elements cut at each length.
use super::*;
use crate::checks::same_at;
use crate::fixtures::errors::{incomplete, trailing};

// The error of the first octets of an element.
fn refusal(alloc: Global, octets: &[u8]) -> Option<Error> {
    of_ber(alloc, octets).err()
}

#[test]
fn definite_elements_end_early(rt: HostRuntime) {
    let rows: [&[u8]; 3] = [&PRIMITIVE, &DEFINITE, &[0x04, 1, 0xAA]];
    for octets in rows {
        for count in 0..octets.len() {
            let left = count as u32;
            let error = incomplete(left + 1, left, left);
            same_at(&rt, count, refusal(rt.alloc(), &octets[..count]), Some(error));
        }
    }
}

// The scan for the end of the contents finds where octets are missing: one more octet for an
// identifier, a length or end-of-contents, and all octets of the contents of a segment.
#[test]
fn indefinite_elements_end_early(rt: HostRuntime) {
    let errors: [Error; 11] = [
        incomplete(1, 0, 0),
        incomplete(2, 1, 1),
        incomplete(3, 2, 2),
        incomplete(4, 3, 3),
        incomplete(6, 4, 4),
        incomplete(6, 5, 4),
        incomplete(7, 6, 6),
        incomplete(8, 7, 7),
        incomplete(9, 8, 8),
        incomplete(10, 9, 9),
        incomplete(11, 10, 10),
    ];
    for (count, error) in errors.into_iter().enumerate() {
        same_at(&rt, count, refusal(rt.alloc(), &INDEFINITE[..count]), Some(error));
    }
    same_at(&rt, 11, refusal(rt.alloc(), &INDEFINITE), None);
}

#[test]
fn octets_after_an_element_are_refused(rt: HostRuntime) {
    let rows: [(&[u8], Error); 3] = [
        (&[0x04, 0, 0], trailing(2, 1)),
        (&[0x24, 0, 0], trailing(2, 1)),
        (&[0x24, 0x80, 0, 0, 0xAA, 0xBB], trailing(4, 2)),
    ];
    for (row, (octets, error)) in rows.into_iter().enumerate() {
        same_at(&rt, row, refusal(rt.alloc(), octets), Some(error));
    }
}
