//! Tags that are the whole input.
use super::*;
use crate::checks::{same, same_at};
use crate::fixtures::encodings::{WRONG_TAG_NUMBERS, tags};
use crate::fixtures::errors::{invalid_number, unknown};

// Reads the octets as exactly one tag.
fn tag_of(alloc: Global, bytes: &[u8]) -> Result<Tag, Error> {
    value_of(alloc, bytes)
}

#[test]
fn tags_are_read_and_written(rt: HostRuntime) -> Result<(), Fail> {
    for (tag, octets) in tags() {
        same_at(&rt, tag, tag_of(rt.alloc(), octets), Ok(tag));
        let der = der_of(rt.alloc(), &tag)?;
        same_at(&rt, tag, der.as_slice(), octets);
    }
    Ok(())
}

#[test]
fn wrong_tag_numbers_are_refused(rt: HostRuntime) {
    for (octets, position) in WRONG_TAG_NUMBERS {
        let invalid = Err(invalid_number(position));
        same_at(&rt, position, tag_of(rt.alloc(), octets), invalid);
    }
}

#[test]
fn unknown_and_cut_tags_are_refused(rt: HostRuntime) {
    let alloc = rt.alloc();
    for byte in [0x3F, 0x21] {
        same(&rt, tag_of(alloc, &[byte]), Err(unknown(byte, 1)));
    }
    same(&rt, tag_of(alloc, &[0x5F, 0x9E]), Err(incomplete(3, 2, 2)));
    same(&rt, tag_of(alloc, &[]), Err(incomplete(1, 0, 0)));
}

#[test]
fn octets_after_a_tag_are_rejected(rt: HostRuntime) {
    same(
        &rt,
        tag_of(rt.alloc(), &[0x7F, 0x21, 0x00]),
        Err(trailing(2, 1)),
    );
}
