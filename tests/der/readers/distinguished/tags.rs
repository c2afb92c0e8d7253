//! Tags that are read.
use super::*;
use crate::checks::{same, same_at};
use crate::fixtures::encodings::{WRONG_TAG_NUMBERS, tags};
use crate::fixtures::errors::{invalid_number, unknown};

fn tag(alloc: Global, bytes: &[u8]) -> Result<(Tag, usize), Error> {
    front::<Tag>(alloc, bytes)
}

#[test]
fn tags_are_read(rt: HostRuntime) {
    for (read, octets) in tags() {
        same_at(&rt, read, tag(rt.alloc(), octets), Ok((read, 0)));
    }
}

#[test]
fn octets_after_a_tag_are_left(rt: HostRuntime) {
    let read = Ok((Tag::OctetString, 1));
    same(&rt, tag(rt.alloc(), &[0x04, 0x02]), read);
}

#[test]
fn long_tags_with_a_wrong_number_are_refused(rt: HostRuntime) {
    for (octets, position) in WRONG_TAG_NUMBERS {
        let invalid = Err(invalid_number(position));
        same_at(&rt, position, tag(rt.alloc(), octets), invalid);
    }
}

#[test]
fn unknown_and_cut_tags_are_refused(rt: HostRuntime) {
    let alloc = rt.alloc();
    for byte in [0x3F, 0x21, 0x24, 0x00] {
        same_at(&rt, byte, tag(alloc, &[byte]), Err(unknown(byte, 1)));
    }
    same(&rt, tag(alloc, &[0x5F, 0x9E]), Err(incomplete(3, 2, 2)));
    same(&rt, tag(alloc, &[]), Err(incomplete(1, 0, 0)));
}
