//! A writer that counts its writes, on which the generic calls run a second time.

use super::month::september;
use super::*;
use crate::checks::same;
use der::{Encode, EncodeValue, encode_tlv};
use test_fixtures::counter::Counter;

#[test]
fn a_header_is_written_by_three_writes(rt: HostRuntime) {
    let header = Header::new(Tag::Sequence, Length::new(256));
    let mut counter = Counter::new(rt.alloc());
    same(&rt, header.encode(&mut counter), Ok(()));
    same(
        &rt,
        counter.octets.as_slice(),
        [0x30, 0x82, 0x01, 0x00].as_slice(),
    );
    same(&rt, counter.writes, 3);
}

#[test]
fn a_long_tag_is_written_an_octet_at_a_time(rt: HostRuntime) {
    let mut counter = Counter::new(rt.alloc());
    let tag = TagNumber(16385).application(false);
    same(&rt, tag.encode(&mut counter), Ok(()));
    same(
        &rt,
        counter.octets.as_slice(),
        [0x5F, 0x81, 0x80, 0x01].as_slice(),
    );
    same(&rt, counter.writes, 4);
}

#[test]
fn an_element_is_written_by_three_writes(rt: HostRuntime) -> Result<(), Fail> {
    let month = september()?;
    let mut counter = Counter::new(rt.alloc());
    same(&rt, encode_tlv(&month, &mut counter), Ok(()));
    same(
        &rt,
        counter.octets.as_slice(),
        [0x04, 0x01, 0x09].as_slice(),
    );
    same(&rt, counter.writes, 3);
    same(&rt, month.encode_value(&mut counter), Ok(()));
    same(&rt, counter.writes, 4);
    Ok(())
}
