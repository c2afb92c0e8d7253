//! Contents whose lengths have each of the forms.
use super::*;
use crate::checks::same_at;
use example_calls::my_octets::MyOctets;
use std::process::Abort;

// Reads the octets as exactly one element, and returns its contents.
fn contents_of(alloc: Global, octets: &[u8]) -> Result<&[u8], Error> {
    let borrowed: MyOctets<'_> = value_of(alloc, octets)?;
    Ok(borrowed.octets)
}

// The contents at the front, and the octets after them.
fn contents_at_front(alloc: Global, octets: &[u8]) -> Result<(&[u8], &[u8]), Error> {
    let (borrowed, rest): (MyOctets<'_>, &[u8]) = front_of(alloc, octets)?;
    Ok((borrowed.octets, rest))
}

// The first octets and then the second.
fn joined(alloc: Global, first: &[u8], second: &[u8]) -> Result<Vec<u8>, Fail> {
    let mut octets = Vec::from_slice(alloc, first)?;
    octets.extend_from_slice(second)?;
    Ok(octets)
}

// The contents are written after this header, and are read after it, whether or not an octet
// follows.
fn both_ways(rt: &impl Abort, alloc: Global, header: &[u8], contents: &[u8]) -> Result<(), Fail> {
    let count = contents.len();
    let want = joined(alloc, header, contents)?;
    let written = der_of(alloc, &MyOctets { octets: contents })?;
    same_at(rt, count, written.as_slice(), want.as_slice());
    same_at(rt, count, contents_of(alloc, want.as_slice()), Ok(contents));
    let more = joined(alloc, written.as_slice(), &[0xFF])?;
    let rest: &[u8] = &[0xFF];
    let read = contents_at_front(alloc, more.as_slice());
    same_at(rt, count, read, Ok((contents, rest)));
    Ok(())
}

#[test]
fn contents_after_each_form_of_length_are_read_and_written(rt: HostRuntime) -> Result<(), Fail> {
    let rows: [(usize, &[u8]); 8] = [
        (0, &[0x04, 0x00]),
        (1, &[0x04, 0x01]),
        (127, &[0x04, 0x7F]),
        (128, &[0x04, 0x81, 0x80]),
        (255, &[0x04, 0x81, 0xFF]),
        (256, &[0x04, 0x82, 0x01, 0x00]),
        (65535, &[0x04, 0x82, 0xFF, 0xFF]),
        (65536, &[0x04, 0x83, 0x01, 0x00, 0x00]),
    ];
    for (count, header) in rows {
        let contents = vec![in rt.alloc(); 0x2Au8; count]?;
        both_ways(&rt, rt.alloc(), header, contents.as_slice())?;
    }
    Ok(())
}
