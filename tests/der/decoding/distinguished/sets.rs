//! A SET OF OCTET STRING: sorted and written, and read in order.
use super::*;
use crate::checks::{same, same_at, same_octets};
use der::BytesRef;
use der::example::BorrowedOctets;
use example_calls::set_of::{set_of_contents, set_of_der};
use std::process::Abort;

// An OCTET STRING of these octets.
fn string(octets: &[u8]) -> Result<BorrowedOctets<'_>, Error> {
    let octets = BytesRef::new(octets)?;
    Ok(BorrowedOctets { octets })
}

// A string of each of these octets.
fn strings<'a>(alloc: Global, list: &[&'a [u8]]) -> Result<Vec<BorrowedOctets<'a>>, Fail> {
    let mut elements = Vec::new(alloc);
    for octets in list {
        elements.push(string(*octets)?)?;
    }
    Ok(elements)
}

fn same_strings(rt: &impl Abort, strings: &[BorrowedOctets<'_>], expected: &[&[u8]]) {
    same(rt, strings.len(), expected.len());
    for (string, octets) in strings.iter().zip(expected.iter()) {
        same_octets(rt, string.octets.as_slice(), *octets);
    }
}

// The encoding of a SET OF these elements.
fn set_of(alloc: Global, elements: &mut [BorrowedOctets<'_>]) -> Result<Vec<u8>, Error> {
    set_of_der(alloc, elements)
}

// Reads the octets as exactly one SET OF, and returns its contents.
fn contents_of(alloc: Global, octets: &[u8]) -> Result<&[u8], Error> {
    set_of_contents(alloc, octets)
}

// The error of reading the octets.
fn refusal(alloc: Global, octets: &[u8]) -> Option<Error> {
    contents_of(alloc, octets).err()
}

#[test]
fn elements_are_sorted_and_written_as_a_set_of(rt: HostRuntime) -> Result<(), Fail> {
    let octets: [&[u8]; 4] = [&[0xFF], &[0x00, 0x00], &[], &[0xFF]];
    let mut elements = strings(rt.alloc(), &octets)?;
    let want = [
        0x31, 0x0C, 0x04, 0x00, 0x04, 0x01, 0xFF, 0x04, 0x01, 0xFF, 0x04, 0x02, 0x00, 0x00,
    ];
    let der = set_of(rt.alloc(), elements.as_mut_slice())?;
    same_octets(&rt, der.as_slice(), &want);
    let sorted: [&[u8]; 4] = [&[], &[0xFF], &[0xFF], &[0x00, 0x00]];
    same_strings(&rt, elements.as_slice(), &sorted);
    let contents = contents_of(rt.alloc(), der.as_slice())?;
    same_octets(&rt, contents, &want[2..]);
    Ok(())
}

#[test]
fn a_set_of_no_elements_is_read_and_written(rt: HostRuntime) -> Result<(), Fail> {
    let der = set_of(rt.alloc(), &mut [])?;
    same_octets(&rt, der.as_slice(), &[0x31, 0x00]);
    let contents = contents_of(rt.alloc(), &[0x31, 0x00])?;
    same_octets(&rt, contents, &[]);
    Ok(())
}

// 127 octets, `04 7F ..`, come before 128, `04 81 80 ..`.
#[test]
fn an_element_of_127_octets_is_sorted_before_one_of_128(rt: HostRuntime) -> Result<(), Fail> {
    let zeros = [0x00; 128];
    let ones = [0xFF; 127];
    let octets: [&[u8]; 2] = [&zeros, &ones];
    let mut elements = strings(rt.alloc(), &octets)?;
    let mut want = Vec::from_slice(rt.alloc(), &[0x31, 0x82, 0x01, 0x04, 0x04, 0x7F])?;
    want.extend_from_slice(&ones)?;
    want.extend_from_slice(&[0x04, 0x81, 0x80])?;
    want.extend_from_slice(&zeros)?;
    let der = set_of(rt.alloc(), elements.as_mut_slice())?;
    same_octets(&rt, der.as_slice(), want.as_slice());
    let contents = contents_of(rt.alloc(), der.as_slice())?;
    same_octets(&rt, contents, &want.as_slice()[4..]);
    Ok(())
}

// 257 elements of about 2^24 octets, which all borrow the same octets.
#[test]
fn more_contents_than_a_length_counts_overflow(rt: HostRuntime) -> Result<(), Fail> {
    let octets = vec![in rt.alloc(); 0u8; 16777216]?;
    let mut elements = Vec::new(rt.alloc());
    for fewer in 0..257 {
        elements.push(string(&octets.as_slice()[fewer..])?)?;
    }
    let refused = set_of(rt.alloc(), elements.as_mut_slice()).err();
    same(&rt, refused, Some(ErrorKind::Overflow.to_error()));
    Ok(())
}

#[test]
fn equal_elements_may_occur_in_a_set_of(rt: HostRuntime) -> Result<(), Fail> {
    let octets = [0x31, 0x06, 0x04, 0x01, 0xFF, 0x04, 0x01, 0xFF];
    let contents = contents_of(rt.alloc(), &octets)?;
    same_octets(&rt, contents, &octets[2..]);
    Ok(())
}

#[test]
fn an_element_that_falls_is_refused_where_it_begins(rt: HostRuntime) {
    let rows: [(&[u8], u32); 5] = [
        (&[0x31, 0x07, 0x04, 0x02, 0x00, 0x00, 0x04, 0x01, 0xFF], 6),
        (
            // the third
            &[
                0x31, 0x09, 0x04, 0x00, 0x04, 0x02, 0x00, 0x00, 0x04, 0x01, 0xFF,
            ],
            8,
        ),
        (
            // as long as the one before
            &[0x31, 0x06, 0x04, 0x01, 0x02, 0x04, 0x01, 0x01],
            5,
        ),
        (
            // the second and the third
            &[
                0x31, 0x09, 0x04, 0x02, 0x00, 0x00, 0x04, 0x01, 0xFF, 0x04, 0x00,
            ],
            6,
        ),
        (
            // before another tag
            &[0x31, 0x07, 0x04, 0x01, 0xFF, 0x04, 0x00, 0x05, 0x00],
            5,
        ),
    ];
    for (octets, position) in rows {
        let falling = ErrorKind::SetOrdering.at(Length::new(position));
        same_at(&rt, position, refusal(rt.alloc(), octets), Some(falling));
    }
}

#[test]
fn octets_that_are_no_set_of_octet_strings_are_refused(rt: HostRuntime) {
    let rows: [(&[u8], Error); 6] = [
        (&[0x30, 0x00], unexpected(Tag::Set, Tag::Sequence)),
        (
            &[0x31, 0x03, 0x02, 0x01, 0x00],
            unexpected(Tag::OctetString, Tag::Integer),
        ),
        (&[0x31, 0x02, 0x04, 0x00, 0x05], trailing(4, 1)),
        (&[0x31, 0x03, 0x04, 0x01], incomplete(5, 4, 4)),
        (&[0x31, 0x02, 0x04, 0x01, 0xFF], incomplete(5, 4, 4)),
        (&[], incomplete(1, 0, 0)),
    ];
    for (octets, error) in rows {
        same_at(&rt, error, refusal(rt.alloc(), octets), Some(error));
    }
}
