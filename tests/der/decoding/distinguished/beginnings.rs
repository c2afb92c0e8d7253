//! Decoding needs all the octets that it consumes: it fails on each proper prefix of them.
use super::rows::{Kind, ROWS};
use super::*;
use crate::checks::same_at;
use test_fixtures::nest::Nest;
use der::EncodingRules;
use der::example::{BorrowedOctets, JoinedOctets, OwnedText};
use crate::fixtures::bodies::{around_contents, around_null, first_octets};
use crate::fixtures::encodings::{LENGTHS, tags};
use std::process::Abort;

// How many octets are consumed, or `None` on an error.
fn passed(alloc: Global, kind: Kind, rules: EncodingRules, octets: &[u8]) -> Option<u32> {
    let reader = SliceReader::new_with_encoding_rules(octets, rules).ok()?;
    match kind {
        Kind::Tag => passed_by::<Tag>(alloc, reader),
        Kind::Length => passed_by::<Length>(alloc, reader),
        Kind::Header => passed_by::<Header>(alloc, reader),
        Kind::Month => passed_by::<MyByteMonth>(alloc, reader),
        Kind::Borrowed => passed_by::<BorrowedOctets<'_>>(alloc, reader),
        Kind::Text => passed_by::<OwnedText>(alloc, reader),
        Kind::Joined => passed_by::<JoinedOctets>(alloc, reader),
        Kind::Nest => passed_by::<Nest<63>>(alloc, reader),
        Kind::Element => element_passed(reader),
    }
}

fn passed_by<'a, T: Decode<SliceReader<'a>>>(
    alloc: Global,
    mut reader: SliceReader<'a>,
) -> Option<u32> {
    let _ = T::decode(alloc, &mut reader).ok()?;
    Some(u32::from(reader.position()))
}

fn element_passed(mut reader: SliceReader<'_>) -> Option<u32> {
    let element = reader.tlv_bytes().ok()?;
    Some(element.len() as u32)
}

// This number of octets is consumed, and no proper prefix of them is enough.
fn wants_all(
    rt: &impl Abort,
    alloc: Global,
    (kind, rules, octets, count): (Kind, EncodingRules, &[u8], u32),
) {
    same_at(rt, count, passed(alloc, kind, rules, octets), Some(count));
    for begun in 0..count {
        let beginning = first_octets(octets, begun as usize);
        same_at(rt, begun, passed(alloc, kind, rules, beginning), None);
    }
}

#[test]
fn each_beginning_of_what_the_worked_cases_decode_is_refused(rt: HostRuntime) {
    for row in ROWS {
        wants_all(&rt, rt.alloc(), row);
    }
}

// Under the Distinguished Encoding Rules all of these octets are consumed.
fn wants_whole(rt: &impl Abort, alloc: Global, kind: Kind, octets: &[u8]) -> Result<(), Error> {
    let count = u32::from(Length::new_usize(octets.len())?);
    wants_all(rt, alloc, (kind, EncodingRules::Der, octets, count));
    Ok(())
}

#[test]
fn each_beginning_of_a_tag_and_of_a_length_is_refused(rt: HostRuntime) -> Result<(), Fail> {
    for (_, octets) in tags() {
        wants_whole(&rt, rt.alloc(), Kind::Tag, octets)?;
    }
    for (_, octets) in LENGTHS {
        wants_whole(&rt, rt.alloc(), Kind::Length, octets)?;
    }
    Ok(())
}

// Indefinite-length contents, whose octets are made here.
#[test]
fn each_beginning_of_a_long_body_is_refused(rt: HostRuntime) -> Result<(), Fail> {
    let alloc = rt.alloc();
    let ber = EncodingRules::Ber;
    let steps = around_contents(alloc, 126)?;
    wants_all(&rt, alloc, (Kind::Element, ber, steps.as_slice(), 132));
    let deep = around_null(alloc, 64)?;
    wants_all(&rt, alloc, (Kind::Header, ber, deep.as_slice(), 2));
    wants_all(&rt, alloc, (Kind::Element, ber, deep.as_slice(), 258));
    Ok(())
}
