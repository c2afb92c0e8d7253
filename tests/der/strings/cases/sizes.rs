//! Contents of every form of length.
use super::*;
use crate::checks::{holds, holds_at, same, same_at};
use crate::der::strings::elements::{
    borrowed_of_der, borrowed_to_der, joined_of_ber, joined_to_der, text_of_der, text_to_der,
};
use crate::der::strings::readers::next_header;

const COUNTS: [usize; 5] = [0, 1, 127, 128, 65536];

// The header of an element, and how many octets it has.
fn begun(alloc: Global, tag: u8, count: usize) -> Result<Vec<u8>, Fail> {
    let mut octets = Vec::from_slice(alloc, &[tag])?;
    match count {
        0..=127 => octets.push(count as u8)?,
        128 => octets.extend_from_slice(&[0x81, 0x80])?,
        _ => octets.extend_from_slice(&[0x83, 0x01, 0x00, 0x00])?,
    }
    for _ in 0..count {
        octets.push(0x61)?;
    }
    Ok(octets)
}

#[test]
fn octets_with_each_form_of_length_are_borrowed_and_written(rt: HostRuntime) -> Result<(), Fail> {
    let alloc = rt.alloc();
    for count in COUNTS {
        let octets = begun(alloc, 0x04, count)?;
        let borrowed = borrowed_of_der(alloc, octets.as_slice())?;
        same_at(&rt, count, borrowed.octets.as_slice().len(), count);
        let written = borrowed_to_der(alloc, &borrowed)?;
        same_at(&rt, count, written.as_slice(), octets.as_slice());
    }
    Ok(())
}

#[test]
fn octets_with_each_form_of_length_are_copied(rt: HostRuntime) -> Result<(), Fail> {
    let alloc = rt.alloc();
    for count in COUNTS {
        let octets = begun(alloc, 0x04, count)?;
        let mut reader = der_reader(octets.as_slice())?;
        let header = next_header(&mut reader)?;
        let owned = BytesOwned::decode_value(alloc, &mut reader, header)?;
        same_at(&rt, count, owned.as_slice().len(), count);
        holds_at(&rt, count, octets.as_slice().ends_with(owned.as_slice()));
        same_at(&rt, count, reader.finish(), Ok(()));
    }
    Ok(())
}

#[test]
fn texts_with_each_form_of_length_are_read_and_written(rt: HostRuntime) -> Result<(), Fail> {
    let alloc = rt.alloc();
    for count in COUNTS {
        let octets = begun(alloc, 0x0C, count)?;
        let owned = text_of_der(alloc, octets.as_slice())?;
        same_at(&rt, count, owned.text.as_bytes().len(), count);
        same_at(
            &rt,
            count,
            text_to_der(alloc, &owned)?.as_slice(),
            octets.as_slice(),
        );
    }
    same(&rt, begun(alloc, 0x0C, 65536)?.len(), 65541);
    Ok(())
}

// An element of indefinite length whose contents are these segments.
fn around(alloc: Global, segments: &[u8]) -> Result<Vec<u8>, Fail> {
    let mut octets = Vec::from_slice(alloc, &[0x24, 0x80])?;
    octets.extend_from_slice(segments)?;
    octets.extend_from_slice(&[0x00, 0x00])?;
    Ok(octets)
}

#[test]
fn a_segment_with_each_form_of_length_is_joined_and_written(rt: HostRuntime) -> Result<(), Fail> {
    let alloc = rt.alloc();
    for count in COUNTS {
        let segment = begun(alloc, 0x04, count)?;
        let octets = around(alloc, segment.as_slice())?;
        let joined = joined_of_ber(alloc, octets.as_slice())?;
        same_at(&rt, count, joined.octets.as_slice().len(), count);
        same_at(
            &rt,
            count,
            joined_to_der(alloc, &joined)?.as_slice(),
            segment.as_slice(),
        );
    }
    Ok(())
}

// Segments in sequence, whatever their numbers of octets.
#[test]
fn segments_with_all_forms_of_length_are_joined_to_one(rt: HostRuntime) -> Result<(), Fail> {
    let alloc = rt.alloc();
    let mut segments = Vec::new(alloc);
    for count in [65536usize, 0, 128, 127, 1, 65536] {
        segments.extend_from_slice(begun(alloc, 0x04, count)?.as_slice())?;
    }
    let octets = around(alloc, segments.as_slice())?;
    let joined = joined_of_ber(alloc, octets.as_slice())?;
    same(&rt, joined.octets.as_slice().len(), 131328);
    holds(
        &rt,
        joined.octets.as_slice().iter().all(|octet| *octet == 0x61),
    );
    Ok(())
}

// More levels of nesting make no difference.
#[test]
fn octets_inside_64_parts_are_read(rt: HostRuntime) -> Result<(), Fail> {
    let octets = [0x01, 0x02];
    let mut reader = ber_reader(&octets)?;
    for _ in 0..64 {
        reader.enter_nested(Length::new(2))?;
    }
    let bytes = BytesRef::decode_value(rt.alloc(), &mut reader, header_of(2))?;
    same(&rt, bytes.as_slice(), octets.as_slice());
    same(&rt, reader.place(), (2, 2, false));
    Ok(())
}
