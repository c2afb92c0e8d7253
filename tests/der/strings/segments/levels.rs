//! Nested segments, at the maximum depth and one deeper.
use super::*;
use crate::checks::{same, same_at};
use crate::der::strings::elements::joined_of_ber;
use crate::fixtures::errors::too_deep;
use std::process::Abort;

/// Which levels have an indefinite length, counted from the innermost.
#[derive(Clone, Copy)]
pub enum Forms {
    /// None.
    Definite,
    /// Each.
    Indefinite,
    /// The innermost, and then every second.
    Alternating,
}

impl Forms {
    fn is_indefinite(self, level: usize) -> bool {
        match self {
            Forms::Definite => false,
            Forms::Indefinite => true,
            Forms::Alternating => level % 2 == 0,
        }
    }
}

// A segment with these octets inside it.
fn around(alloc: Global, octets: &[u8], indefinite: bool) -> Result<Vec<u8>, Fail> {
    let mut segment = Vec::from_slice(alloc, &[0x24])?;
    let count = octets.len();
    match count {
        _ if indefinite => segment.push(0x80)?,
        0..=127 => segment.push(count as u8)?,
        128..=255 => segment.extend_from_slice(&[0x81, count as u8])?,
        _ => segment.extend_from_slice(&[0x82, (count / 256 % 256) as u8, (count % 256) as u8])?,
    }
    segment.extend_from_slice(octets)?;
    if indefinite {
        segment.extend_from_slice(&[0x00, 0x00])?;
    }
    Ok(segment)
}

/// `levels` nested segments, and these octets in the innermost.
pub fn nested(alloc: Global, forms: Forms, levels: usize, octets: &[u8]) -> Result<Vec<u8>, Fail> {
    let mut segments = Vec::from_slice(alloc, octets)?;
    for level in 0..levels {
        segments = around(alloc, segments.as_slice(), forms.is_indefinite(level))?;
    }
    Ok(segments)
}

const SEGMENT: [u8; 3] = [0x04, 0x01, 0x2A];

// The joined octets of exactly one element.
fn whole(rt: &impl Abort, alloc: Global, row: usize, octets: &[u8], answer: Result<&[u8], Error>) {
    match joined_of_ber(alloc, octets) {
        Ok(joined) => same_at(rt, row, Ok(joined.octets.as_slice()), answer),
        Err(error) => same_at(rt, row, Err(error), answer),
    }
}

#[test]
fn segments_are_joined_up_to_64_levels_deep(rt: HostRuntime) -> Result<(), Fail> {
    let alloc = rt.alloc();
    for forms in [Forms::Definite, Forms::Indefinite, Forms::Alternating] {
        for levels in [1, 2, 3, 32, 63, 64] {
            let octets = nested(alloc, forms, levels, &SEGMENT)?;
            whole(&rt, alloc, levels, octets.as_slice(), Ok(&[0x2A]));
            let octets = nested(alloc, forms, levels, &[])?;
            whole(&rt, alloc, levels, octets.as_slice(), Ok(&[]));
        }
    }
    Ok(())
}

// The innermost has 2 octets, each around it 2 more, and the outermost a length of two octets.
#[test]
fn the_65th_definite_level_is_refused(rt: HostRuntime) -> Result<(), Fail> {
    let octets = nested(rt.alloc(), Forms::Definite, 64, &[])?;
    same(&rt, octets.len(), 128);
    same(&rt, octets.as_slice().first(), Some(&0x24));
    same(&rt, octets.as_slice().get(1), Some(&0x7E));
    let octets = nested(rt.alloc(), Forms::Definite, 65, &[])?;
    same(&rt, octets.len(), 131);
    whole(&rt, rt.alloc(), 65, octets.as_slice(), Err(too_deep(131)));
    Ok(())
}

// The scan sees all 65 from the first on.
#[test]
fn the_65th_indefinite_level_is_refused_by_the_scan(rt: HostRuntime) -> Result<(), Fail> {
    let octets = nested(rt.alloc(), Forms::Indefinite, 65, &[])?;
    same(&rt, octets.len(), 260);
    whole(&rt, rt.alloc(), 65, octets.as_slice(), Err(too_deep(130)));
    Ok(())
}

// No scan enters definite contents: the innermost of 65 fails when it is entered, after all
// headers. Of these 33 are indefinite, and each ends with two octets.
#[test]
fn the_65th_level_of_either_form_is_refused_on_entering_it(rt: HostRuntime) -> Result<(), Fail> {
    let octets = nested(rt.alloc(), Forms::Alternating, 65, &SEGMENT)?;
    let headers = count_of(octets.as_slice())?.saturating_sub(66 + 3);
    whole(
        &rt,
        rt.alloc(),
        65,
        octets.as_slice(),
        Err(too_deep(headers)),
    );
    Ok(())
}

// Each scan sees 64 levels, but the reader is already inside a part.
#[test]
fn a_definite_level_has_space_for_63_indefinite_ones_inside(rt: HostRuntime) -> Result<(), Fail> {
    let alloc = rt.alloc();
    let inside = nested(alloc, Forms::Indefinite, 63, &[])?;
    let octets = around(alloc, inside.as_slice(), false)?;
    whole(&rt, alloc, 63, octets.as_slice(), Ok(&[]));
    let inside = nested(alloc, Forms::Indefinite, 64, &[])?;
    let octets = around(alloc, inside.as_slice(), false)?;
    same(&rt, octets.len(), 260);
    whole(&rt, alloc, 64, octets.as_slice(), Err(too_deep(132)));
    Ok(())
}

// The joined segments of a reader inside this number of parts.
fn inside_parts<R: Reader + Joins>(
    rt: &impl Abort,
    alloc: Global,
    mut reader: R,
    parts: u32,
    answer: Result<&[u8], Error>,
    place: (u32, bool),
) -> Result<(), Error> {
    let (position, failed) = place;
    let length = reader.input_len();
    for _ in 0..parts {
        reader.enter_nested(length)?;
    }
    let joined = reader.join(alloc, length, Tag::OctetString);
    same_at(rt, parts, view(&joined), answer);
    same_at(
        rt,
        parts,
        reader.place(),
        (position, u32::from(length), failed),
    );
    Ok(())
}

#[test]
fn a_reader_inside_parts_joins_the_levels_that_are_left(rt: HostRuntime) -> Result<(), Fail> {
    let alloc = rt.alloc();
    for parts in [0usize, 1, 32, 63, 64] {
        let fitting = nested(alloc, Forms::Definite, 64 - parts, &SEGMENT)?;
        let octets = fitting.as_slice();
        let end = count_of(octets)?;
        let read = Ok([0x2A].as_slice());
        inside_parts(
            &rt,
            alloc,
            ber_reader(octets)?,
            parts as u32,
            read,
            (end, false),
        )?;
        inside_parts(
            &rt,
            alloc,
            ber_not_borrowed(octets)?,
            parts as u32,
            read,
            (end, false),
        )?;
        let deeper = nested(alloc, Forms::Definite, 65 - parts, &SEGMENT)?;
        let octets = deeper.as_slice();
        let headers = count_of(octets)?.saturating_sub(3);
        let refused = Err(too_deep(headers));
        inside_parts(
            &rt,
            alloc,
            ber_reader(octets)?,
            parts as u32,
            refused,
            (headers, true),
        )?;
        inside_parts(
            &rt,
            alloc,
            ber_not_borrowed(octets)?,
            parts as u32,
            refused,
            (headers, true),
        )?;
    }
    Ok(())
}
