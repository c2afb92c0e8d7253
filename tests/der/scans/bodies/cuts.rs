//! Elements of indefinite length, truncated after each of their octets.
use super::*;
use crate::checks::{same, same_at};
use crate::der::scans::readers::next_element;
use std::process::Abort;

// Reading the header of truncated octets gives this error. A reader fails only if the truncation is
// in the header; reading an element leaves it unchanged.
fn cut(rt: &impl Abort, octets: &[u8], error: Error) -> Result<(), Error> {
    cut_header(rt, ber_reader(octets)?, error);
    cut_header(rt, ber_not_borrowed(octets)?, error);
    let mut reader = ber_reader(octets)?;
    let end = u32::from(reader.input_len());
    same_at(rt, end, next_element(&mut reader).err(), Some(error));
    same_at(rt, end, reader.place(), (0, end, false));
    Ok(())
}

fn cut_header<R: Reader>(rt: &impl Abort, mut reader: R, error: Error) {
    let end = u32::from(reader.input_len());
    same_at(rt, end, decode_header(&mut reader), Err(error));
    same_at(rt, end, place_of(&reader), (end.min(2), end, end < 2));
}

#[test]
fn each_cut_of_a_body_in_a_body_is_refused(rt: HostRuntime) -> Result<(), Fail> {
    // how many octets there are, how many are needed, and where
    let rows = [
        (0u32, 1, 0),
        (1, 2, 1),
        (2, 3, 2),
        (3, 4, 3),
        (4, 5, 4),
        (5, 6, 5),
        (6, 8, 6),
        (7, 8, 6),
        (8, 9, 8),
        (9, 10, 9),
        (10, 11, 10),
        (11, 12, 11),
    ];
    for (count, wanted, position) in rows {
        let octets = first_octets(&SEGMENT_OF_ZEROS, count as usize);
        cut(&rt, octets, incomplete(wanted, count, position))?;
    }
    let mut whole = ber_reader(&SEGMENT_OF_ZEROS)?;
    same(&rt, next_element(&mut whole)?, SEGMENT_OF_ZEROS.as_slice());
    same(&rt, whole.place(), (12, 12, false));
    Ok(())
}

// Contents from position 4 to 130 are consumed in steps of sixteen octets, of which the last has
// fourteen. A truncation is reported at the position where its step begins, with the position where
// the step ends.
#[test]
fn each_cut_of_a_long_body_is_refused_at_its_step_of_16(rt: HostRuntime) -> Result<(), Fail> {
    let octets = around_contents(rt.alloc(), 126)?;
    let octets = octets.as_slice();
    for count in [0u32, 1, 2, 3, 130, 131] {
        let error = incomplete(count + 1, count, count);
        cut(&rt, first_octets(octets, count as usize), error)?;
    }
    for (start, end) in [
        (4u32, 20u32),
        (20, 36),
        (36, 52),
        (52, 68),
        (68, 84),
        (84, 100),
        (100, 116),
        (116, 130),
    ] {
        for count in start..end {
            let error = incomplete(end, count, start);
            cut(&rt, first_octets(octets, count as usize), error)?;
        }
    }
    let mut whole = ber_reader(octets)?;
    same(&rt, next_element(&mut whole)?, octets);
    same(&rt, whole.place(), (132, 132, false));
    Ok(())
}
