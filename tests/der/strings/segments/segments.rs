//! Segments up to the end of the input.
use super::*;
use crate::checks::same_at;
use std::process::Abort;

// The joined segments, or their error, and the place of the reader then.
fn joining<R: Joins>(
    rt: &impl Abort,
    alloc: Global,
    mut reader: R,
    answer: Result<&[u8], Error>,
    place: (u32, bool),
) {
    let (position, failed) = place;
    let (_, end, _) = reader.place();
    let length = Length::new_indefinite(5);
    let joined = reader.join(alloc, length, Tag::OctetString);
    same_at(rt, end, view(&joined), answer);
    same_at(rt, end, reader.place(), (position, end, failed));
}

// Segments are joined so, whether the reader returns slices or not.
fn joining_each(
    rt: &impl Abort,
    alloc: Global,
    octets: &[u8],
    answer: Result<&[u8], Error>,
    place: (u32, bool),
) -> Result<(), Error> {
    joining(rt, alloc, ber_reader(octets)?, answer, place);
    joining(rt, alloc, ber_not_borrowed(octets)?, answer, place);
    Ok(())
}

// Primitive segments are treated equally under both rules.
fn joining_primitive(
    rt: &impl Abort,
    alloc: Global,
    octets: &[u8],
    answer: Result<&[u8], Error>,
    place: (u32, bool),
) -> Result<(), Error> {
    joining_each(rt, alloc, octets, answer, place)?;
    joining(rt, alloc, der_reader(octets)?, answer, place);
    joining(rt, alloc, der_not_borrowed(octets)?, answer, place);
    Ok(())
}

#[test]
fn primitive_segments_are_joined_under_both_rules(rt: HostRuntime) -> Result<(), Fail> {
    // the segments, their joined octets, and their number of octets
    let rows: [(&[u8], &[u8], u32); 6] = [
        (&[], &[], 0u32),
        (&[0x04, 0x00], &[], 2),
        (&[0x04, 0x01, 0x2A], &[0x2A], 3),
        (&[0x04, 0x01, 0x2A, 0x04, 0x00], &[0x2A], 5),
        (&[0x04, 0x00, 0x04, 0x01, 0x2A], &[0x2A], 5),
        (
            &[0x04, 0x02, 0x02, 0x01, 0x04, 0x01, 0x00, 0x04, 0x01, 0x02],
            &[0x02, 0x01, 0x00, 0x02],
            10,
        ),
    ];
    for (octets, joined, end) in rows {
        joining_primitive(&rt, rt.alloc(), octets, Ok(joined), (end, false))?;
    }
    Ok(())
}

#[test]
fn cut_segments_are_refused_under_both_rules(rt: HostRuntime) -> Result<(), Fail> {
    let rows: [(&[u8], Error, (u32, bool)); 8] = [
        (&[0x04], incomplete(2, 1, 1), (1, true)),
        (&[0x04, 0x00, 0x04], incomplete(4, 3, 3), (3, true)),
        (&[0x04, 0x01], incomplete(3, 2, 2), (2, true)),
        (&[0x04, 0x05, 0xAA], incomplete(7, 3, 2), (2, true)),
        (&[0x04, 0x82, 0x01], incomplete(4, 3, 3), (3, true)),
        (
            &[0x04, 0x01, 0xAA, 0x04, 0x02, 0xBB],
            incomplete(7, 6, 5),
            (5, true),
        ),
        (
            &[0x04, 0x84, 0xFF, 0xFF, 0xFF, 0xF9, 0xAA],
            incomplete(4294967295, 7, 6),
            (6, true),
        ),
        (
            &[0x04, 0x84, 0xFF, 0xFF, 0xFF, 0xFA, 0xAA],
            ErrorKind::Overflow.to_error(),
            (6, false),
        ),
    ];
    for (octets, error, place) in rows {
        joining_primitive(&rt, rt.alloc(), octets, Err(error), place)?;
    }
    Ok(())
}

#[test]
fn segments_with_wrong_headers_are_refused(rt: HostRuntime) -> Result<(), Fail> {
    let string = Tag::OctetString;
    let rows: [(&[u8], Error, (u32, bool)); 5] = [
        (&[0x3F, 0x00], unknown(0x3F, 1), (1, true)),
        (&[0x1F, 0x00], invalid_number(1), (1, true)),
        (&[0x00, 0x00], unknown(0x00, 1), (1, true)),
        (&[0x04, 0x81, 0x7F], incorrect(string, 3), (3, true)),
        (&[0x04, 0x85], incorrect(string, 2), (2, true)),
    ];
    for (octets, error, place) in rows {
        joining_primitive(&rt, rt.alloc(), octets, Err(error), place)?;
    }
    Ok(())
}

#[test]
fn segments_with_other_tags_are_refused(rt: HostRuntime) -> Result<(), Fail> {
    let string = Tag::OctetString;
    let rows: [(&[u8], Error, (u32, bool)); 3] = [
        (&[0x05, 0x00], unexpected(string, Tag::Null), (2, false)),
        (
            &[0x04, 0x01, 0x2A, 0x30, 0x00],
            unexpected(string, Tag::Sequence),
            (5, false),
        ),
        (
            &[0x80, 0x01, 0x2A],
            unexpected(string, context_specific(false)),
            (2, false),
        ),
    ];
    for (octets, error, place) in rows {
        joining_primitive(&rt, rt.alloc(), octets, Err(error), place)?;
    }
    let sequence = unexpected(string, Tag::Sequence);
    joining_each(
        &rt,
        rt.alloc(),
        &[0x30, 0x80, 0x00, 0x00],
        Err(sequence),
        (2, false),
    )?;
    Ok(())
}

// A segment with either form of length that consists of segments.
#[test]
fn segments_of_segments_are_joined_under_ber(rt: HostRuntime) -> Result<(), Fail> {
    // the segments, their joined octets, and their number of octets
    let rows: [(&[u8], &[u8], u32); 5] = [
        (&[0x24, 0x00], &[], 2u32),
        (&[0x24, 0x80, 0x00, 0x00], &[], 4),
        (
            &[0x04, 0x01, 0x2A, 0x24, 0x03, 0x04, 0x01, 0x2B],
            &[0x2A, 0x2B],
            8,
        ),
        (
            &[
                0x24, 0x80, 0x04, 0x01, 0x2A, 0x00, 0x00, 0x24, 0x03, 0x04, 0x01, 0x2B, 0x04, 0x01,
                0x2C,
            ],
            &[0x2A, 0x2B, 0x2C],
            15,
        ),
        (
            &[
                0x24, 0x06, 0x24, 0x80, 0x24, 0x00, 0x00, 0x00, 0x04, 0x01, 0x00,
            ],
            &[0x00],
            11,
        ),
    ];
    for (octets, joined, end) in rows {
        joining_each(&rt, rt.alloc(), octets, Ok(joined), (end, false))?;
    }
    Ok(())
}

#[test]
fn wrong_segments_of_segments_are_refused_under_ber(rt: HostRuntime) -> Result<(), Fail> {
    let string = Tag::OctetString;
    let rows: [(&[u8], Error, (u32, bool)); 10] = [
        (&[0x24, 0x01, 0x2A], unknown(0x2A, 3), (3, true)),
        (&[0x04, 0x00, 0x24, 0x01, 0x2A], unknown(0x2A, 5), (5, true)),
        (
            &[0x24, 0x02, 0x05, 0x00],
            unexpected(string, Tag::Null),
            (4, false),
        ),
        (
            &[0x24, 0x03, 0x04, 0x02, 0x2A],
            incomplete(6, 5, 4),
            (4, true),
        ),
        (&[0x24, 0x03, 0x04, 0x01], incomplete(5, 4, 4), (2, false)),
        (&[0x24, 0x80], incomplete(3, 2, 2), (2, false)),
        (
            &[0x24, 0x80, 0x30, 0x00, 0x00, 0x00],
            unexpected(string, Tag::Sequence),
            (4, false),
        ),
        (
            &[0x24, 0x80, 0x00, 0x00, 0x24],
            incomplete(6, 5, 5),
            (5, true),
        ),
        (&[0x04, 0x80, 0x00, 0x00], indefinite(2), (2, true)),
        (&[0x04, 0x80], incomplete(3, 2, 2), (2, false)),
    ];
    for (octets, error, place) in rows {
        joining_each(&rt, rt.alloc(), octets, Err(error), place)?;
    }
    Ok(())
}

#[test]
fn segments_of_segments_are_refused_under_der(rt: HostRuntime) -> Result<(), Fail> {
    let rows: [(&[u8], Error, (u32, bool)); 3] = [
        (&[0x24, 0x01, 0x2A], unknown(0x24, 1), (1, true)),
        (&[0x04, 0x00, 0x24, 0x00], unknown(0x24, 3), (3, true)),
        (&[0x04, 0x80, 0x00, 0x00], indefinite(2), (2, true)),
    ];
    for (octets, error, place) in rows {
        joining(&rt, rt.alloc(), der_reader(octets)?, Err(error), place);
        joining(&rt, rt.alloc(), der_not_borrowed(octets)?, Err(error), place);
    }
    Ok(())
}
