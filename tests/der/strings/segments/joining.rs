//! Segments after lengths of each form, with other tags, inside parts, and of a failed reader.
use super::*;
use crate::checks::{same, same_at};
use std::process::Abort;

// Two segments after an indefinite length, whatever its number.
fn after_indefinite<R: Joins>(rt: &impl Abort, alloc: Global, mut reader: R, number: u32) {
    let length = Length::new_indefinite(number);
    let joined = reader.join(alloc, length, Tag::OctetString);
    same_at(rt, number, view(&joined), Ok([0xAA, 0xBB].as_slice()));
    same_at(rt, number, reader.place(), (6, 6, false));
}

#[test]
fn segments_are_joined_after_any_indefinite_length(rt: HostRuntime) -> Result<(), Fail> {
    let octets = [0x04, 0x01, 0xAA, 0x04, 0x01, 0xBB];
    for number in [0, 1, 2, 3, 6, 8, 4096] {
        after_indefinite(&rt, rt.alloc(), ber_reader(&octets)?, number);
        after_indefinite(&rt, rt.alloc(), der_not_borrowed(&octets)?, number);
    }
    Ok(())
}

// A definite length fails at once, under the Distinguished Encoding Rules.
fn rejected_after_definite<R: Joins>(rt: &impl Abort, alloc: Global, mut reader: R, number: u32) {
    let (position, end, _) = reader.place();
    let length = Length::new(number);
    let joined = reader.join(alloc, length, Tag::OctetString);
    same_at(rt, number, view(&joined), Err(indefinite(position)));
    same_at(rt, number, reader.place(), (position, end, true));
}

#[test]
fn der_rejects_segments_after_a_definite_length(rt: HostRuntime) -> Result<(), Fail> {
    let octets = [0x04, 0x05, 0xAA];
    for number in [0, 1, 3, 4294967295] {
        rejected_after_definite(&rt, rt.alloc(), der_reader(&octets)?, number);
        rejected_after_definite(&rt, rt.alloc(), der_not_borrowed(&octets)?, number);
    }
    let mut reader = der_reader(&octets)?;
    reader.drain(Length::new(2))?;
    rejected_after_definite(&rt, rt.alloc(), reader, 1);
    rejected_after_definite(&rt, rt.alloc(), der_reader(&[])?, 0);
    Ok(())
}

// Under the Basic Encoding Rules segments after it are joined.
fn after_definite<R: Joins>(
    rt: &impl Abort,
    alloc: Global,
    mut reader: R,
    number: u32,
    answer: Result<&[u8], Error>,
    place: (u32, bool),
) {
    let (position, failed) = place;
    let (_, end, _) = reader.place();
    let joined = reader.join(alloc, Length::new(number), Tag::OctetString);
    same_at(rt, number, view(&joined), answer);
    same_at(rt, number, reader.place(), (position, end, failed));
}

#[test]
fn ber_joins_segments_after_any_definite_length(rt: HostRuntime) -> Result<(), Fail> {
    let rows: [(&[u8], Result<&[u8], Error>, (u32, bool)); 4] = [
        (&[], Ok(&[]), (0, false)),
        (
            &[0x04, 0x01, 0xAA, 0x24, 0x03, 0x04, 0x01, 0xBB],
            Ok(&[0xAA, 0xBB]),
            (8, false),
        ),
        (&[0x04, 0x05, 0xAA], Err(incomplete(7, 3, 2)), (2, true)),
        (
            &[0x24, 0x02, 0x05, 0x00],
            Err(unexpected(Tag::OctetString, Tag::Null)),
            (4, false),
        ),
    ];
    for (octets, answer, place) in rows {
        for number in [0, 1, 3, 4096] {
            after_definite(&rt, rt.alloc(), ber_reader(octets)?, number, answer, place);
            after_definite(&rt, rt.alloc(), ber_not_borrowed(octets)?, number, answer, place);
        }
    }
    Ok(())
}

// Segments with this context-specific tag.
fn tagged<R: Joins>(
    rt: &impl Abort,
    alloc: Global,
    mut reader: R,
    inner_tag: Tag,
    answer: Result<&[u8], Error>,
) {
    let length = Length::new_indefinite(3);
    let joined = reader.join(alloc, length, inner_tag);
    same(rt, view(&joined), answer);
    let position = if answer.is_ok() { 3 } else { 2 };
    same(rt, reader.place(), (position, 3, false));
}

#[test]
fn segments_are_joined_that_have_the_tag_asked_for(rt: HostRuntime) -> Result<(), Fail> {
    let alloc = rt.alloc();
    let primitive = context_specific(false);
    let constructed = context_specific(true);
    let rows: [(&[u8], Result<&[u8], Error>); 2] = [
        (&[0x80, 0x01, 0x2A], Ok(&[0x2A])),
        (&[0xA0, 0x01, 0x2A], Err(unexpected(primitive, constructed))),
    ];
    for (octets, answer) in rows {
        tagged(&rt, alloc, der_reader(octets)?, primitive, answer);
        tagged(&rt, alloc, der_not_borrowed(octets)?, primitive, answer);
    }
    Ok(())
}

// Under the Distinguished Encoding Rules segments are primitive, even if the requested tag is not.
#[test]
fn der_refuses_segments_with_a_constructed_tag(rt: HostRuntime) -> Result<(), Fail> {
    let alloc = rt.alloc();
    let constructed = context_specific(true);
    let refused = Err(constructed.non_canonical_error().at(Length::ONE));
    let octets = [0xA0, 0x01, 0x2A];
    tagged(&rt, alloc, der_reader(&octets)?, constructed, refused);
    tagged(&rt, alloc, der_not_borrowed(&octets)?, constructed, refused);
    Ok(())
}

// Under the Basic Encoding Rules each of them consists of segments with that tag.
fn cut_again<R: Joins>(
    rt: &impl Abort,
    alloc: Global,
    mut reader: R,
    answer: Result<&[u8], Error>,
    place: (u32, bool),
) {
    let (position, failed) = place;
    let (_, end, _) = reader.place();
    let joined = reader.join(alloc, Length::new(end), context_specific(true));
    same_at(rt, end, view(&joined), answer);
    same_at(rt, end, reader.place(), (position, end, failed));
}

#[test]
fn ber_cuts_segments_with_a_constructed_tag_again(rt: HostRuntime) -> Result<(), Fail> {
    let rows: [(&[u8], Result<&[u8], Error>, (u32, bool)); 4] = [
        (&[0xA0, 0x00], Ok(&[]), (2, false)),
        (&[0xA0, 0x80, 0xA0, 0x00, 0x00, 0x00], Ok(&[]), (6, false)),
        (&[0xA0, 0x01, 0x2A], Err(unknown(0x2A, 3)), (3, true)),
        (
            &[0xA0, 0x02, 0x80, 0x00],
            Err(unexpected(context_specific(true), context_specific(false))),
            (4, false),
        ),
    ];
    for (octets, answer, place) in rows {
        cut_again(&rt, rt.alloc(), ber_reader(octets)?, answer, place);
        cut_again(&rt, rt.alloc(), ber_not_borrowed(octets)?, answer, place);
    }
    Ok(())
}

// Segments end where the part does.
fn part<R: Reader>(
    rt: &impl Abort,
    alloc: Global,
    mut reader: R,
    end: u32,
    answer: Result<&[u8], Error>,
) -> Result<(), Error> {
    let outer = reader.enter_nested(Length::new(end))?;
    let length = Length::new_indefinite(0);
    let joined = read_constructed_vec(alloc, &mut reader, length, Tag::OctetString);
    same_at(rt, end, view(&joined), answer);
    let position = if answer.is_ok() { end } else { 2 };
    same_at(rt, end, place_of(&reader), (position, end, answer.is_err()));
    reader.leave_nested(outer);
    same_at(rt, end, reader.input_len(), Length::new(6));
    Ok(())
}

#[test]
fn segments_end_where_their_part_does(rt: HostRuntime) -> Result<(), Fail> {
    let octets = [0x04, 0x01, 0x2A, 0x04, 0x01, 0x2B];
    let rows: [(u32, Result<&[u8], Error>); 2] = [(3, Ok(&[0x2A])), (2, Err(incomplete(3, 2, 2)))];
    for (end, answer) in rows {
        part(&rt, rt.alloc(), ber_reader(&octets)?, end, answer)?;
        part(&rt, rt.alloc(), der_not_borrowed(&octets)?, end, answer)?;
    }
    Ok(())
}

#[test]
fn a_failed_reader_joins_nothing(rt: HostRuntime) -> Result<(), Fail> {
    let mut reader = der_reader(&[0x04, 0x00])?;
    let failed = reader.error(ErrorKind::Failed);
    let length = Length::new_indefinite(0);
    let joined = reader.join(rt.alloc(), length, Tag::OctetString);
    same(&rt, view(&joined), Err(failed));
    same(&rt, reader.place(), (0, 2, true));
    Ok(())
}
