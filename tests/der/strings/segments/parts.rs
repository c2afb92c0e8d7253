//! Contents in one piece or in segments.
use super::*;
use crate::checks::{same, same_at};
use der::close_value;
use std::process::Abort;

// Readers that read contents, without naming their types.
trait Parts: Placed + Drop {
    // The result of reading the contents after this header.
    fn parts(&mut self, alloc: Global, header: Header) -> Result<BytesOwned, Error>;
}

impl<'a> Parts for SliceReader<'a> {
    fn parts(&mut self, alloc: Global, header: Header) -> Result<BytesOwned, Error> {
        BytesOwned::decode_value_parts(alloc, self, header, Tag::OctetString)
    }
}

impl<'a> Parts for CopyingReader<'a> {
    fn parts(&mut self, alloc: Global, header: Header) -> Result<BytesOwned, Error> {
        BytesOwned::decode_value_parts(alloc, self, header, Tag::OctetString)
    }
}

// The result of reading the contents after this header, and the place of the reader then.
fn decoding<R: Parts>(
    rt: &impl Abort,
    alloc: Global,
    mut reader: R,
    header: Header,
    answer: Result<&[u8], Error>,
    place: (u32, bool),
) {
    let (position, failed) = place;
    let (_, end, _) = reader.place();
    let read = reader.parts(alloc, header);
    same_at(rt, end, octets_of(&read), answer);
    same_at(rt, end, reader.place(), (position, end, failed));
}

fn octets_of(read: &Result<BytesOwned, Error>) -> Result<&[u8], Error> {
    match read {
        Ok(bytes) => Ok(bytes.as_slice()),
        Err(error) => Err(*error),
    }
}

// Contents are decoded so under the Basic Encoding Rules, whether the reader returns slices or not.
fn under_ber(
    rt: &impl Abort,
    alloc: Global,
    octets: &[u8],
    header: Header,
    answer: Result<&[u8], Error>,
    place: (u32, bool),
) -> Result<(), Error> {
    decoding(rt, alloc, ber_reader(octets)?, header, answer, place);
    decoding(rt, alloc, ber_not_borrowed(octets)?, header, answer, place);
    Ok(())
}

// Contents are decoded so under the Distinguished Encoding Rules, whether the reader returns slices
// or not.
fn under_der(
    rt: &impl Abort,
    alloc: Global,
    octets: &[u8],
    header: Header,
    answer: Result<&[u8], Error>,
    place: (u32, bool),
) -> Result<(), Error> {
    decoding(rt, alloc, der_reader(octets)?, header, answer, place);
    decoding(rt, alloc, der_not_borrowed(octets)?, header, answer, place);
    Ok(())
}

const SEGMENT: [u8; 3] = [0x04, 0x01, 0x2A];

#[test]
fn contents_after_a_primitive_header_are_accepted_unchanged(rt: HostRuntime) -> Result<(), Fail> {
    let rows: [(u32, Result<&[u8], Error>, (u32, bool)); 4] = [
        (0, Ok(&[]), (0, false)),
        (2, Ok(&[0x04, 0x01]), (2, false)),
        (3, Ok(&SEGMENT), (3, false)),
        (4, Err(incomplete(4, 3, 0)), (0, true)),
    ];
    for (count, answer, place) in rows {
        let header = Header::new(Tag::OctetString, Length::new(count));
        under_ber(&rt, rt.alloc(), &SEGMENT, header, answer, place)?;
        under_der(&rt, rt.alloc(), &SEGMENT, header, answer, place)?;
    }
    Ok(())
}

// The tag of the header is used only in errors.
fn segments_after(rt: &impl Abort, alloc: Global, tag: Tag, length: Length) -> Result<(), Error> {
    let header = Header::new(tag, length);
    let joined = Ok([0x2A].as_slice());
    under_ber(rt, alloc, &SEGMENT, header, joined, (3, false))?;
    let refused = Err(tag.non_canonical_error().at(Length::ZERO));
    under_der(rt, alloc, &SEGMENT, header, refused, (0, false))
}

#[test]
fn contents_of_constructed_headers_are_joined_under_ber_alone(rt: HostRuntime) -> Result<(), Fail> {
    let indefinite = Length::new_indefinite(3);
    for tag in [Tag::OctetString, context_specific(true), Tag::Sequence] {
        segments_after(&rt, rt.alloc(), tag, indefinite)?;
    }
    for tag in [context_specific(true), Tag::Sequence] {
        segments_after(&rt, rt.alloc(), tag, Length::new(3))?;
    }
    Ok(())
}

// The contents of a constructed element, whatever its tag and the form of its length.
fn contents(alloc: Global, reader: &mut SliceReader<'_>) -> Result<BytesOwned, Error> {
    let header = next_header(reader)?;
    let length = header.length().sans_eoc();
    let outer = reader.enter_nested(length)?;
    let read = BytesOwned::decode_value_parts(alloc, reader, header, Tag::OctetString);
    close_value(reader, length, outer, read)
}

// The encrypted octets of a CMS message, whose tag replaces that of OCTET STRING.
fn encrypted(rt: &impl Abort, alloc: Global, octets: &[u8]) -> Result<(), Error> {
    let end = count_of(octets)?;
    let mut reader = ber_reader(octets)?;
    let joined = contents(alloc, &mut reader)?;
    let whole = [
        0xCC, 0x74, 0xAD, 0xF6, 0x5D, 0x97, 0x3C, 0x8B, 0x72, 0xCD, 0x51, 0xE1, 0xB9, 0x27, 0xF0,
        0xF0,
    ];
    same_at(rt, end, joined.as_slice(), whole.as_slice());
    same_at(rt, end, reader.place(), (end, end, false));
    Ok(())
}

#[test]
fn contents_after_an_implicit_tag_are_joined(rt: HostRuntime) -> Result<(), Fail> {
    let rows: [&[u8]; 3] = [
        &[
            0xA0, 0x80, 0x04, 0x10, 0xCC, 0x74, 0xAD, 0xF6, 0x5D, 0x97, 0x3C, 0x8B, 0x72, 0xCD,
            0x51, 0xE1, 0xB9, 0x27, 0xF0, 0xF0, 0x00, 0x00,
        ],
        &[
            0xA0, 0x12, 0x04, 0x10, 0xCC, 0x74, 0xAD, 0xF6, 0x5D, 0x97, 0x3C, 0x8B, 0x72, 0xCD,
            0x51, 0xE1, 0xB9, 0x27, 0xF0, 0xF0,
        ],
        &[
            0xA0, 0x80, 0x24, 0x80, 0x04, 0x04, 0xCC, 0x74, 0xAD, 0xF6, 0x24, 0x06, 0x04, 0x04,
            0x5D, 0x97, 0x3C, 0x8B, 0x00, 0x00, 0x04, 0x08, 0x72, 0xCD, 0x51, 0xE1, 0xB9, 0x27,
            0xF0, 0xF0, 0x00, 0x00,
        ],
    ];
    for octets in rows {
        encrypted(&rt, rt.alloc(), octets)?;
    }
    Ok(())
}

// An error at the front is reported there, and any other at the octet before.
fn rejected_after<R: Reader + Parts>(
    rt: &impl Abort,
    alloc: Global,
    mut reader: R,
    before: u32,
    at: u32,
) -> Result<(), Error> {
    reader.drain(Length::new(before))?;
    let header = Header::new(Tag::Sequence, Length::new(3));
    let refused = Tag::Sequence.non_canonical_error().at(Length::new(at));
    decoding(rt, alloc, reader, header, Err(refused), (before, false));
    Ok(())
}

#[test]
fn der_refuses_a_constructed_header_at_the_octet_before(rt: HostRuntime) -> Result<(), Fail> {
    for (before, at) in [(0, 0), (1, 0), (2, 1), (3, 2)] {
        rejected_after(&rt, rt.alloc(), der_reader(&SEGMENT)?, before, at)?;
        rejected_after(&rt, rt.alloc(), der_not_borrowed(&SEGMENT)?, before, at)?;
    }
    Ok(())
}

// Malformed segments give the same errors as where they are joined.
#[test]
fn wrong_segments_in_contents_are_refused(rt: HostRuntime) -> Result<(), Fail> {
    let header = Header::new(Tag::OctetString, Length::new_indefinite(3));
    let alloc = rt.alloc();
    let cut = Err(incomplete(7, 3, 2));
    under_ber(&rt, alloc, &[0x04, 0x05, 0xAA], header, cut, (2, true))?;
    let other = Err(unexpected(Tag::OctetString, Tag::Null));
    under_ber(&rt, alloc, &[0x05, 0x00], header, other, (2, false))?;
    let header = Header::new(Tag::Sequence, Length::new(4));
    under_ber(
        &rt,
        alloc,
        &[0x24, 0x02, 0x05, 0x00],
        header,
        other,
        (4, false),
    )?;
    let inside = Err(incomplete(5, 4, 4));
    under_ber(
        &rt,
        alloc,
        &[0x24, 0x03, 0x04, 0x01],
        header,
        inside,
        (2, false),
    )?;
    Ok(())
}
