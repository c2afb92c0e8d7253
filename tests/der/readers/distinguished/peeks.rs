//! Peeks, whole elements, and octets that are skipped.
use super::*;
use crate::checks::{holds, same, same_at};
use der::{Class, TagPeek};
use crate::fixtures::errors::{invalid_number, unknown};

#[test]
fn a_header_is_peeked_and_the_reader_stays(rt: HostRuntime) -> Result<(), Fail> {
    let octets = [0x02, 0x01, 0x2A, 0x00];
    let reader = der_reader(&octets)?;
    let integer = Header::new(Tag::Integer, Length::ONE);
    same(&rt, peeked_header(&reader), Ok(integer));
    same(&rt, reader.place(), (0, 4, false));
    same(&rt, reader.peek_header(), Ok(integer));
    same(&rt, reader.place(), (0, 4, false));
    Ok(())
}

#[test]
fn a_tag_is_peeked_or_refused_and_the_reader_stays(rt: HostRuntime) -> Result<(), Fail> {
    let rows: [(&[u8], Result<Tag, Error>, u32); 3] = [
        (&[0x02], Ok(Tag::Integer), 1),
        (&[0x5F, 0x9E], Err(incomplete(3, 2, 2)), 2),
        (
            &[0xDF, 0x8F, 0xFF, 0xFF, 0xFF, 0xFF],
            Err(invalid_number(6)),
            6,
        ),
    ];
    for (octets, tag, end) in rows {
        let reader = der_reader(octets)?;
        same_at(&rt, end, Tag::peek(&reader), tag);
        same_at(&rt, end, reader.place(), (0, end, false));
    }
    Ok(())
}

#[test]
fn the_tag_that_is_peeked_is_decoded_with_its_bit(rt: HostRuntime) -> Result<(), Fail> {
    let octets = [0x02, 0x01, 0x2A, 0x00];
    let mut reader = der_reader(&octets)?;
    same(&rt, Tag::peek(&reader), Ok(Tag::Integer));
    same(&rt, reader.peek_tag(), Ok(Tag::Integer));
    let tag_and_bit = Tag::decode_with_constructed_bit(&mut reader);
    same(&rt, tag_and_bit, Ok((Tag::Integer, false)));
    Ok(())
}

#[test]
fn octets_are_peeked_and_the_reader_stays(rt: HostRuntime) -> Result<(), Fail> {
    let reader = der_reader(&[0x02, 0x01, 0x2A, 0x00])?;
    same(&rt, reader.peek_byte(), Some(0x02));
    let mut buffer = [0u8; 2];
    same(&rt, reader.peek_into(&mut buffer), Ok(()));
    same(&rt, buffer, [0x02, 0x01]);
    same(&rt, reader.offset(), Length::ZERO);
    holds(&rt, !reader.is_finished());
    Ok(())
}

#[test]
fn the_longest_header_is_peeked(rt: HostRuntime) -> Result<(), Fail> {
    let longest = [
        0xBF, 0x8F, 0xFF, 0xFF, 0xFF, 0x7F, 0x84, 0xFF, 0xFF, 0xFF, 0xFF,
    ];
    let reader = der_reader(&longest)?;
    let header = Header::new(TagNumber(4294967295).context_specific(true), Length::MAX);
    same(&rt, peeked_header(&reader), Ok(header));
    same(&rt, reader.place(), (0, 11, false));
    Ok(())
}

#[test]
fn an_element_that_no_length_counts_is_an_overflow(rt: HostRuntime) -> Result<(), Fail> {
    let octets = [
        0xBF, 0x8F, 0xFF, 0xFF, 0xFF, 0x7F, 0x84, 0xFF, 0xFF, 0xFF, 0xFF,
    ];
    let mut reader = der_reader(&octets)?;
    let overflow = ErrorKind::Overflow.to_error();
    same(&rt, element(&mut reader).err(), Some(overflow));
    same(&rt, reader.place(), (0, 11, false));
    Ok(())
}

#[test]
fn the_next_tag_matches_by_class_and_number(rt: HostRuntime) -> Result<(), Fail> {
    let octets = [0xA0, 0x00];
    let mut reader = der_reader(&octets)?;
    let rows = [
        (Class::ContextSpecific, 0, true),
        (Class::Application, 0, false),
        (Class::ContextSpecific, 1, false),
    ];
    for (class, number, matches) in rows {
        let answer = Tag::peek_matches(&mut reader, class, TagNumber(number));
        same_at(&rt, class, answer, Ok(matches));
    }
    same(&rt, reader.place(), (0, 2, false));
    Ok(())
}

#[test]
fn no_tag_matches_at_the_end(rt: HostRuntime) -> Result<(), Fail> {
    let mut reader = der_reader(&[])?;
    same(
        &rt,
        Tag::peek_matches(&mut reader, Class::ContextSpecific, TagNumber(0)),
        Ok(false),
    );
    same(&rt, reader.place(), (0, 0, false));
    Ok(())
}

// The next element, whole.
fn element<'a>(reader: &mut SliceReader<'a>) -> Result<&'a [u8], Error> {
    reader.tlv_bytes()
}

#[test]
fn an_element_is_borrowed_whole(rt: HostRuntime) -> Result<(), Fail> {
    let octets = [0x30, 0x02, 0x05, 0x00, 0xFF];
    let mut reader = der_reader(&octets)?;
    same(
        &rt,
        element(&mut reader)?,
        [0x30, 0x02, 0x05, 0x00].as_slice(),
    );
    same(&rt, reader.place(), (4, 5, false));
    Ok(())
}

#[test]
fn a_cut_element_is_refused_and_the_reader_fails(rt: HostRuntime) -> Result<(), Fail> {
    let mut reader = der_reader(&[0x30, 0x02])?;
    same(&rt, element(&mut reader).err(), Some(incomplete(4, 2, 0)));
    same(&rt, reader.place(), (0, 2, true));
    Ok(())
}

#[test]
fn a_reader_decodes_values_until_one_is_refused(rt: HostRuntime) -> Result<(), Fail> {
    let octets = [0x30, 0x00, 0x3F];
    let mut reader = der_reader(&octets)?;
    let sequence = Header::new(Tag::Sequence, Length::ZERO);
    let header: Result<Header, Error> = reader.decode(rt.alloc());
    same(&rt, header, Ok(sequence));
    same(&rt, tag_by(rt.alloc(), &mut reader), Err(unknown(0x3F, 3)));
    same(&rt, reader.place(), (3, 3, true));
    let failed = Err(ErrorKind::Failed.at(Length::new(3)));
    same(&rt, tag_by(rt.alloc(), &mut reader), failed);
    Ok(())
}

fn pass(reader: &mut SliceReader<'_>, length: Length) -> Result<(), Error> {
    reader.drain(length)
}

#[test]
fn a_drain_past_the_end_is_refused_at_its_step_of_16_octets(rt: HostRuntime) -> Result<(), Fail> {
    let rows = [
        (18, Ok(()), 18, false),
        (20, Err(incomplete(20, 18, 16)), 16, true),
        (40, Err(incomplete(32, 18, 16)), 16, true),
    ];
    for (count, answer, position, failed) in rows {
        let mut reader = der_reader(&[0x07; 18])?;
        same_at(&rt, count, pass(&mut reader, Length::new(count)), answer);
        same_at(&rt, count, reader.place(), (position, 18, failed));
    }
    Ok(())
}

#[test]
fn a_failed_reader_drains_zero_octets_but_not_a_flagged_zero(rt: HostRuntime) -> Result<(), Fail> {
    let mut reader = der_reader(&[0x07; 18])?;
    let missing = incomplete(32, 18, 16);
    same(&rt, pass(&mut reader, Length::new(40)), Err(missing));
    same(&rt, pass(&mut reader, Length::ZERO), Ok(()));
    let failed = Err(ErrorKind::Failed.at(Length::new(16)));
    same(&rt, pass(&mut reader, Length::new_indefinite(0)), failed);
    Ok(())
}

#[test]
fn a_reader_that_passed_all_octets_is_finished(rt: HostRuntime) -> Result<(), Fail> {
    let mut reader = der_reader(&[0x07; 18])?;
    same(&rt, pass(&mut reader, Length::new(18)), Ok(()));
    holds(&rt, reader.is_finished());
    same(&rt, reader.finish(), Ok(()));
    Ok(())
}

#[test]
fn finish_refuses_octets_that_are_left(rt: HostRuntime) -> Result<(), Fail> {
    let octets = [0x01, 0x02];
    let mut reader = der_reader(&octets)?;
    same(&rt, octet(&mut reader), Ok(0x01));
    same(&rt, reader.finish(), Err(trailing(1, 1)));
    Ok(())
}

#[test]
fn octets_are_copied_from_where_the_reader_is(rt: HostRuntime) -> Result<(), Fail> {
    let mut reader = der_reader(&[0x01, 0x02])?;
    same(&rt, octet(&mut reader), Ok(0x01));
    let copy = reader.read_vec(rt.alloc(), Length::ONE)?;
    same(&rt, copy.as_slice(), [0x02].as_slice());
    Ok(())
}

#[test]
fn a_copy_past_the_end_is_refused_and_the_reader_fails(rt: HostRuntime) -> Result<(), Fail> {
    let mut reader = der_reader(&[0x01, 0x02])?;
    same(&rt, octet(&mut reader), Ok(0x01));
    let refused = reader.read_vec(rt.alloc(), Length::new(2)).err();
    same(&rt, refused, Some(incomplete(3, 2, 1)));
    holds(&rt, reader.fork().is_failed());
    same(&rt, reader.peek_byte(), None);
    let failed = ErrorKind::Failed.at(Length::ONE);
    same(&rt, reader.finish(), Err(failed));
    Ok(())
}
