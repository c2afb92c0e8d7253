//! Parts, sequences and values that are read by a function of the caller, and positions.

use super::*;
use crate::checks::{same, same_at};
use der::{Position, read_eoc, read_value};
use crate::fixtures::errors::{indefinite, unexpected};

fn read_one(reader: &mut SliceReader<'_>) -> Result<u8, Error>
{
    reader.read_byte()
}

fn read_header(reader: &mut SliceReader<'_>) -> Result<Header, Error>
{
    decode_header(reader)
}

// The octet that is all of a part of this length.
fn part(reader: &mut SliceReader<'_>, length: Length) -> Result<u8, Error> {
    reader.read_nested(length, read_one)
}

#[test]
fn a_part_is_refused_where_octets_are_left_or_missing(rt: HostRuntime) -> Result<(), Fail> {
    let rows = [
        (1, Ok(0x01), (1, 2, false)),
        (2, Err(trailing(1, 1)), (1, 2, true)),
        (3, Err(incomplete(3, 2, 2)), (0, 2, false)),
    ];
    for (count, answer, place) in rows {
        let mut reader = der_reader(&[0x01, 0x02])?;
        same_at(&rt, count, part(&mut reader, Length::new(count)), answer);
        same_at(&rt, count, reader.place(), place);
    }
    Ok(())
}

#[test]
fn a_part_past_the_end_is_refused_and_the_reader_stays(rt: HostRuntime) -> Result<(), Fail> {
    let octets = [0x01, 0x02, 0x03];
    let mut reader = der_reader(&octets)?;
    same(&rt, octet(&mut reader), Ok(0x01));
    let past = Err(incomplete(4, 3, 3));
    same(&rt, part(&mut reader, Length::new(3)), past);
    same(&rt, reader.place(), (1, 3, false));
    let overflow = Err(ErrorKind::Overflow.to_error());
    same(&rt, part(&mut reader, Length::MAX), overflow);
    Ok(())
}

#[test]
fn a_sequence_is_read_only_with_its_tag_and_all_its_octets(rt: HostRuntime) -> Result<(), Fail> {
    let null = Header::new(Tag::Null, Length::ZERO);
    let rows: [(&[u8], Result<Header, Error>, (u32, u32, bool)); 4] = [
        (&[0x30, 0x02, 0x05, 0x00, 0x01], Ok(null), (4, 5, false)),
        (
            &[0x30, 0x03, 0x05, 0x00, 0x00],
            Err(trailing(4, 1)),
            (4, 5, true),
        ),
        (
            &[0x31, 0x00],
            Err(unexpected(Tag::Sequence, Tag::Set)),
            (2, 2, false),
        ),
        (
            &[0x30, 0x04, 0x05, 0x00],
            Err(incomplete(5, 4, 4)),
            (2, 4, false),
        ),
    ];
    for (octets, answer, place) in rows {
        let mut reader = der_reader(octets)?;
        let read = reader.sequence(read_header);
        same_at(&rt, octets.len(), read, answer);
        same_at(&rt, octets.len(), reader.place(), place);
    }
    Ok(())
}

fn advance(position: &mut Position, count: u32) -> Result<Length, Error> {
    position.advance(Length::new(count))
}

// The position, its end, and the number of parts it is in.
fn place_in(position: &Position) -> (u32, u32, u8) {
    let current = u32::from(position.current());
    (current, u32::from(position.input_len()), position.depth())
}

#[test]
fn a_position_advances_up_to_its_end_and_no_further(rt: HostRuntime) {
    let mut position = Position::new(Length::new(42));
    let past = Err(incomplete(43, 42, 42));
    let rows = [(1, Ok(Length::ONE)), (41, Ok(Length::new(42))), (1, past)];
    for (count, answer) in rows {
        same_at(&rt, count, advance(&mut position, count), answer);
    }
    same(&rt, place_in(&position), (42, 42, 0));
}

#[test]
fn a_position_in_a_part_ends_there_and_then_goes_on(rt: HostRuntime) -> Result<(), Fail> {
    let mut position = Position::new(Length::new(42));
    let resumption = position.split_nested(Length::ONE)?;
    same(&rt, resumption.input_len(), Length::new(42));
    same(&rt, advance(&mut position, 1), Ok(Length::ONE));
    same(&rt, advance(&mut position, 1), Err(incomplete(2, 1, 1)));
    position.resume_nested(resumption);
    same(&rt, place_in(&position), (1, 42, 0));
    Ok(())
}

#[test]
fn a_clone_of_a_position_stays_where_it_was_made(rt: HostRuntime) -> Result<(), Fail> {
    let mut position = Position::new(Length::new(42));
    same(&rt, advance(&mut position, 2), Ok(Length::new(2)));
    position.split_nested(Length::new(10))?;
    let clone = position.clone()?;
    same(&rt, advance(&mut position, 1), Ok(Length::new(3)));
    same(&rt, place_in(&clone), (2, 12, 1));
    Ok(())
}

#[test]
fn a_position_refuses_a_part_past_its_end_and_stays(rt: HostRuntime) -> Result<(), Fail> {
    let mut position = Position::new(Length::new(42));
    same(&rt, advance(&mut position, 1), Ok(Length::ONE));
    same(&rt, position.remaining_len(), Length::new(41));
    let past = position.split_nested(Length::new(42)).err();
    same(&rt, past, Some(incomplete(43, 42, 42)));
    same(&rt, place_in(&position), (1, 42, 0));
    same(
        &rt,
        position.error(ErrorKind::Failed),
        ErrorKind::Failed.at(Length::ONE),
    );
    Ok(())
}

#[test]
fn a_value_is_read_with_the_eoc_of_a_flagged_length(rt: HostRuntime) -> Result<(), Fail> {
    let rows = [
        (Length::new_indefinite(3), Length::new_indefinite(1), 3),
        (Length::ONE, Length::ONE, 1),
    ];
    for (length, contents, position) in rows {
        let mut reader = der_reader(&[0x07, 0x00, 0x00, 0x05])?;
        let header = Header::new(Tag::OctetString, length);
        let read = read_value(&mut reader, header, read_contents);
        same_at(&rt, length, read, Ok((0x07, contents)));
        same_at(&rt, length, reader.place(), (position, 4, false));
    }
    Ok(())
}

#[test]
fn an_eoc_is_read_and_another_octet_is_rejected(rt: HostRuntime) -> Result<(), Fail> {
    let octets = [0x00, 0x00, 0x05];
    let mut reader = der_reader(&octets)?;
    same(&rt, read_eoc(&mut reader), Ok(()));
    same(&rt, reader.place(), (2, 3, false));
    same(&rt, read_eoc(&mut reader), Err(indefinite(3)));
    same(&rt, reader.place(), (3, 3, true));
    Ok(())
}

fn read_contents(reader: &mut SliceReader<'_>, header: Header) -> Result<(u8, Length), Error>
{
    match reader.read_byte() {
        Ok(octet) => Ok((octet, header.length())),
        Err(error) => Err(error),
    }
}
