//! Nested parts that are entered and left.

use super::*;
use crate::checks::{same, same_at};
use der::{Resumption, close_value};
use crate::fixtures::errors::too_deep;

// `levels` empty nested parts.
#[cycle(nest)]
fn nest(reader: &mut SliceReader<'_>, levels: u8) -> Result<(), Error>
{
    if levels == 0 {
        return Ok(());
    }
    let inner = levels - 1;
    reader.read_nested(
        Length::ZERO,
        |reader: &mut SliceReader<'_>| -> Result<(), Error>
        { nest(reader, inner) },
    )
}

#[test]
fn parts_are_64_levels_deep_and_no_deeper(rt: HostRuntime) -> Result<(), Fail> {
    let rows = [(64, Ok(()), false), (65, Err(too_deep(0)), true)];
    for (levels, answer, failed) in rows {
        let mut reader = der_reader(&[])?;
        same_at(&rt, levels, nest(&mut reader, levels), answer);
        same_at(&rt, levels, reader.place(), (0, 0, failed));
    }
    Ok(())
}

fn read_one(reader: &mut SliceReader<'_>) -> Result<u8, Error>
{
    reader.read_byte()
}

fn read_inner(reader: &mut SliceReader<'_>) -> Result<u8, Error>
{
    reader.read_nested(Length::ONE, read_one)
}

#[test]
fn a_part_in_a_part_is_read(rt: HostRuntime) -> Result<(), Fail> {
    let octets = [0x01, 0x02];
    let mut reader = der_reader(&octets)?;
    same(&rt, reader.read_nested(Length::ONE, read_inner), Ok(0x01));
    same(&rt, reader.place(), (1, 2, false));
    Ok(())
}

// Reads two of three octets, and then fails.
fn refuse_after_two(reader: &mut SliceReader<'_>) -> Result<(), Error>
{
    reader.drain(Length::new(2))?;
    Err(ErrorKind::DateTime.at(Length::new(3)))
}

fn refused_within(reader: &mut SliceReader<'_>) -> Result<(), Error>
{
    reader.drain(Length::ONE)?;
    reader.read_nested(Length::new(3), refuse_after_two)
}

// Both parts are left, so the same number may be entered as before.
#[test]
fn a_refusal_in_a_part_leaves_all_parts(rt: HostRuntime) -> Result<(), Fail> {
    let octets = [0x01, 0x02, 0x03, 0x04, 0x05, 0x06];
    let mut reader = der_reader(&octets)?;
    let refused = reader.read_nested(Length::new(5), refused_within);
    same(&rt, refused, Err(ErrorKind::DateTime.at(Length::new(3))));
    same(&rt, reader.place(), (3, 6, false));
    same(&rt, nest(&mut reader, 64), Ok(()));
    same(&rt, reader.place(), (3, 6, false));
    Ok(())
}

#[test]
fn a_closed_part_forwards_its_result_and_is_left(rt: HostRuntime) -> Result<(), Fail> {
    let mut reader = der_reader(&[0x01, 0x02])?;
    let outer = reader.enter_nested(Length::ONE)?;
    same(&rt, reader.place(), (0, 1, false));
    let answer = reader.read_byte();
    same(&rt, reader.close_nested(outer, answer), Ok(0x01));
    same(&rt, reader.place(), (1, 2, false));
    Ok(())
}

#[test]
fn a_reader_that_left_a_part_ends_where_it_did_before(rt: HostRuntime) -> Result<(), Fail> {
    let mut reader = der_reader(&[0x01, 0x02])?;
    let outer = reader.enter_nested(Length::ONE)?;
    same(&rt, outer.input_len(), Length::new(2));
    same(&rt, outer.depth(), 0);
    reader.leave_nested(outer);
    same(&rt, reader.place(), (0, 2, false));
    Ok(())
}

#[test]
fn a_resumption_returns_its_length_and_depth(rt: HostRuntime) {
    let outer = Resumption::new(Length::new(42), 3);
    same(&rt, outer.input_len(), Length::new(42));
    same(&rt, outer.depth(), 3);
}

#[test]
fn closed_contents_pass_their_eoc(rt: HostRuntime) -> Result<(), Fail> {
    let mut reader = der_reader(&[0x07, 0x00, 0x00])?;
    let outer = reader.enter_nested(Length::ONE)?;
    let answer = reader.read_byte();
    let closed = close_value(&mut reader, Length::new_indefinite(3), outer, answer);
    same(&rt, closed, Ok(0x07));
    same(&rt, reader.place(), (3, 3, false));
    Ok(())
}
