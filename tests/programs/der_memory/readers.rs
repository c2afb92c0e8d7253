//! Calls of readers over slices, except `read_vec`, and calls of `Position` and `Turns`.
ghost use Rattle.std.specs.Prelude.{◌≡◌, IfOk};
ghost use Rattle.der.specs.Prelude.{Ber, slice_state};

use crate::print::{print_result, print_text, print_value};
use der::{
    Class, EncodingRules, Error, ErrorKind, Header, Length, Position, Reader, ReaderExt,
    SliceReader, Tag, TagNumber, TagPeek, Turns, decode_indefinite_length, read_eoc, read_value,
};
use std::io;
use std::marker::Brand;
use std::sync::ledger::{Blank, Ledger};

const OCTETS: [u8; 5] = [0x30, 0x03, 0x04, 0x01, 0x09];

// A SEQUENCE of indefinite length that holds a NULL.
const BODY: [u8; 6] = [0x30, 0x80, 0x05, 0x00, 0x00, 0x00];

fn new(octets: &[u8]) -> Result<SliceReader<'_>, Error> {
    SliceReader::new(octets)
}

fn ber(octets: &[u8]) -> Result<SliceReader<'_>, Error>
    ensures { IfOk result (λ r. (slice_state r).rules ≡ Ber) }
{
    SliceReader::new_with_encoding_rules(octets, EncodingRules::Ber)
}

pub fn plain_calls(rt: &impl Print) -> io::Result<()> {
    let Ok(mut reader) = new(&OCTETS) else {
        return Ok(());
    };
    print_text(rt, "input_len", reader.input_len())?;
    print_result(rt, "read_byte", reader.read_byte())?;
    print_result(rt, "read_slice", reader.read_slice(Length::ONE))?;
    print_result(rt, "drain", reader.drain(Length::ONE))?;
    let mut octet = [0];
    print_result(rt, "read_into", reader.read_into(&mut octet))?;
    print_text(rt, "reader position", reader.position())?;
    print_text(rt, "offset", reader.offset())?;
    print_text(rt, "remaining_len", reader.remaining_len())?;
    print_result(rt, "remaining", reader.remaining())?;
    print_value(rt, "is_finished", reader.fork().is_finished())?;
    print_text(rt, "reader error", reader.error(ErrorKind::DateTime))?;
    print_value(rt, "is_failed", reader.is_failed())?;
    print_result(rt, "finish", reader.finish())
}

pub fn peeks(rt: &impl Print) -> io::Result<()> {
    let Ok(mut reader) = new(&OCTETS) else {
        return Ok(());
    };
    print_value(rt, "peek_byte", reader.peek_byte())?;
    print_result(rt, "peek_into", reader.peek_into(&mut [0, 0]))?;
    print_result(rt, "peek_header", length_of(reader.peek_header()))?;
    print_result(rt, "peek_tag", reader.peek_tag())?;
    print_result(rt, "Header::peek", length_of(Header::peek(&reader)))?;
    print_result(rt, "Tag::peek", Tag::peek(&reader))?;
    let universal = Class::Universal;
    let is_sequence = Tag::peek_matches(&mut reader, universal, TagNumber::new(16));
    print_result(rt, "peek_matches", is_sequence)?;
    let tag = Tag::decode_with_constructed_bit(&mut reader);
    print_result(rt, "decode_with_constructed_bit", tag)
}

fn length_of(header: Result<Header, Error>) -> Result<Length, Error> {
    Ok(header?.length())
}

pub fn parts(rt: &impl Print) -> io::Result<()> {
    print_result(rt, "read_nested", nested())?;
    print_result(rt, "sequence", in_sequence())?;
    print_result(rt, "read_value", value())?;
    print_result(rt, "read_eoc", end_of_contents())?;
    print_result(rt, "enter_nested", halves())?;
    print_result(rt, "tlv_bytes", element())
}

fn nested() -> Result<u8, Error> {
    new(&OCTETS)?.read_nested(Length::ONE, |reader| reader.read_byte())
}

fn in_sequence() -> Result<(), Error> {
    new(&OCTETS)?.sequence(|reader| reader.drain(Length::new(3)))
}

fn value() -> Result<u8, Error> {
    let mut reader = new(&OCTETS)?;
    let header = Header::new(Tag::OctetString, Length::ONE);
    read_value(&mut reader, header, |reader, _| reader.read_byte())
}

fn end_of_contents() -> Result<(), Error> {
    read_eoc(&mut ber(&[0x00, 0x00])?)
}

fn halves() -> Result<u8, Error> {
    let mut reader = new(&OCTETS)?;
    let outer = reader.enter_nested(Length::ONE)?;
    let octet = reader.read_byte();
    reader.close_nested(outer, octet)
}

fn element() -> Result<usize, Error> {
    Ok(ber(&BODY)?.tlv_bytes()?.len())
}

pub fn scans(rt: &impl Print) -> io::Result<()> {
    print_result(rt, "scan_indefinite", scanned(true))?;
    print_result(rt, "decode_indefinite_length", scanned(false))
}

// The number of octets of indefinite-length contents, by a scan that consumes nothing or by one
// that does.
fn scanned(next: bool) -> Result<u32, Error> {
    counted::<Brand>(next, Blank::new(1))
}

// The same, counted with a ledger that the caller names.
fn counted<L: Ledger>(next: bool, blank: Blank) -> Result<u32, Error>
    requires name { blank.name ≡ L.name }
    requires parts { blank.parts ≡ L.parts }
    requires whole { blank.parts ≡ 1 }
{
    let mut turns = Turns::<L>::new(blank);
    let mut reader = ber(&BODY[2..])?;
    let length = if next {
        reader.scan_indefinite(&mut turns)?
    } else {
        decode_indefinite_length(&mut reader, &mut turns)?
    };
    Ok(u32::from(length))
}

pub fn positions(rt: &impl Print) -> io::Result<()> {
    let mut position = Position::new(Length::new(42));
    print_text(rt, "current", position.current())?;
    print_result(rt, "advance", position.advance(Length::ONE))?;
    print_text(rt, "position left", position.remaining_len())?;
    print_text(rt, "position error", position.error(ErrorKind::DateTime))?;
    print_result(rt, "split_nested", split(&mut position))?;
    print_value(rt, "depth", position.depth())
}

fn split(position: &mut Position) -> Result<Length, Error> {
    let outer = position.split_nested(Length::ONE)?;
    let end = outer.input_len();
    position.resume_nested(outer);
    Ok(end)
}
