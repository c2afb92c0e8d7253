//! Octets that are texts, and those that are not.
use super::*;
use crate::checks::{holds_at, same_at};
use std::process::Abort;

// These octets are a text, borrowed, copied, or read.
fn is_text(rt: &impl Abort, alloc: Global, octets: &[u8]) -> Result<(), Error> {
    let text = text_from(octets)?;
    same_at(rt, text.len(), text.as_bytes(), octets);
    let copy = owned_text(alloc, octets)?;
    same_at(rt, text.len(), copy.as_bytes(), octets);
    let mut reader = der_reader(octets)?;
    let header = Header::new(Tag::Utf8String, text.len());
    let read = borrowed_text(alloc, &mut reader, header)?;
    same_at(rt, text.len(), read, text);
    Ok(())
}

#[test]
fn octets_in_utf8_are_texts(rt: HostRuntime) -> Result<(), Fail> {
    let rows: [&[u8]; 9] = [
        &[0x00],
        &[0x7F],
        &[0xC2, 0x80],
        &[0xDF, 0xBF],
        &[0xE0, 0xA0, 0x80],
        &[0xED, 0x9F, 0xBF],
        &[0xEE, 0x80, 0x80],
        &[0xF0, 0x90, 0x80, 0x80],
        &[0xF4, 0x8F, 0xBF, 0xBF],
    ];
    for octets in rows {
        is_text(&rt, rt.alloc(), octets)?;
    }
    Ok(())
}

// These octets are not text; the reader is after them then.
fn is_refused(rt: &impl Abort, alloc: Global, octets: &[u8]) -> Result<(), Error> {
    let mut reader = der_reader(octets)?;
    let end = u32::from(reader.input_len());
    holds_at(rt, end, is_no_text(text_from(octets).err()));
    holds_at(rt, end, is_no_text(owned_text(alloc, octets).err()));
    let refused = borrowed_text(alloc, &mut reader, header_of(end));
    holds_at(rt, end, is_no_text(refused.err()));
    same_at(rt, end, reader.place(), (end, end, false));
    let mut reader = der_reader(octets)?;
    let refused = StringOwned::decode_value(alloc, &mut reader, header_of(end));
    holds_at(rt, end, is_no_text(refused.err()));
    same_at(rt, end, reader.place(), (end, end, false));
    Ok(())
}

// Overlong encodings, surrogates, code points past the last one, a lone continuation octet, and
// truncated characters.
#[test]
fn octets_that_are_not_utf8_are_refused_as_texts(rt: HostRuntime) -> Result<(), Fail> {
    let rows: [&[u8]; 13] = [
        &[0xFF],
        &[0x80],
        &[0xC0, 0x80],
        &[0xC1, 0xBF],
        &[0xE0, 0x9F, 0xBF],
        &[0xED, 0xA0, 0x80],
        &[0xED, 0xBF, 0xBF],
        &[0xF0, 0x8F, 0xBF, 0xBF],
        &[0xF4, 0x90, 0x80, 0x80],
        &[0xC3],
        &[0xE2, 0x82],
        &[0xF0, 0x9F, 0x98],
        &[0x61, 0xC3, 0x28],
    ];
    for octets in rows {
        is_refused(&rt, rt.alloc(), octets)?;
    }
    Ok(())
}
