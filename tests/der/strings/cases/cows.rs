//! Octets and texts that are borrowed if the reader returns slices.
use super::*;
use crate::checks::{holds, same};
use der::encode_value_to_slice;
use std::process::Abort;

// Contents of a reader that returns no slices.
fn octets_of_contents<'a>(
    alloc: Global,
    reader: &mut CopyingReader<'a>,
    header: Header,
) -> Result<BytesCow<'a>, Error> {
    BytesCow::decode_value(alloc, reader, header)
}

// The contents of a text, from a reader that returns slices.
fn text_of_contents<'a>(
    alloc: Global,
    reader: &mut SliceReader<'a>,
    header: Header,
) -> Result<StringCow<'a>, Error> {
    StringCow::decode_value(alloc, reader, header)
}

#[test]
fn octets_are_borrowed_from_a_reader_that_reads_slices(rt: HostRuntime) -> Result<(), Fail> {
    let octets = [0x01, 0x02, 0x03];
    let mut reader = der_reader(&octets)?;
    let bytes = BytesCow::decode_value(rt.alloc(), &mut reader, header_of(3))?;
    holds(&rt, matches!(bytes, BytesCow::Borrowed(_)));
    same(&rt, bytes.as_bytes_ref().as_slice(), octets.as_slice());
    same(&rt, reader.place(), (3, 3, false));
    Ok(())
}

// No contract excludes a `BytesOwned` or a `BytesCow` that always returns `Reader` here: such a
// reader is not reliable, and the contract leaves its errors open.
#[test]
fn octets_are_copied_from_a_reader_that_does_not_read_slices(rt: HostRuntime) -> Result<(), Fail> {
    let octets = [0x01, 0x02, 0x03];
    let mut reader = der_not_borrowed(&octets)?;
    let owned = BytesOwned::decode_value(rt.alloc(), &mut reader, header_of(3))?;
    same(&rt, owned.as_slice(), octets.as_slice());
    same(&rt, reader.place(), (3, 3, false));
    let mut reader = der_not_borrowed(&octets)?;
    let bytes = octets_of_contents(rt.alloc(), &mut reader, header_of(3))?;
    holds(&rt, matches!(bytes, BytesCow::Owned(_)));
    same(&rt, bytes.as_bytes_ref().as_slice(), octets.as_slice());
    same(&rt, reader.place(), (3, 3, false));
    Ok(())
}

#[test]
fn octets_that_are_missing_are_refused_and_the_reader_fails(rt: HostRuntime) -> Result<(), Fail> {
    let mut reader = der_not_borrowed(&[0x01, 0x02, 0x03])?;
    let refused = octets_of_contents(rt.alloc(), &mut reader, header_of(4)).err();
    same(&rt, refused, Some(incomplete(4, 3, 0)));
    same(&rt, reader.place(), (0, 3, true));
    Ok(())
}

#[test]
fn texts_are_borrowed_from_a_reader_that_reads_slices(rt: HostRuntime) -> Result<(), Fail> {
    let mut reader = der_reader(&[0xC3, 0xBC])?;
    let text = text_of_contents(rt.alloc(), &mut reader, header_of(2))?;
    holds(&rt, matches!(text, StringCow::Borrowed(_)));
    same(&rt, text.as_string_ref().as_str(), "ü");
    same(&rt, reader.place(), (2, 2, false));
    Ok(())
}

#[test]
fn texts_are_rejected_by_a_reader_that_does_not_read_slices(rt: HostRuntime) -> Result<(), Fail> {
    let mut reader = der_not_borrowed(&[0xC3, 0xBC])?;
    let refused = StringCow::decode_value(rt.alloc(), &mut reader, header_of(2)).err();
    same(&rt, refused, Some(unsupported(0)));
    same(&rt, reader.place(), (0, 2, false));
    Ok(())
}

#[test]
fn octets_that_are_no_text_are_rejected_after_them(rt: HostRuntime) -> Result<(), Fail> {
    let mut reader = der_reader(&[0xC3])?;
    let refused = text_of_contents(rt.alloc(), &mut reader, header_of(1));
    holds(&rt, is_no_text(refused.err()));
    same(&rt, reader.place(), (1, 1, false));
    Ok(())
}

const TEXT: [u8; 3] = [0x67, 0xC3, 0xBC];

// The encoding is that of the view, borrowed or owned.
fn written<T: EncodeValue>(rt: &impl Abort, value: &T) -> Result<(), Error> {
    same(rt, value.value_len(), Ok(Length::new(3)));
    let mut buffer = [0u8; 4];
    let written = encode_value_to_slice(&mut buffer, value)?;
    same(rt, written, TEXT.as_slice());
    Ok(())
}

#[test]
fn borrowed_and_owned_octets_are_written_alike(rt: HostRuntime) -> Result<(), Fail> {
    written(&rt, &BytesCow::Borrowed(bytes_of(&TEXT)?))?;
    let owned = owned_bytes(rt.alloc(), &TEXT)?;
    written(&rt, &BytesCow::Owned(owned))?;
    Ok(())
}

#[test]
fn borrowed_and_owned_texts_are_written_alike(rt: HostRuntime) -> Result<(), Fail> {
    written(&rt, &StringCow::Borrowed(text_from(&TEXT)?))?;
    let owned = owned_text(rt.alloc(), &TEXT)?;
    written(&rt, &StringCow::Owned(owned))?;
    Ok(())
}
