//! Worked cases of byte strings and texts. The expected results are worked out by hand from X.690,
//! the rules for errors, and the definition of UTF-8.
use der::example::{BorrowedOctets, OwnedText};
use der::{
    BytesCow, BytesOwned, BytesRef, Decode, DecodeBytes, DecodeValue, Encode, EncodeValue, Error,
    ErrorKind, Header, Length, Reader, SliceReader, StringCow, StringOwned, StringRef, Tag,
};
use crate::fixtures::errors::{incomplete, indefinite, trailing, unexpected, unsupported};
use crate::fixtures::readers::{Placed, ber_reader, der_reader, der_not_borrowed};
use example_calls::reader::CopyingReader;
use std::alloc::Global;
use std::test::Fail;

mod borrowed;
mod constants;
mod cows;
mod examples;
mod orders;
mod owned;
mod sizes;
mod tagged;
mod texts;

// Borrowed octets.
fn bytes_of(octets: &[u8]) -> Result<BytesRef<'_>, Error> {
    BytesRef::new(octets)
}

// Owned octets.
fn owned_bytes(alloc: Global, octets: &[u8]) -> Result<BytesOwned, Error> {
    BytesOwned::from_slice(alloc, octets)
}

// A borrowed text.
fn text_of(text: &str) -> Result<StringRef<'_>, Error> {
    StringRef::new(text)
}

// A borrowed text, from its octets.
fn text_from(octets: &[u8]) -> Result<StringRef<'_>, Error> {
    StringRef::from_bytes(octets)
}

// An owned text, from the octets of a text.
fn owned_text(alloc: Global, octets: &[u8]) -> Result<StringOwned, Error> {
    StringOwned::from_bytes(alloc, octets)
}

// An owned text, from a borrowed one.
fn copied_text(alloc: Global, text: &StringRef<'_>) -> Result<StringOwned, Error> {
    text.ref_to_owned(alloc)
}

// An owned text, from another one.
fn cloned_text(alloc: Global, text: &StringOwned) -> Result<StringOwned, Error> {
    text.clone_in(alloc)
}

// The contents of a text, borrowed from a reader that returns slices.
fn borrowed_text<'a>(
    alloc: Global,
    reader: &mut SliceReader<'a>,
    header: Header,
) -> Result<StringRef<'a>, Error> {
    StringRef::decode_value(alloc, reader, header)
}

// Whether an error says that octets are not text, and has no position.
fn is_no_text(error: Option<Error>) -> bool {
    match error {
        Some(error) => { matches!(error.kind(), ErrorKind::Utf8(_)) && error.position().is_none() }
        None => false,
    }
}

// The header of an OCTET STRING of `count` octets.
fn header_of(count: u32) -> Header {
    Header::new(Tag::OctetString, Length::new(count))
}
