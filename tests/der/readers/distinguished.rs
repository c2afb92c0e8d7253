//! Worked cases of reading under the Distinguished Encoding Rules. The expected results are worked
//! out by hand from X.690 and the rules for errors.
use der::{
    Decode, Error, ErrorKind, Header, Length, Octets, Reader, ReaderExt, SliceReader, Tag,
    TagNumber, decode_header, decode_length,
};
use crate::fixtures::errors::{incomplete, trailing};
use crate::fixtures::readers::{Placed, der_reader, der_not_borrowed, front};
use example_calls::reader::CopyingReader;
use std::alloc::Global;
use std::test::Fail;

mod peeks;
mod constants;
mod depth;
mod failed;
mod headers;
mod lengths;
mod memory;
mod nested;
mod readers;
mod tags;
mod not_borrowed;
mod not_borrowed_parts;
mod not_borrowed_peeks;

// Calls that several tests make.
fn octet(reader: &mut SliceReader<'_>) -> Result<u8, Error> {
    reader.read_byte()
}

fn tag_by(alloc: Global, reader: &mut SliceReader<'_>) -> Result<Tag, Error> {
    reader.decode(alloc)
}

fn not_borrowed_tag(alloc: Global, reader: &mut CopyingReader<'_>) -> Result<Tag, Error> {
    reader.decode(alloc)
}

fn peeked_header(reader: &SliceReader<'_>) -> Result<Header, Error> {
    Header::peek(reader)
}
