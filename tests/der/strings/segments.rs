//! Worked cases of octets in segments. The expected results are worked out by hand from X.690 and
//! the rules for errors.
use crate::der::strings::readers::next_header;
use der::{
    BytesOwned, Decode, Error, ErrorKind, Header, Length, Reader, ReaderExt, SliceReader, Tag,
    TagNumber, read_constructed_vec,
};
use crate::fixtures::errors::{
    incomplete, incorrect, indefinite, invalid_number, unexpected, unknown, unsupported,
};
use crate::fixtures::readers::{
    Placed, ber_failing, ber_reader, ber_not_borrowed, der_reader, der_not_borrowed, place_of,
};
use example_calls::reader::CopyingReader;
use std::alloc::Global;
use std::test::Fail;

mod cuts;
mod faults;
mod joined;
mod joining;
mod levels;
mod model;
mod parts;
mod segments;

// Readers that join segments, without naming their types.
trait Joins: Placed + Drop {
    // The joined segments with this tag, after a length.
    fn join(&mut self, alloc: Global, length: Length, tag: Tag) -> Result<Vec<u8>, Error>;
}

impl<'a> Joins for SliceReader<'a> {
    fn join(&mut self, alloc: Global, length: Length, tag: Tag) -> Result<Vec<u8>, Error> {
        read_constructed_vec(alloc, self, length, tag)
    }
}

impl<'a> Joins for CopyingReader<'a> {
    fn join(&mut self, alloc: Global, length: Length, tag: Tag) -> Result<Vec<u8>, Error> {
        read_constructed_vec(alloc, self, length, tag)
    }
}

// The octets of the vector, or the error.
fn view(read: &Result<Vec<u8>, Error>) -> Result<&[u8], Error> {
    match read {
        Ok(octets) => Ok(octets.as_slice()),
        Err(error) => Err(*error),
    }
}

// How many octets there are.
fn count_of(octets: &[u8]) -> Result<u32, Error> {
    Ok(u32::from(Length::new_usize(octets.len())?))
}

// The tag `[0]`.
fn context_specific(constructed: bool) -> Tag {
    TagNumber::new(0).context_specific(constructed)
}
