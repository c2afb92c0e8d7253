//! Calls that tests make on a reader that returns slices.
use der::{Error, Header, SliceReader, decode_header};

/// The next header.
pub fn next_header(reader: &mut SliceReader<'_>) -> Result<Header, Error> {
    decode_header(reader)
}
