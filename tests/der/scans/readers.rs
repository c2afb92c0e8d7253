//! Readers at the position where a scan begins, and what tests read with readers of slices.

use der::{Error, Header, Length, Reader, ReaderExt, SliceReader, decode_header, decode_length};
use crate::fixtures::readers::ruled_reader;

/// A reader under the Basic Encoding Rules that has consumed `count` octets.
pub fn ruled_after(octets: &[u8], count: u32) -> Result<SliceReader<'_>, Error>
{
    let mut reader = ruled_reader(octets)?;
    match reader.drain(Length::new(count)) {
        Ok(()) => Ok(reader),
        Err(error) => Err(error),
    }
}

/// The next header.
pub fn next_header(reader: &mut SliceReader<'_>) -> Result<Header, Error> {
    decode_header(reader)
}

/// The next length, without a tag.
pub fn next_length(reader: &mut SliceReader<'_>) -> Result<Length, Error> {
    decode_length(reader)
}

/// The next element, whole.
pub fn next_element<'a>(reader: &mut SliceReader<'a>) -> Result<&'a [u8], Error> {
    reader.tlv_bytes()
}
