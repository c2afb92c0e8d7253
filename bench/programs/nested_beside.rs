//! The walk and the decoding of nested.rs with the crate `der`.
use crate::common::Totals;
use crate::{LEVELS, pass};
use der::{Decode, DecodeValue, Error, FixedTag, Header, Length, Reader, SliceReader, Tag};

#[inline(never)]
pub fn walk(bytes: &[u8]) -> Totals {
    let mut totals = Totals::default();
    if let Ok(mut reader) = SliceReader::new(bytes) {
        let _ = walk_part(&mut reader, LEVELS, &mut totals);
    }
    totals
}

/// Walks up to the end of the part that the reader is in.
fn walk_part<'a>(
    reader: &mut SliceReader<'a>,
    levels: usize,
    totals: &mut Totals,
) -> Result<(), Error> {
    while !reader.is_finished() {
        let header = Header::decode(reader)?;
        if header.is_constructed() && levels > 0 {
            pass(totals, &[]);
            reader.read_nested(header.length(), |inner| {
                walk_part(inner, levels - 1, totals)
            })?;
        } else {
            pass(totals, reader.read_slice(header.length())?);
        }
    }
    Ok(())
}

struct Borrowed<'a>(&'a [u8]);

impl FixedTag for Borrowed<'_> {
    const TAG: Tag = Tag::OctetString;
}

impl<'a> DecodeValue<'a> for Borrowed<'a> {
    type Error = Error;

    fn decode_value<R: Reader<'a>>(reader: &mut R, header: Header) -> Result<Self, Error> {
        Ok(Borrowed(reader.read_slice(header.length())?))
    }
}

struct Month(u8);

impl FixedTag for Month {
    const TAG: Tag = Tag::OctetString;
}

impl<'a> DecodeValue<'a> for Month {
    type Error = Error;

    fn decode_value<R: Reader<'a>>(reader: &mut R, header: Header) -> Result<Self, Error> {
        if header.length() != Length::ONE {
            return Err(reader.error(Tag::OctetString.length_error()));
        }
        let month = reader.read_byte()?;
        if month > 11 {
            return Err(reader.error(Tag::OctetString.value_error()));
        }
        Ok(Month(month))
    }
}

struct Algorithm<'a>(Borrowed<'a>, Month);

impl FixedTag for Algorithm<'_> {
    const TAG: Tag = Tag::Sequence;
}

impl<'a> DecodeValue<'a> for Algorithm<'a> {
    type Error = Error;

    fn decode_value<R: Reader<'a>>(reader: &mut R, _header: Header) -> Result<Self, Error> {
        Ok(Algorithm(reader.decode()?, reader.decode()?))
    }
}

struct Key<'a>(Algorithm<'a>, Borrowed<'a>);

impl FixedTag for Key<'_> {
    const TAG: Tag = Tag::Sequence;
}

impl<'a> DecodeValue<'a> for Key<'a> {
    type Error = Error;

    fn decode_value<R: Reader<'a>>(reader: &mut R, _header: Header) -> Result<Self, Error> {
        Ok(Key(reader.decode()?, reader.decode()?))
    }
}

#[inline(never)]
pub fn decode(bytes: &[u8]) -> Totals {
    let mut totals = Totals::default();
    let _ = try_decode(bytes, &mut totals);
    totals
}

fn try_decode(bytes: &[u8], totals: &mut Totals) -> Result<(), Error> {
    let mut reader = SliceReader::new(bytes)?;
    while !reader.is_finished() {
        let Key(Algorithm(algorithm, month), octets) = reader.decode()?;
        let len = algorithm.0.len() + octets.0.len();
        totals.elements = totals.elements.wrapping_add(1);
        totals.contents = totals.contents.wrapping_add(len as u64);
        totals.octet_sum = totals.octet_sum.wrapping_add(month.0 as u64);
    }
    Ok(())
}
