//! Calls of functions that can allocate. Each of these calls fails before it allocates.
use crate::print::print_result;
use crate::zeros::Zeros;
use der::example::OwnedText;
use der::{
    BytesOwned, DecodeBytes, DecodeValue, Encode, Error, Header, Length, Reader, SliceReader,
    StringOwned, Tag, read_constructed_vec,
};
use std::alloc::Global;
use std::io;

pub fn of_reading(rt: &impl Print, alloc: Global) -> io::Result<()> {
    print_result(rt, "read_vec past the end", past_the_end(alloc))?;
    print_result(rt, "octets past the end", octets_past_the_end(alloc))?;
    print_result(rt, "a segment past the end", segment_past_the_end(alloc))
}

fn past_the_end(alloc: Global) -> Result<usize, Error> {
    Ok(
        SliceReader::new(&[0x01, 0x02])?
            .read_vec(alloc, Length::new(3))?
            .len(),
    )
}

fn octets_past_the_end(alloc: Global) -> Result<Length, Error> {
    let header = Header::new(Tag::OctetString, Length::new(3));
    let mut reader = SliceReader::new(&[0x01, 0x02])?;
    Ok(BytesOwned::decode_value(alloc, &mut reader, header)?.len())
}

// The length gives no octets to allocate, so nothing is allocated before the segment is read.
fn segment_past_the_end(alloc: Global) -> Result<usize, Error> {
    let mut reader = SliceReader::new(&[0x04, 0x05, 0xAA])?;
    let length = Length::new_indefinite(0);
    Ok(read_constructed_vec(alloc, &mut reader, length, Tag::OctetString)?.len())
}

pub fn of_strings(rt: &impl Print, alloc: Global) -> io::Result<()> {
    print_result(
        rt,
        "no text",
        is_refused(StringOwned::from_bytes(alloc, &[0xFF])),
    )?;
    print_result(
        rt,
        "no text decoded",
        is_refused(OwnedText::from_der(alloc, &[12, 1, 255])),
    )
}

// Whether the octets are not text; the error itself is not printed.
fn is_refused<T: Drop>(answer: Result<T, Error>) -> Result<bool, Error> {
    Ok(answer.is_err())
}

pub fn of_writing(rt: &impl Print, alloc: Global) -> io::Result<()> {
    print_result(rt, "to_der past 32 bits", to_der(alloc))
}

// An element whose header and contents together exceed 32 bits.
fn to_der(alloc: Global) -> Result<usize, Error> {
    let zeros = Zeros { count: 4294967290 };
    Ok(zeros.to_der(alloc)?.len())
}
