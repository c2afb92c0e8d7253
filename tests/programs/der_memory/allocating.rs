//! Calls that allocate with the global allocator, one after the other. For each call a line with
//! its result is printed. If no allocation failed, the line has the value that the call returns. If
//! an allocation failed, the line has `out of memory`, but only if the call left the reader or the
//! vector as the documentation of the function says. `.ci/refused_memory` runs this program many
//! times, and in each run one of the allocations fails.
use der::example::{BorrowedOctets, JoinedOctets, MyByteMonth, OwnedText};
use der::{
    BytesCow, BytesOwned, BytesRef, Decode, DecodeValue, Encode, EncodingRules, Error, ErrorKind,
    Header, Length, Reader, SliceReader, StringOwned, StringRef, Tag, read_constructed_vec,
    slice_to_owned,
};
use example_calls::reader::CopyingReader;
use example_calls::set_of::set_of_der;
use std::alloc::Global;
use std::boxed::BoxedSlice;
use std::fmt::Debug;
use std::io;

pub fn calls(rt: &impl Print, alloc: Global) -> io::Result<()> {
    let header = Header::new(Tag::Sequence, Length::new(256));
    print_value(rt, "to_der", header.to_der(alloc))?;
    print_value(rt, "encode_to_vec", append(alloc))?;
    print_value(rt, "read_vec", copy(alloc))?;
    print_value(rt, "box", boxed_month(alloc))?;
    print_value(rt, "slice_to_owned", slice_to_owned(alloc, &OCTETS))?;
    print_value(rt, "from_slice", from_slice(alloc))?;
    print_value(rt, "from_ref", from_ref(alloc))?;
    print_value(rt, "ref_to_owned", ref_to_owned(alloc))?;
    print_value(rt, "clone_in", clone_in(alloc))?;
    print_value(rt, "from_bytes", from_bytes(alloc))?;
    print_value(rt, "text_to_owned", text_to_owned(alloc))?;
    print_value(rt, "clone_text", clone_text(alloc))?;
    print_value(rt, "owned_octets", owned_octets(alloc))?;
    print_value(rt, "owned_cow", owned_cow(alloc))?;
    print_value(rt, "owned_text", owned_text(alloc))?;
    print_value(rt, "segments_at_once", segments_at_once(alloc))?;
    print_value(rt, "segment_by_segment", segment_by_segment(alloc))?;
    print_value(rt, "segment_in_segment", segment_in_segment(alloc))?;
    print_value(rt, "joined_octets", joined_octets(alloc))?;
    print_value(rt, "decode_value_parts", octets_in_one(alloc))?;
    print_value(rt, "set_of_der", sorted_set(alloc))
}

const OCTETS: [u8; 3] = [0x61, 0x62, 0x63];

fn from_slice(alloc: Global) -> Result<BoxedSlice<u8>, Error> {
    Ok(BytesOwned::from_slice(alloc, &OCTETS)?.into_box())
}

fn from_ref(alloc: Global) -> Result<BoxedSlice<u8>, Error> {
    Ok(BytesOwned::from_ref(alloc, BytesRef::new(&OCTETS)?)?.into_box())
}

fn ref_to_owned(alloc: Global) -> Result<BoxedSlice<u8>, Error> {
    Ok(BytesRef::new(&OCTETS)?.ref_to_owned(alloc)?.into_box())
}

fn clone_in(alloc: Global) -> Result<BoxedSlice<u8>, Error> {
    let octets = BytesOwned::from_slice(alloc, &OCTETS)?;
    Ok(octets.clone_in(alloc)?.into_box())
}

fn from_bytes(alloc: Global) -> Result<u32, Error> {
    Ok(u32::from(StringOwned::from_bytes(alloc, &OCTETS)?.len()))
}

fn text_to_owned(alloc: Global) -> Result<u32, Error> {
    let text = StringRef::new("abc")?;
    Ok(u32::from(text.ref_to_owned(alloc)?.len()))
}

fn clone_text(alloc: Global) -> Result<u32, Error> {
    let text = StringOwned::from_bytes(alloc, &OCTETS)?;
    Ok(u32::from(text.clone_in(alloc)?.len()))
}

// A copy of three octets. If an error moved the reader, the result is `Failed`.
fn owned_octets(alloc: Global) -> Result<BoxedSlice<u8>, Error> {
    let mut reader = SliceReader::new(&OCTETS)?;
    let header = Header::new(Tag::OctetString, Length::new(3));
    let read = BytesOwned::decode_value(alloc, &mut reader, header);
    if read.is_err() && (reader.position() > Length::ZERO || reader.is_failed()) {
        return Err(ErrorKind::Failed.to_error());
    }
    Ok(read?.into_box())
}

// Three octets of a reader that returns no slices of its input. If an error moved the reader or
// made it fail, the result is `Failed`.
fn owned_cow(alloc: Global) -> Result<u32, Error> {
    let mut reader = CopyingReader::new(SliceReader::new(&OCTETS)?);
    let header = Header::new(Tag::OctetString, Length::new(3));
    let read = BytesCow::decode_value(alloc, &mut reader, header);
    if read.is_err() && (reader.position() > Length::ZERO || reader.is_failed()) {
        return Err(ErrorKind::Failed.to_error());
    }
    Ok(u32::from(read?.as_bytes_ref().len()))
}

// A text of three octets. If the reader is not after it, or has failed, the result is `Failed`.
fn owned_text(alloc: Global) -> Result<u32, Error> {
    let mut reader = SliceReader::new(&[0x0C, 0x03, 0x61, 0x62, 0x63])?;
    let read = OwnedText::decode(alloc, &mut reader);
    if reader.position() != Length::new(5) || reader.is_failed() {
        return Err(ErrorKind::Failed.to_error());
    }
    Ok(u32::from(read?.text.len()))
}

const SEGMENT: [u8; 4] = [0x04, 0x02, 0xAA, 0xBB];

// A segment, with a length that gives the size to allocate. If an error moved the reader, the
// result is `Failed`.
fn segments_at_once(alloc: Global) -> Result<Vec<u8>, Error> {
    let mut reader = SliceReader::new(&SEGMENT)?;
    let length = Length::new_indefinite(4);
    let joined = read_constructed_vec(alloc, &mut reader, length, Tag::OctetString);
    if joined.is_err() && (reader.position() > Length::ZERO || reader.is_failed()) {
        return Err(ErrorKind::Failed.to_error());
    }
    joined
}

// A segment, with a length that gives no size to allocate. If an error leaves the reader elsewhere
// than after its header, the result is `Failed`.
fn segment_by_segment(alloc: Global) -> Result<Vec<u8>, Error> {
    let mut reader = SliceReader::new(&SEGMENT)?;
    let length = Length::new_indefinite(0);
    let joined = read_constructed_vec(alloc, &mut reader, length, Tag::OctetString);
    if joined.is_err() && (reader.position() != Length::new(2) || reader.is_failed()) {
        return Err(ErrorKind::Failed.to_error());
    }
    joined
}

// A segment inside another, with a length that gives no size to allocate. If an error leaves the
// reader elsewhere than after the inner header, or inside the outer segment, the result is
// `Failed`.
fn segment_in_segment(alloc: Global) -> Result<Vec<u8>, Error> {
    let segments = [0x24, 0x05, 0x04, 0x03, 0x61, 0x62, 0x63];
    let mut reader = SliceReader::new_with_encoding_rules(&segments, EncodingRules::Ber)?;
    let joined = read_constructed_vec(alloc, &mut reader, Length::ZERO, Tag::OctetString);
    let end = reader.input_len();
    if joined.is_err() && (reader.position() != Length::new(4) || reader.is_failed()) {
        return Err(ErrorKind::Failed.to_error());
    }
    if end != Length::new(7) {
        return Err(ErrorKind::Failed.to_error());
    }
    joined
}

// Segments after a header. If an error leaves the reader elsewhere than after the header, the
// result is `Failed`.
fn joined_octets(alloc: Global) -> Result<BoxedSlice<u8>, Error> {
    let segments = [
        0x24, 0x80, 0x24, 0x80, 0x04, 0x01, 0x61, 0x00, 0x00, 0x04, 0x02, 0x62, 0x63, 0x00, 0x00,
    ];
    let mut reader = SliceReader::new_with_encoding_rules(&segments, EncodingRules::Ber)?;
    let joined = JoinedOctets::decode(alloc, &mut reader);
    if joined.is_err() && (reader.position() != Length::new(2) || reader.is_failed()) {
        return Err(ErrorKind::Failed.to_error());
    }
    Ok(joined?.octets.into_box())
}

// Octets after a primitive header. If an error moved the reader, the result is `Failed`.
fn octets_in_one(alloc: Global) -> Result<BoxedSlice<u8>, Error> {
    let mut reader = SliceReader::new(&OCTETS)?;
    let header = Header::new(Tag::OctetString, Length::new(3));
    let read = BytesOwned::decode_value_parts(alloc, &mut reader, header, Tag::OctetString);
    if read.is_err() && (reader.position() > Length::ZERO || reader.is_failed()) {
        return Err(ErrorKind::Failed.to_error());
    }
    Ok(read?.into_box())
}

fn borrowed(octets: &[u8]) -> Result<BorrowedOctets<'_>, Error> {
    let octets = BytesRef::new(octets)?;
    Ok(BorrowedOctets { octets })
}

// A SET OF two elements, which are sorted first.
fn sorted_set(alloc: Global) -> Result<Vec<u8>, Error> {
    let mut elements = [borrowed(&[0x00, 0x00])?, borrowed(&[0xFF])?];
    set_of_der(alloc, &mut elements)
}

fn print_value<T: Debug + Drop>(
    rt: &impl Print,
    call: &str,
    answer: Result<T, Error>,
) -> io::Result<()> {
    match answer {
        Ok(value) => println!(rt; "{call}: {value:?}"),
        Err(error) if error == ErrorKind::OutOfMemory.to_error() => {
            println!(rt; "{call}: out of memory")
        }
        Err(error) => println!(rt; "{call}: {error}"),
    }
}

// Appends a month to a full vector of one octet. If an error changed the vector, the result is the
// vector.
fn append(alloc: Global) -> Result<Vec<u8>, Error> {
    let Some(month) = MyByteMonth::new(9) else {
        return Err(ErrorKind::DateTime.to_error());
    };
    let Ok(mut out) = Vec::from_slice(alloc, &[0xAAu8]) else {
        return Err(ErrorKind::OutOfMemory.to_error());
    };
    match month.encode_to_vec(&mut out) {
        Err(error) if out.as_slice() == [0xAA].as_slice() => Err(error),
        _ => Ok(out),
    }
}

// A copy of two octets. If an error moved the reader, the result is `Failed`.
fn copy(alloc: Global) -> Result<Vec<u8>, Error> {
    let mut reader = SliceReader::new(&[0x01, 0x02])?;
    let copied = reader.read_vec(alloc, Length::new(2));
    if copied.is_err() && (reader.position() > Length::ZERO || reader.is_failed()) {
        return Err(ErrorKind::Failed.to_error());
    }
    copied
}

// The number of a boxed month. If the reader is not after it, or has failed, the result is
// `Failed`.
fn boxed_month(alloc: Global) -> Result<u8, Error> {
    let mut reader = SliceReader::new(&[0x04, 0x01, 0x09])?;
    let decoded = Box::<MyByteMonth>::decode(alloc, &mut reader);
    if reader.position() != Length::new(3) || reader.is_failed() {
        return Err(ErrorKind::Failed.to_error());
    }
    let month = decoded?;
    Ok(month.month())
}
