//! The types of `example` over octets and texts.
use super::*;
use crate::checks::{holds, same};
use crate::der::strings::elements::{borrowed_of_der, borrowed_to_der, text_of_der, text_to_der};
use std::process::Abort;

#[test]
fn octets_are_read_and_written(rt: HostRuntime) -> Result<(), Fail> {
    let alloc = rt.alloc();
    let octets = [0x04, 0x02, 0x01, 0x02];
    let borrowed = borrowed_of_der(alloc, &octets)?;
    same(&rt, borrowed.octets.as_slice(), [0x01, 0x02].as_slice());
    same(
        &rt,
        borrowed_to_der(alloc, &borrowed)?.as_slice(),
        octets.as_slice(),
    );
    let empty = borrowed_of_der(alloc, &[0x04, 0x00])?;
    holds(&rt, empty.octets.is_empty());
    Ok(())
}

// Reading this element gives this error.
fn refused(rt: &impl Abort, alloc: Global, octets: &[u8], error: Error) {
    let refused = borrowed_of_der(alloc, octets).err();
    same(rt, refused, Some(error));
}

#[test]
fn elements_that_are_no_octet_strings_are_refused(rt: HostRuntime) {
    let alloc = rt.alloc();
    refused(&rt, alloc, &[0x04, 0x80, 0x00], indefinite(2));
    let other = unexpected(Tag::OctetString, Tag::Utf8String);
    refused(&rt, alloc, &[0x0C, 0x00], other);
    refused(&rt, alloc, &[0x04, 0x00, 0x00], trailing(2, 1));
    refused(&rt, alloc, &[0x04, 0x02, 0x01], incomplete(4, 3, 3));
}

// Under the Basic Encoding Rules the contents are accepted unchanged, segments too.
#[test]
fn under_ber_octets_are_accepted_unchanged_and_segments_too(rt: HostRuntime) -> Result<(), Fail> {
    let alloc = rt.alloc();
    let constructed = BorrowedOctets::from_ber(alloc, &[0x24, 0x01, 0x09])?;
    same(&rt, constructed.octets.as_slice(), [0x09].as_slice());
    let segments = [0x24, 0x80, 0x04, 0x01, 0x09, 0x00, 0x00];
    let raw = BorrowedOctets::from_ber(alloc, &segments)?;
    same(&rt, raw.octets.as_slice(), [0x04, 0x01, 0x09].as_slice());
    Ok(())
}

#[test]
fn texts_are_read_and_written(rt: HostRuntime) -> Result<(), Fail> {
    let alloc = rt.alloc();
    let octets = [0x0C, 0x03, 0x67, 0xC3, 0xBC];
    let owned = text_of_der(alloc, &octets)?;
    same(&rt, owned.text.as_str(), "gü");
    same(
        &rt,
        text_to_der(alloc, &owned)?.as_slice(),
        octets.as_slice(),
    );
    let ascii = text_of_der(alloc, &[0x0C, 0x02, 0x68, 0x69])?;
    same(&rt, ascii.text.as_str(), "hi");
    Ok(())
}

#[test]
fn elements_that_are_no_texts_are_refused(rt: HostRuntime) -> Result<(), Fail> {
    let alloc = rt.alloc();
    let refused = text_of_der(alloc, &[0x0C, 0x01, 0xFF]);
    holds(&rt, is_no_text(refused.err()));
    let refused = text_of_der(alloc, &[0x0C, 0x01, 0xC3]);
    holds(&rt, is_no_text(refused.err()));
    let refused = text_of_der(alloc, &[0x04, 0x00]).err();
    same(
        &rt,
        refused,
        Some(unexpected(Tag::Utf8String, Tag::OctetString)),
    );
    Ok(())
}

// A reader that returns no slices stays after the header of a value that needs one.
fn not_borrowed<T: Decode<CopyingReader<'static>, Error = Error> + Drop>(
    rt: &impl Abort,
    alloc: Global,
    octets: &'static [u8; 3],
) -> Result<(), Error> {
    let mut reader = der_not_borrowed(octets)?;
    same(
        rt,
        T::decode(alloc, &mut reader).err(),
        Some(unsupported(2)),
    );
    same(rt, reader.place(), (2, 3, false));
    Ok(())
}

#[test]
fn elements_that_need_slices_are_rejected_after_their_header(rt: HostRuntime) -> Result<(), Fail> {
    not_borrowed::<BorrowedOctets<'static>>(&rt, rt.alloc(), &[0x04, 0x01, 0xFF])?;
    not_borrowed::<OwnedText>(&rt, rt.alloc(), &[0x0C, 0x01, 0x68])?;
    Ok(())
}

#[test]
fn octets_are_copied_from_a_reader_that_does_not_read_slices(rt: HostRuntime) -> Result<(), Fail> {
    let mut reader = der_not_borrowed(&[0x01, 0x02])?;
    let bytes = BytesOwned::decode_value(rt.alloc(), &mut reader, header_of(2))?;
    same(&rt, bytes.as_slice(), [0x01, 0x02].as_slice());
    same(&rt, reader.place(), (2, 2, false));
    Ok(())
}

#[test]
fn contents_that_need_slices_are_rejected_where_they_begin(rt: HostRuntime) -> Result<(), Fail> {
    let alloc = rt.alloc();
    let mut reader = der_not_borrowed(&[0x61])?;
    let refused = StringRef::decode_value(alloc, &mut reader, header_of(1)).err();
    same(&rt, refused, Some(unsupported(0)));
    let refused = StringOwned::decode_value(alloc, &mut reader, header_of(1)).err();
    same(&rt, refused, Some(unsupported(0)));
    let refused = BytesRef::decode_value(alloc, &mut reader, header_of(1)).err();
    same(&rt, refused, Some(unsupported(0)));
    same(&rt, reader.place(), (0, 1, false));
    Ok(())
}
