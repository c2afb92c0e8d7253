//! Headers, lengths, tags and elements as octets.
use super::month::september;
use super::*;
use crate::checks::{holds, holds_at, same, same_at};
use der::{Encode, SliceWriter, encode_tlv, encoded_len_tlv};
use crate::fixtures::encodings::{LENGTHS, tags};
use crate::fixtures::readers::front;

#[test]
fn a_header_is_written_alike_to_vectors_and_slices(rt: HostRuntime) -> Result<(), Fail> {
    let header = Header::new(Tag::Sequence, Length::new(256));
    same(&rt, header.encoded_len(), Ok(Length::new(4)));
    let der = header.to_der(rt.alloc())?;
    same(&rt, der.as_slice(), [0x30, 0x82, 0x01, 0x00].as_slice());
    let mut out = Vec::from_slice(rt.alloc(), &[0xAAu8])?;
    same(&rt, header.encode_to_vec(&mut out), Ok(Length::new(4)));
    same(
        &rt,
        out.as_slice(),
        [0xAA, 0x30, 0x82, 0x01, 0x00].as_slice(),
    );
    let mut buf = [0xBB; 6];
    same(&rt, header.encode_to_slice(&mut buf)?, der.as_slice());
    let longest = Header::new(TagNumber(4294967295).context_specific(true), Length::MAX);
    same(&rt, longest.encoded_len(), Ok(Length::new(11)));
    Ok(())
}

#[test]
fn a_header_is_refused_where_the_buffer_is_too_short(rt: HostRuntime) {
    let header = Header::new(Tag::Sequence, Length::new(256));
    let mut buf = [0; 3];
    let refused = header.encode_to_slice(&mut buf);
    let no_space = ErrorKind::Overlength.at(Length::new(4));
    holds(&rt, matches!(refused, Err(error) if error == no_space));
}

#[test]
fn lengths_are_written_in_the_shortest_form_and_read_back(rt: HostRuntime) -> Result<(), Fail> {
    for (number, want) in LENGTHS {
        let length = Length::new(number);
        let mut buf = [0; 5];
        let der = length.encode_to_slice(&mut buf)?;
        same_at(&rt, number, der, want);
        same_at(
            &rt,
            number,
            length.encoded_len(),
            Length::new_usize(want.len()),
        );
        same_at(
            &rt,
            number,
            front::<Length>(rt.alloc(), der),
            Ok((length, 0)),
        );
    }
    let mut buf = [0; 5];
    let indefinite = Length::new_indefinite(128).encode_to_slice(&mut buf)?;
    same(&rt, indefinite, [0x81, 0x80].as_slice());
    Ok(())
}

// Whether a tag is written as these octets, has their length, and is read from them.
fn is_written_as(alloc: Global, tag: Tag, want: &[u8]) -> Result<bool, Error> {
    let mut buf = [0; 6];
    let der = tag.encode_to_slice(&mut buf)?;
    let is_counted = tag.encoded_len() == Length::new_usize(want.len());
    let is_read = front::<Tag>(alloc, der) == Ok((tag, 0));
    Ok(der == want && is_counted && is_read)
}

#[test]
fn tags_of_one_to_six_octets_are_written_and_read_back(rt: HostRuntime) -> Result<(), Fail> {
    for (tag, octets) in tags() {
        holds_at(&rt, tag, is_written_as(rt.alloc(), tag, octets)?);
    }
    Ok(())
}

#[test]
fn an_element_is_written_with_its_header(rt: HostRuntime) -> Result<(), Fail> {
    let mut buf = [0; 4];
    let mut writer = SliceWriter::new(&mut buf);
    let month = september()?;
    same(&rt, encode_tlv(&month, &mut writer), Ok(()));
    same(&rt, encoded_len_tlv(&month), Ok(Length::new(3)));
    same(&rt, writer.finish()?, [0x04, 0x01, 0x09].as_slice());
    Ok(())
}
