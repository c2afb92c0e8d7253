//! Whole elements of indefinite length.

use super::*;
use crate::checks::{same, same_at, same_octets};
use der::TagNumber;
use crate::fixtures::bodies::ENCRYPTED_CONTENT_INFO;

#[test]
fn an_element_of_indefinite_length_is_borrowed_with_its_eoc(rt: HostRuntime) -> Result<(), Fail> {
    let octets = [0x30, 0x80, 0x05, 0x00, 0x00, 0x00, 0x02, 0x01, 0x2A];
    let mut reader = ber_reader(&octets)?;
    let null = [0x30, 0x80, 0x05, 0x00, 0x00, 0x00];
    same_octets(&rt, next_element(&mut reader)?, &null);
    same(&rt, reader.place(), (6, 9, false));
    same_octets(&rt, next_element(&mut reader)?, &[0x02, 0x01, 0x2A]);
    same(&rt, finished(reader), Ok(()));
    Ok(())
}

// An element ends where the octets that were read for it end, even if its number would take more
// octets in the definite form than the one octet `0x80`.
#[test]
fn an_element_is_borrowed_whole_whatever_the_number_of_its_octets(rt: HostRuntime) -> Result<(), Fail> {
    for count in [0u8, 1, 122, 123, 124, 125, 126, 127] {
        let element = around_contents(rt.alloc(), count)?;
        let octets = element.as_slice();
        let end = count as u32 + 6;
        let mut reader = ber_reader(octets)?;
        same_at(&rt, count, next_element(&mut reader)?, octets);
        same_at(&rt, count, reader.place(), (end, end, false));
    }
    Ok(())
}

#[test]
fn a_reader_that_cannot_read_slices_rejects_an_element_and_stays(rt: HostRuntime) -> Result<(), Fail> {
    let mut reader = ber_not_borrowed(&[0x30, 0x80, 0x00, 0x00])?;
    let refused = ErrorKind::Reader.at(Length::ZERO);
    same(&rt, reader.tlv_bytes().err(), Some(refused));
    same(&rt, reader.place(), (0, 4, false));
    Ok(())
}

#[test]
fn a_primitive_identifier_before_octet_80_begins_no_element(rt: HostRuntime) -> Result<(), Fail> {
    let mut reader = ber_reader(&[0x04, 0x80, 0x00, 0x00])?;
    same(&rt, refused_element(&mut reader), Some(indefinite(2)));
    same(&rt, reader.place(), (0, 4, false));
    Ok(())
}

#[test]
fn the_elements_of_encrypted_contents_are_read_in_turn(rt: HostRuntime) -> Result<(), Fail> {
    let mut reader = ber_reader(&ENCRYPTED_CONTENT_INFO)?;
    let header = next_header(&mut reader)?;
    let info = Header::new(Tag::Sequence, Length::new_indefinite(66));
    same(&rt, header, info);
    same(&rt, reader.place(), (2, 68, false));
    same(&rt, next_element(&mut reader)?.len(), 11);
    same(&rt, next_element(&mut reader)?.len(), 31);
    same(&rt, reader.place(), (44, 68, false));
    let header = Header::decode(rt.alloc(), &mut reader)?;
    same(&rt, header.tag(), TagNumber(0).context_specific(true));
    same(&rt, header.length(), Length::new_indefinite(20));
    same(&rt, reader.place(), (46, 68, false));
    Ok(())
}

// The last of three elements, and how many octets each of them has.
fn read_three<'a>(reader: &mut SliceReader<'a>) -> Result<(&'a [u8], usize, usize), Error>
{
    let first = reader.tlv_bytes()?.len();
    let second = reader.tlv_bytes()?.len();
    Ok((reader.tlv_bytes()?, first, second))
}

#[test]
fn encrypted_contents_are_read_within_their_sequence(rt: HostRuntime) -> Result<(), Fail> {
    let mut reader = ber_reader(&ENCRYPTED_CONTENT_INFO)?;
    let (contents, first, second) = reader.sequence(read_three)?;
    same(&rt, (first, second), (11, 31));
    same_octets(&rt, contents, &ENCRYPTED_CONTENT_INFO[44..66]);
    same(&rt, reader.place(), (68, 68, false));
    same(&rt, finished(reader), Ok(()));
    Ok(())
}
