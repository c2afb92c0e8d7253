//! Headers that are read.
use super::*;
use crate::checks::{holds, same, same_at};
use crate::fixtures::bodies::first_octets;
use crate::fixtures::errors::{incorrect, indefinite};

fn header(alloc: Global, bytes: &[u8]) -> Result<(Header, usize), Error> {
    front::<Header>(alloc, bytes)
}

#[test]
fn headers_at_the_front_are_read(rt: HostRuntime) {
    let alloc = rt.alloc();
    let integer = Header::new(Tag::Integer, Length::ONE);
    same(
        &rt,
        header(alloc, &[0x02, 0x01, 0x2A, 0x00]),
        Ok((integer, 2)),
    );
    let sequence = Header::new(Tag::Sequence, Length::new(256));
    same(
        &rt,
        header(alloc, &[0x30, 0x82, 0x01, 0x00]),
        Ok((sequence, 0)),
    );
    let longest = Header::new(TagNumber(4294967295).context_specific(true), Length::MAX);
    let octets = [
        0xBF, 0x8F, 0xFF, 0xFF, 0xFF, 0x7F, 0x84, 0xFF, 0xFF, 0xFF, 0xFF,
    ];
    same(&rt, header(alloc, &octets), Ok((longest, 0)));
}

#[test]
fn a_header_returns_its_tag_length_and_bit(rt: HostRuntime) {
    let sequence = Header::new(Tag::Sequence, Length::new(3));
    same(&rt, sequence.tag(), Tag::Sequence);
    same(&rt, sequence.length(), Length::new(3));
    holds(&rt, sequence.is_constructed());
    let octets = Header::new(Tag::OctetString, Length::new(3));
    holds(&rt, !octets.is_constructed());
    let indefinite = Header::new(Tag::OctetString, Length::new_indefinite(5));
    holds(&rt, indefinite.is_constructed());
    let shorter = indefinite.with_length(Length::new(3));
    holds(&rt, shorter.is_constructed());
    same(&rt, shorter.length(), Length::new(3));
    holds(&rt, shorter != octets);
}

#[test]
fn headers_that_are_cut_or_wrong_are_refused(rt: HostRuntime) {
    let rows: [(&[u8], Error); 6] = [
        (&[], incomplete(1, 0, 0)),
        (&[0x30], incomplete(2, 1, 1)),
        (&[0x04, 0x81, 0x7F], incorrect(Tag::OctetString, 3)),
        (&[0x04, 0x85], incorrect(Tag::OctetString, 2)),
        (&[0x04, 0x80], indefinite(2)),
        (&[0x30, 0x80, 0x00, 0x00], indefinite(2)),
    ];
    for (octets, error) in rows {
        same_at(&rt, error, header(rt.alloc(), octets), Err(error));
    }
}

// Each octet of the longest header is required, and reported if it is missing.
#[test]
fn a_cut_header_wants_the_octet_that_is_missing(rt: HostRuntime) {
    let longest = [
        0xBF, 0x8F, 0xFF, 0xFF, 0xFF, 0x7F, 0x84, 0xFF, 0xFF, 0xFF, 0xFF,
    ];
    for count in 0..=10u32 {
        let cut = header(rt.alloc(), first_octets(&longest, count as usize));
        same_at(&rt, count, cut, Err(incomplete(count + 1, count, count)));
    }
}

#[test]
fn a_refused_header_leaves_the_reader_failed(rt: HostRuntime) -> Result<(), Fail> {
    let octets = [0x04, 0x81, 0x7F, 0x05];
    let mut reader = der_reader(&octets)?;
    let refused = Err(incorrect(Tag::OctetString, 3));
    same(&rt, decode_header(&mut reader), refused);
    same(&rt, reader.place(), (3, 4, true));
    let failed = ErrorKind::Failed.at(Length::new(3));
    same(&rt, decode_header(&mut reader), Err(failed));
    same(&rt, Header::decode(rt.alloc(), &mut reader), Err(failed));
    Ok(())
}
