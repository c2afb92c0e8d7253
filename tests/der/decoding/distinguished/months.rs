//! A month as one octet.
use super::*;
use crate::checks::{same, same_at, same_octets};

// Reads the octets as exactly one month.
fn month_of(alloc: Global, bytes: &[u8]) -> Result<MyByteMonth, Error> {
    value_of(alloc, bytes)
}

// Its number.
fn month(alloc: Global, bytes: &[u8]) -> Result<u8, Error> {
    let month = month_of(alloc, bytes)?;
    Ok(month.month())
}

#[test]
fn a_month_at_the_front_is_read_and_the_rest_is_reported(rt: HostRuntime) -> Result<(), Fail> {
    let octets = [0x04, 0x01, 0x09, 0x05, 0x00];
    let (month, rest): (MyByteMonth, &[u8]) = front_of(rt.alloc(), &octets)?;
    same(&rt, month_number(&month), 9);
    same_octets(&rt, rest, &[0x05, 0x00]);
    Ok(())
}

#[test]
fn cut_months_are_refused(rt: HostRuntime) {
    let alloc = rt.alloc();
    same(&rt, month(alloc, &[]), Err(incomplete(1, 0, 0)));
    same(&rt, month(alloc, &[0x04]), Err(incomplete(2, 1, 1)));
    same(&rt, month(alloc, &[0x04, 0x00]), Err(incomplete(3, 2, 2)));
    same(&rt, month(alloc, &[0x04, 0x01]), Err(incomplete(3, 2, 2)));
}

#[test]
fn octets_left_in_or_after_a_month_are_rejected(rt: HostRuntime) {
    let alloc = rt.alloc();
    same(
        &rt,
        month(alloc, &[0x04, 0x02, 0x09, 0x00]),
        Err(trailing(3, 1)),
    );
    same(
        &rt,
        month(alloc, &[0x04, 0x01, 0x09, 0x00]),
        Err(trailing(3, 1)),
    );
}

// The position of the end of the contents exceeds 32 bits, or the contents are truncated.
#[test]
fn months_of_the_longest_lengths_are_refused(rt: HostRuntime) {
    let alloc = rt.alloc();
    let longest = [0x04, 0x84, 0xFF, 0xFF, 0xFF, 0xFF];
    let overflow = ErrorKind::Overflow.to_error();
    same(&rt, month(alloc, &longest), Err(overflow));
    let shorter = [0x04, 0x84, 0xFF, 0xFF, 0xFF, 0xF9];
    same(&rt, month(alloc, &shorter), Err(incomplete(7, 6, 6)));
}

#[test]
fn a_month_with_a_wrong_length_number_or_tag_is_refused(rt: HostRuntime) {
    let alloc = rt.alloc();
    let incorrect = ErrorKind::Length {
        tag: Tag::OctetString,
    };
    same(
        &rt,
        month(alloc, &[0x04, 0x81, 0x01, 0x09]),
        Err(incorrect.at(Length::new(3))),
    );
    let no_month = ErrorKind::DateTime.at(Length::new(3));
    same(&rt, month(alloc, &[0x04, 0x01, 0x0C]), Err(no_month));
    same(&rt, month(alloc, &[0x04, 0x01, 0xFF]), Err(no_month));
    same(
        &rt,
        month(alloc, &[0x30, 0x01, 0x09]),
        Err(unexpected(Tag::OctetString, Tag::Sequence)),
    );
}

// The number of the month with this number, if there is one.
fn number_of(number: u8) -> Option<u8> {
    let month = MyByteMonth::new(number)?;
    Some(month.month())
}

#[test]
fn numbers_from_0_to_11_alone_are_months(rt: HostRuntime) {
    same(&rt, number_of(0), Some(0));
    same(&rt, number_of(11), Some(11));
    same(&rt, number_of(12), None);
    same(&rt, number_of(255), None);
}

#[test]
fn all_months_are_read_and_written(rt: HostRuntime) -> Result<(), Fail> {
    for number in 0..12u8 {
        let octets = [0x04, 0x01, number];
        let month = month_of(rt.alloc(), &octets)?;
        same(&rt, month_number(&month), number);
        let der = der_of(rt.alloc(), &month)?;
        same_at(&rt, number, der.as_slice(), octets.as_slice());
        same_at(&rt, number, len_of(&month), Ok(Length::new(3)));
    }
    Ok(())
}

#[test]
fn a_month_is_appended_after_other_octets(rt: HostRuntime) -> Result<(), Fail> {
    let month = month_of(rt.alloc(), &[0x04, 0x01, 0x09])?;
    let mut out = Vec::from_slice(rt.alloc(), &[0xAAu8])?;
    same(&rt, month.encode_to_vec(&mut out), Ok(Length::new(3)));
    same_octets(&rt, out.as_slice(), &[0xAA, 0x04, 0x01, 0x09]);
    Ok(())
}

fn buffered<'b>(month: &MyByteMonth, buf: &'b mut [u8]) -> Result<&'b [u8], Error> {
    month.encode_to_slice(buf)
}

#[test]
fn a_month_is_written_only_to_a_buffer_that_has_space(rt: HostRuntime) -> Result<(), Fail> {
    let month = month_of(rt.alloc(), &[0x04, 0x01, 0x09])?;
    let mut buf = [0; 16];
    let written = buffered(&month, &mut buf)?;
    same_octets(&rt, written, &[0x04, 0x01, 0x09]);
    let mut short = [0; 2];
    let no_space = ErrorKind::Overlength.at(Length::new(3));
    same(&rt, buffered(&month, &mut short).err(), Some(no_space));
    Ok(())
}
