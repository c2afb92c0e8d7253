//! Comparisons of values, and of lists of values.
use crate::print::print_result;
use der::example::BorrowedOctets;
use der::{BytesRef, DerOrd, Error, Header, Length, Tag, ValueOrd, iter_cmp, iter_cmp_owned};
use std::cmp::Ordering;
use std::io;

fn borrowed(octets: &[u8]) -> Result<BorrowedOctets<'_>, Error> {
    let octets = BytesRef::new(octets)?;
    Ok(BorrowedOctets { octets })
}

pub fn values(rt: &impl Print) -> io::Result<()> {
    print_result(rt, "der_cmp", elements())?;
    print_result(rt, "value_cmp", contents())?;
    print_result(rt, "Tag::der_cmp", Tag::Sequence.der_cmp(&Tag::Ia5String))?;
    print_result(rt, "Length::der_cmp", Length::ONE.der_cmp(&Length::MAX))?;
    print_result(rt, "Header::der_cmp", header(1).der_cmp(&header(1)))?;
    print_result(rt, "BytesRef::der_cmp", octets())
}

fn header(number: u32) -> Header {
    Header::new(Tag::OctetString, Length::new(number))
}

fn elements() -> Result<Ordering, Error> {
    borrowed(&[0xFF])?.der_cmp(&borrowed(&[0x00, 0x00])?)
}

fn contents() -> Result<Ordering, Error> {
    borrowed(&[0xFF])?.value_cmp(&borrowed(&[0x00, 0x00])?)
}

fn octets() -> Result<Ordering, Error> {
    BytesRef::new(&[0xFF])?.der_cmp(&BytesRef::new(&[0x00, 0x00])?)
}

pub fn lists(rt: &impl Print) -> io::Result<()> {
    print_result(rt, "iter_cmp", references())?;
    print_result(rt, "iter_cmp_owned", copies())
}

fn references() -> Result<Ordering, Error> {
    let one = [borrowed(&[0x01])?];
    let two = [borrowed(&[0x01])?, borrowed(&[0x00])?];
    iter_cmp(one.iter(), two.iter())
}

fn copies() -> Result<Ordering, Error> {
    let one = [borrowed(&[0x01])?];
    let two = [borrowed(&[0x01])?, borrowed(&[0x00])?];
    iter_cmp_owned(two.iter().copied(), one.iter().copied())
}
