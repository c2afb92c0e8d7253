//! ENUMERATEDs and INTEGERs as enums. CRLReason of RFC 5280, 5.3.1, has no item 7.
use crate::checks::same_at;
use der::{Encode, Error, ErrorKind, Length, Tag};
use der_asn1::{Enumerated, EnumeratedOf, NamedInteger, lawful_from_der};
use std::alloc::Global;
use x509::CrlReason;

// The reason in this element, and whether it is written exactly as it was read.
fn reason(alloc: Global, octets: &[u8]) -> Result<(CrlReason, bool), Error> {
    let reason: Enumerated<CrlReason> = lawful_from_der(alloc, octets)?;
    let written = reason.to_der(alloc)?;
    Ok((reason.item(), written.as_slice() == octets))
}

// The same, of an INTEGER.
fn integer(alloc: Global, octets: &[u8]) -> Result<(CrlReason, bool), Error> {
    let reason: NamedInteger<CrlReason> = lawful_from_der(alloc, octets)?;
    let written = reason.to_der(alloc)?;
    Ok((reason.item(), written.as_slice() == octets))
}

// The error for the contents, at the position after their last octet.
fn refused(tag: Tag, end: u32) -> Result<(CrlReason, bool), Error> {
    Err(ErrorKind::Value { tag }.at(Length::new(end)))
}

#[test]
fn items_are_read_and_unknown_numbers_refused(rt: HostRuntime) {
    let rows: [(&[u8], Result<(CrlReason, bool), Error>); 8] = [
        (&[10, 1, 0], Ok((CrlReason::Unspecified, true))),
        (&[10, 1, 6], Ok((CrlReason::CertificateHold, true))),
        (&[10, 1, 10], Ok((CrlReason::AaCompromise, true))),
        (&[10, 1, 7], refused(Tag::Enumerated, 3)),
        (&[10, 1, 11], refused(Tag::Enumerated, 3)),
        (&[10, 1, 0xFF], refused(Tag::Enumerated, 3)),
        (&[10, 2, 0, 1], refused(Tag::Enumerated, 4)),
        (&[10, 5, 1, 0, 0, 0, 1], refused(Tag::Enumerated, 7)),
    ];
    for (row, (octets, expected)) in rows.into_iter().enumerate() {
        same_at(&rt, row, reason(rt.alloc(), octets), expected);
    }
}

#[test]
fn unknown_numbers_are_kept_if_there_may_be_more_items(rt: HostRuntime) {
    let rows: [(&[u8], i64, Option<CrlReason>); 6] = [
        (&[10, 1, 6], 6, Some(CrlReason::CertificateHold)),
        (&[10, 1, 7], 7, None),
        (&[10, 1, 0xFF], -1, None),
        (&[10, 2, 1, 6], 262, None),
        (&[10, 5, 1, 0, 0, 0, 6], 4294967302, None),
        (&[10, 8, 0x80, 0, 0, 0, 0, 0, 0, 0], i64::MIN, None),
    ];
    for (row, (octets, number, item)) in rows.into_iter().enumerate() {
        let read: Result<EnumeratedOf<i64>, Error> = lawful_from_der(rt.alloc(), octets);
        match read {
            Ok(value) => {
                same_at(&rt, row, value.number, number);
                same_at(&rt, row, value.known_item::<CrlReason>(), item);
                let written = value.to_der(rt.alloc());
                same_at(&rt, row, written.is_ok_and(|it| it.as_slice() == octets), true);
            }
            Err(_) => same_at(&rt, row, "refused", "read"),
        }
    }
    let made = EnumeratedOf::<i64>::of_item(CrlReason::AaCompromise);
    same_at(&rt, 6, made.number, 10);
}

#[test]
fn numbers_of_more_than_64_bits_are_refused(rt: HostRuntime) {
    let octets = [10, 9, 0, 0x80, 0, 0, 0, 0, 0, 0, 0];
    let read: Result<EnumeratedOf<i64>, Error> = lawful_from_der(rt.alloc(), &octets);
    same_at(&rt, 0, read.is_err(), true);
}

#[test]
fn integers_with_named_numbers_are_read(rt: HostRuntime) {
    let rows: [(&[u8], Result<(CrlReason, bool), Error>); 3] = [
        (&[2, 1, 8], Ok((CrlReason::RemoveFromCrl, true))),
        (&[2, 1, 9], Ok((CrlReason::PrivilegeWithdrawn, true))),
        (&[2, 1, 7], refused(Tag::Integer, 3)),
    ];
    for (row, (octets, expected)) in rows.into_iter().enumerate() {
        same_at(&rt, row, integer(rt.alloc(), octets), expected);
    }
}

#[test]
fn items_are_written_with_their_number(rt: HostRuntime) {
    let element = Enumerated::<CrlReason>::new(CrlReason::RemoveFromCrl).to_der(rt.alloc());
    match element {
        Ok(octets) => same_at(&rt, 0, octets.as_slice(), &[10, 1, 8]),
        Err(error) => same_at(&rt, 0, Some(error), None),
    }
    let element = NamedInteger::<CrlReason>::new(CrlReason::Superseded).to_der(rt.alloc());
    match element {
        Ok(octets) => same_at(&rt, 1, octets.as_slice(), &[2, 1, 4]),
        Err(error) => same_at(&rt, 1, Some(error), None),
    }
}
