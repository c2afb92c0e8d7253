//! A SEQUENCE of two fields.
use super::*;
use crate::checks::{same, same_octets};
use example_calls::algorithm_identifier::AlgorithmIdentifier;

// Reads the octets as exactly one identifier.
fn identifier_of(alloc: Global, bytes: &[u8]) -> Result<AlgorithmIdentifier<'_>, Error> {
    value_of(alloc, bytes)
}

// The two fields of the identifier at the front, and the octets after it.
fn fields_at_front(alloc: Global, bytes: &[u8]) -> Result<(&[u8], u8, &[u8]), Error> {
    let (identifier, rest): (AlgorithmIdentifier<'_>, &[u8]) = front_of(alloc, bytes)?;
    Ok((identifier.algorithm.octets, identifier.month.month(), rest))
}

// The error of reading the octets.
fn refusal(alloc: Global, bytes: &[u8]) -> Option<Error> {
    identifier_of(alloc, bytes).err()
}

#[test]
fn an_identifier_is_read_and_written(rt: HostRuntime) -> Result<(), Fail> {
    let octets = [0x30, 0x06, 0x04, 0x01, 0x2A, 0x04, 0x01, 0x09];
    let identifier = identifier_of(rt.alloc(), &octets)?;
    same_octets(&rt, identifier.algorithm.octets, &[0x2A]);
    same(&rt, month_number(&identifier.month), 9);
    same(&rt, len_of(&identifier), Ok(Length::new(8)));
    let der = der_of(rt.alloc(), &identifier)?;
    same_octets(&rt, der.as_slice(), &octets);
    Ok(())
}

#[test]
fn an_identifier_at_the_front_is_read_and_the_rest_is_reported(rt: HostRuntime) -> Result<(), Fail> {
    let octets = [0x30, 0x05, 0x04, 0x00, 0x04, 0x01, 0x0B, 0x05, 0x00];
    let (algorithm, month, rest) = fields_at_front(rt.alloc(), &octets)?;
    same_octets(&rt, algorithm, &[]);
    same(&rt, month, 11);
    same_octets(&rt, rest, &[0x05, 0x00]);
    Ok(())
}

#[test]
fn an_identifier_without_a_field_is_refused(rt: HostRuntime) {
    let alloc = rt.alloc();
    same(
        &rt,
        refusal(alloc, &[0x30, 0x00]),
        Some(incomplete(3, 2, 2)),
    );
    let no_month = Some(incomplete(6, 5, 5));
    same(
        &rt,
        refusal(alloc, &[0x30, 0x03, 0x04, 0x01, 0x2A]),
        no_month,
    );
    // what follows the SEQUENCE is not a field of it
    same(
        &rt,
        refusal(alloc, &[0x30, 0x03, 0x04, 0x01, 0x2A, 0x04, 0x01, 0x09]),
        no_month,
    );
}

#[test]
fn an_identifier_with_another_tag_is_refused(rt: HostRuntime) {
    let alloc = rt.alloc();
    same(
        &rt,
        refusal(alloc, &[0x31, 0x06, 0x04, 0x01, 0x2A, 0x04, 0x01, 0x09]),
        Some(unexpected(Tag::Sequence, Tag::Set)),
    );
    same(
        &rt,
        refusal(alloc, &[0x30, 0x06, 0x06, 0x01, 0x2A, 0x04, 0x01, 0x09]),
        Some(unexpected(Tag::OctetString, Tag::ObjectIdentifier)),
    );
    same(
        &rt,
        refusal(alloc, &[0x30, 0x06, 0x04, 0x01, 0x2A, 0x02, 0x01, 0x09]),
        Some(unexpected(Tag::OctetString, Tag::Integer)),
    );
}

#[test]
fn octets_left_in_or_after_an_identifier_are_rejected(rt: HostRuntime) {
    let alloc = rt.alloc();
    let inside = [0x30, 0x08, 0x04, 0x01, 0x2A, 0x04, 0x01, 0x09, 0x05, 0x00];
    same(&rt, refusal(alloc, &inside), Some(trailing(8, 2)));
    let following = [0x30, 0x06, 0x04, 0x01, 0x2A, 0x04, 0x01, 0x09, 0x00];
    same(&rt, refusal(alloc, &following), Some(trailing(8, 1)));
    let in_month = [0x30, 0x07, 0x04, 0x01, 0x2A, 0x04, 0x02, 0x09, 0x00];
    same(&rt, refusal(alloc, &in_month), Some(trailing(8, 1)));
}

#[test]
fn a_field_past_the_end_of_an_identifier_is_refused(rt: HostRuntime) {
    let alloc = rt.alloc();
    let algorithm = [0x30, 0x06, 0x04, 0x05, 0x2A, 0x04, 0x01, 0x09];
    same(&rt, refusal(alloc, &algorithm), Some(incomplete(9, 8, 8)));
    // the octet is there, but after the SEQUENCE
    let month = [0x30, 0x05, 0x04, 0x01, 0x2A, 0x04, 0x01, 0x09];
    same(&rt, refusal(alloc, &month), Some(incomplete(8, 7, 7)));
    let whole = [0x30, 0x07, 0x04, 0x01, 0x2A, 0x04, 0x01, 0x09];
    same(&rt, refusal(alloc, &whole), Some(incomplete(9, 8, 8)));
}

#[test]
fn a_number_of_no_month_is_refused_in_an_identifier(rt: HostRuntime) {
    let octets = [0x30, 0x06, 0x04, 0x01, 0x2A, 0x04, 0x01, 0x0C];
    let no_month = ErrorKind::DateTime.at(Length::new(8));
    same(&rt, refusal(rt.alloc(), &octets), Some(no_month));
}
