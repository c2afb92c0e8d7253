//! Elements of any tag, decoded as values of other types. Positions count from the start of the
//! contents.
use crate::checks::{holds, same, same_octets};
use crate::fixtures::errors::{trailing, unexpected};
use der::{EncodingRules, Error, ErrorKind, Length, Tag};
use der_asn1::{AnyRef, IntRef, OctetStringRef};
use spki::AlgorithmIdentifierRef;
use std::alloc::Global;

const DER: EncodingRules = EncodingRules::Der;

// The element with this tag and these contents as an algorithm, under the rules.
fn algorithm(alloc: Global, contents: &[u8], rules: EncodingRules) -> Result<bool, Error> {
    let any = AnyRef {
        tag: Tag::Sequence,
        contents,
    };
    let found: AlgorithmIdentifierRef<'_> = any.decode_as(alloc, rules)?;
    Ok(found.parameters.0.is_some())
}

#[test]
fn contents_become_a_value(rt: HostRuntime) -> Result<(), Error> {
    let any = AnyRef {
        tag: Tag::Integer,
        contents: &[0x2A],
    };
    let number: IntRef<'_> = any.decode_as(rt.alloc(), DER)?;
    same_octets(&rt, number.octets(), &[0x2A]);
    // OBJECT IDENTIFIER 1.2.3, and NULL
    same(&rt, algorithm(rt.alloc(), &[6, 2, 0x2A, 3, 5, 0], DER)?, true);
    same(&rt, algorithm(rt.alloc(), &[6, 2, 0x2A, 3], DER)?, false);
    Ok(())
}

#[test]
fn another_tag_is_refused_first(rt: HostRuntime) {
    let any = AnyRef {
        tag: Tag::Integer,
        contents: &[],
    };
    let refused: Result<OctetStringRef<'_>, Error> = any.decode_as(rt.alloc(), DER);
    let expected = unexpected(Tag::OctetString, Tag::Integer);
    holds(&rt, refused.err() == Some(expected));
}

#[test]
fn malformed_contents_are_refused(rt: HostRuntime) {
    let any = AnyRef {
        tag: Tag::Integer,
        contents: &[0, 1],
    };
    let refused: Result<IntRef<'_>, Error> = any.decode_as(rt.alloc(), DER);
    let expected = ErrorKind::Value { tag: Tag::Integer }.at(Length::new(2));
    holds(&rt, refused.err() == Some(expected));
}

#[test]
fn contents_after_the_value_are_refused(rt: HostRuntime) {
    let refused = algorithm(rt.alloc(), &[6, 2, 0x2A, 3, 5, 0, 5, 0], DER);
    holds(&rt, refused.err() == Some(trailing(6, 2)));
}

#[test]
fn indefinite_lengths_inside_need_the_rules_that_allow_them(rt: HostRuntime) {
    // OBJECT IDENTIFIER 1.2.3, and an empty SEQUENCE of indefinite length
    let contents: [u8; 8] = [6, 2, 0x2A, 3, 0x30, 0x80, 0, 0];
    let read = algorithm(rt.alloc(), &contents, EncodingRules::Ber);
    holds(&rt, read == Ok(true));
    let expected = ErrorKind::IndefiniteLength.at(Length::new(6));
    holds(&rt, algorithm(rt.alloc(), &contents, DER).err() == Some(expected));
}
