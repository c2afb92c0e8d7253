//! Fields that may be absent, and elements of any tag.
use crate::checks::{holds, same_at};
use der::{
    Decode, DecodeBytes, Encode, Error, ErrorKind, Length, Reader, SliceReader, Tag, TagNumber,
};
use der_asn1::{AnyRef, IntRef, Optional};
use std::alloc::Global;

// The optional integer at the front of the octets, and the position after it.
fn next_integer<'a>(alloc: Global, octets: &'a [u8]) -> Result<(Option<&'a [u8]>, Length), Error> {
    let mut reader = SliceReader::new(octets)?;
    let field: Optional<IntRef<'a>> = Optional::decode(alloc, &mut reader)?;
    let contents = match &field.0 {
        Some(value) => Some(value.octets()),
        None => None,
    };
    Ok((contents, reader.position()))
}

// The tag and the contents of an element.
fn any_element<'a>(alloc: Global, octets: &'a [u8]) -> Result<(Tag, &'a [u8]), Error> {
    let any: AnyRef<'a> = AnyRef::from_der(alloc, octets)?;
    Ok((any.tag, any.contents))
}

#[test]
fn a_field_may_be_absent(rt: HostRuntime) {
    let rows: [(&[u8], Result<(Option<&[u8]>, Length), Error>); 5] = [
        (&[], Ok((None, Length::ZERO))),
        (&[5, 0], Ok((None, Length::ZERO))),
        (&[2, 1, 7, 5, 0], Ok((Some(&[7]), Length::new(3)))),
        (
            &[2, 2, 0, 1],
            Err(ErrorKind::Value { tag: Tag::Integer }.at(Length::new(4))),
        ),
        (&[0x1F], Err(ErrorKind::TagNumberInvalid.at(Length::new(1)))),
    ];
    for (row, (octets, expected)) in rows.into_iter().enumerate() {
        same_at(&rt, row, next_integer(rt.alloc(), octets), expected);
    }
}

#[test]
fn elements_of_any_tag_are_read(rt: HostRuntime) {
    let octets = [0xA0, 3, 2, 1, 5];
    let context = TagNumber(0).context_specific(true);
    same_at(
        &rt,
        0,
        any_element(rt.alloc(), &octets),
        Ok((context, &octets[2..])),
    );
    same_at(
        &rt,
        1,
        any_element(rt.alloc(), &[5, 0]),
        Ok((Tag::Null, &[])),
    );
    same_at(
        &rt,
        2,
        any_element(rt.alloc(), &[0x30, 0x80, 0, 0]),
        Err(ErrorKind::IndefiniteLength.at(Length::new(2))),
    );
}

#[test]
fn an_element_is_written_as_it_was_read(rt: HostRuntime) {
    let octets = [0xA0, 3, 2, 1, 5];
    let Ok(any) = AnyRef::from_der(rt.alloc(), &octets) else {
        holds(&rt, false);
        return;
    };
    let written = any.to_der(rt.alloc());
    holds(
        &rt,
        written.is_ok_and(|written| written.as_slice() == octets.as_slice()),
    );
}

#[test]
fn under_ber_an_element_has_what_is_before_its_eoc(rt: HostRuntime) {
    let octets = [0x30, 0x80, 5, 0, 0, 0];
    let any: Result<AnyRef<'_>, Error> = AnyRef::from_ber(rt.alloc(), &octets);
    holds(
        &rt,
        any.is_ok_and(|any| any.tag == Tag::Sequence && any.contents == [5, 0].as_slice()),
    );
}
