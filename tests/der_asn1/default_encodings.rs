//! DEFAULT fields whose default is recognized by its contents octets: an algorithm, as in RFC 4055,
//! 3.1.
ghost use Rattle.std.specs.Prelude.{[], ◌∷◌};

use crate::checks::same_at;
use crate::fixtures::readers::{ber_reader, der_reader};
use der::{
    Decode, Encode, Error, ErrorKind, IsValue, Length, Reader, SliceReader, Tag,
};
use der_asn1::{
    AnyRef, Checked, DefaultEncoding, DefaultOf, DefaultedTo, Optional, has_contents,
};
use spki::AlgorithmIdentifierRef;
use std::alloc::Global;

// sha1Identifier: the object identifier 1.3.14.3.2.26, and NULL.
struct Sha1;

impl<'a> DefaultOf<AlgorithmIdentifierRef<'a>> for Sha1 {
    ghost default_contents = { 6 ∷ 5 ∷ 43 ∷ 14 ∷ 3 ∷ 2 ∷ 26 ∷ 5 ∷ 0 ∷ [] };

    fn default_value() -> AlgorithmIdentifierRef<'a> {
        AlgorithmIdentifierRef {
            oid: Checked::formed(&[43, 14, 3, 2, 26]),
            parameters: Optional(Some(AnyRef {
                tag: Tag::Null,
                contents: &[],
            })),
        }
    }
}

impl<'a> DefaultEncoding<AlgorithmIdentifierRef<'a>> for Sha1 {
    fn is_default(value: &AlgorithmIdentifierRef<'a>) -> bool {
        value.is_value();
        let octets = [6, 5, 43, 14, 3, 2, 26, 5, 0];
        has_contents(value, &octets, &mut [0; 9])
    }
}

// The octets of the object identifier of a field, whether it has parameters, and the position after
// it.
type Seen<'a> = (&'a [u8], bool, Length);

fn seen<'a>(
    alloc: Global,
    reader: Result<SliceReader<'a>, Error>,
) -> Result<Seen<'a>, Error> {
    let mut reader = reader?;
    let field: DefaultedTo<AlgorithmIdentifierRef<'a>, Sha1> =
        DefaultedTo::decode(alloc, &mut reader)?;
    let has_parameters = field.0.parameters.0.is_some();
    Ok((field.0.oid.octets(), has_parameters, reader.position()))
}

static SHA1: [u8; 11] = [0x30, 9, 6, 5, 43, 14, 3, 2, 26, 5, 0];

#[test]
fn an_absent_algorithm_is_the_default(rt: HostRuntime) {
    let written = ErrorKind::Noncanonical { tag: Tag::Sequence };
    let rows: [(&[u8], Result<Seen<'_>, Error>); 5] = [
        (&[], Ok((&[43, 14, 3, 2, 26], true, Length::ZERO))),
        (&[5, 0], Ok((&[43, 14, 3, 2, 26], true, Length::ZERO))),
        (&[0x30, 3, 6, 1, 42, 5, 0], Ok((&[42], false, Length::new(5)))),
        // the same object identifier without parameters is another value
        (
            &[0x30, 7, 6, 5, 43, 14, 3, 2, 26],
            Ok((&[43, 14, 3, 2, 26], false, Length::new(9))),
        ),
        (&SHA1, Err(written.at(Length::new(11)))),
    ];
    for (row, (octets, expected)) in rows.into_iter().enumerate() {
        same_at(&rt, row, seen(rt.alloc(), der_reader(octets)), expected);
    }
}

#[test]
fn a_default_algorithm_may_be_written_under_ber(rt: HostRuntime) {
    let expected: (&[u8], bool, Length) = (&[43, 14, 3, 2, 26], true, Length::new(11));
    same_at(&rt, 0, seen(rt.alloc(), ber_reader(&SHA1)), Ok(expected));
    // with an indefinite length
    let open = [0x30, 0x80, 6, 5, 43, 14, 3, 2, 26, 5, 0, 0, 0];
    let expected: (&[u8], bool, Length) = (&[43, 14, 3, 2, 26], true, Length::new(13));
    same_at(&rt, 1, seen(rt.alloc(), ber_reader(&open)), Ok(expected));
}

// The encoding of a field that is the value of these octets under BER.
fn written(alloc: Global, octets: &[u8]) -> Result<Vec<u8>, Error> {
    let mut reader = ber_reader(octets)?;
    let field: DefaultedTo<AlgorithmIdentifierRef<'_>, Sha1> =
        DefaultedTo::decode(alloc, &mut reader)?;
    field.to_der(alloc)
}

#[test]
fn a_default_algorithm_is_not_written(rt: HostRuntime) {
    let rows: [(&[u8], &[u8]); 3] = [
        (&SHA1, &[]),
        (&[], &[]),
        (&[0x30, 3, 6, 1, 42], &[0x30, 3, 6, 1, 42]),
    ];
    for (row, (octets, expected)) in rows.into_iter().enumerate() {
        match written(rt.alloc(), octets) {
            Ok(octets) => same_at(&rt, row, octets.as_slice(), expected),
            Err(error) => same_at(&rt, row, Some(error), None),
        }
    }
}
