//! DEFAULT fields whose default is given by a type: numbers, truth values and items of an
//! enumeration.
ghost use Rattle.std.specs.Prelude.{[], ◌∷◌};

use crate::checks::same_at;
use der::{Decode, Encode, Error, ErrorKind, Length, Reader, SliceReader, Tag, TagNumber};
use der_asn1::{
    BooleanRef, DefaultOf, DefaultTrue, DefaultU32, Defaulted, Enumerated, Implicit, IntegerOf,
    WithDefault,
};
use crate::fixtures::readers::{ber_reader, der_reader};
use std::alloc::Global;
use x509::CrlReason;

// The reason of a revocation whose reason is absent.
struct Unspecified;

impl DefaultOf<Enumerated<CrlReason>> for Unspecified {
    ghost default_contents = { 0 ∷ [] };

    fn default_value() -> Enumerated<CrlReason> {
        Enumerated::new(CrlReason::Unspecified)
    }
}

// saltLength of RFC 4055, 3.1: [2] INTEGER DEFAULT 20, with an implicit tag.
type SaltLength = Implicit<WithDefault<IntegerOf<u32>, DefaultU32<20>>, 2>;

type Reason = WithDefault<Enumerated<CrlReason>, Unspecified>;

type Flag<'a> = WithDefault<BooleanRef<'a>, DefaultTrue>;

// The value of the field at the front, and the position after it.
fn salt_length(
    alloc: Global,
    reader: Result<SliceReader<'_>, Error>,
) -> Result<(u32, Length), Error> {
    let mut reader = reader?;
    let field: Defaulted<SaltLength> = Defaulted::decode(alloc, &mut reader)?;
    Ok((field.value().number, reader.position()))
}

fn reason(alloc: Global, reader: Result<SliceReader<'_>, Error>) -> Result<(CrlReason, Length), Error> {
    let mut reader = reader?;
    let field: Defaulted<Reason> = Defaulted::decode(alloc, &mut reader)?;
    Ok((field.value().item(), reader.position()))
}

fn flag(alloc: Global, reader: Result<SliceReader<'_>, Error>) -> Result<(bool, Length), Error> {
    let mut reader = reader?;
    let field: Defaulted<Flag<'_>> = Defaulted::decode(alloc, &mut reader)?;
    Ok((field.value().is_true(), reader.position()))
}

#[test]
fn numbers_have_defaults(rt: HostRuntime) {
    let tag = TagNumber(2).context_specific(false);
    let written = ErrorKind::Noncanonical { tag };
    let rows: [(&[u8], Result<(u32, Length), Error>); 4] = [
        (&[], Ok((20, Length::ZERO))),
        (&[0x83, 1, 1], Ok((20, Length::ZERO))),
        (&[0x82, 1, 32], Ok((32, Length::new(3)))),
        (&[0x82, 1, 20], Err(written.at(Length::new(3)))),
    ];
    for (row, (octets, expected)) in rows.into_iter().enumerate() {
        same_at(&rt, row, salt_length(rt.alloc(), der_reader(octets)), expected);
    }
    let octets = [0x82, 1, 20];
    let answer = salt_length(rt.alloc(), ber_reader(&octets));
    same_at(&rt, 4, answer, Ok((20, Length::new(3))));
}

#[test]
fn items_and_truth_values_have_defaults(rt: HostRuntime) {
    let written = ErrorKind::Noncanonical { tag: Tag::Enumerated };
    let rows: [(&[u8], Result<(CrlReason, Length), Error>); 3] = [
        (&[], Ok((CrlReason::Unspecified, Length::ZERO))),
        (&[10, 1, 1], Ok((CrlReason::KeyCompromise, Length::new(3)))),
        (&[10, 1, 0], Err(written.at(Length::new(3)))),
    ];
    for (row, (octets, expected)) in rows.into_iter().enumerate() {
        same_at(&rt, row, reason(rt.alloc(), der_reader(octets)), expected);
    }
    let written = ErrorKind::Noncanonical { tag: Tag::Boolean };
    let rows: [(&[u8], Result<(bool, Length), Error>); 3] = [
        (&[], Ok((true, Length::ZERO))),
        (&[1, 1, 0], Ok((false, Length::new(3)))),
        (&[1, 1, 0xFF], Err(written.at(Length::new(3)))),
    ];
    for (row, (octets, expected)) in rows.into_iter().enumerate() {
        same_at(&rt, row, flag(rt.alloc(), der_reader(octets)), expected);
    }
}

// The encoding of a field with this number.
fn written(alloc: Global, number: u32) -> Result<Vec<u8>, Error> {
    Defaulted::<SaltLength>(Implicit(WithDefault::new(IntegerOf { number }))).to_der(alloc)
}

#[test]
fn a_default_number_is_not_written(rt: HostRuntime) {
    let rows: [(u32, &[u8]); 2] = [(20, &[]), (32, &[0x82, 1, 32])];
    for (row, (number, expected)) in rows.into_iter().enumerate() {
        match written(rt.alloc(), number) {
            Ok(octets) => same_at(&rt, row, octets.as_slice(), expected),
            Err(error) => same_at(&rt, row, Some(error), None),
        }
    }
}
