//! Parcels that are put together, and written.
use super::octets::{FULL, PLAN, SEAL, SMALL};
use crate::checks::{holds, same, same_octets};
use der::{DecodeBytes, Encode, Tag};
use der_asn1::{
    AnyRef, BooleanRef, DefaultValue, Defaulted, Explicit, Implicit, IntRef, IntegerIn, IntegerOf,
    NamedInteger, ObjectIdentifierRef, Optional, PrintableStringRef, SequenceOf,
    Utf8StringRef, WithDefault,
};
use example_parcels::{Address, Journey, Parcel, Plan, Seal, TextTagged, Text, Version};
use spki::AlgorithmIdentifierRef;
use std::alloc::Global;
use std::process::Abort;

fn sender() -> Option<Address<'static>> {
    Some(Address {
        name: Utf8StringRef::new(b"Ann")?,
        street: PrintableStringRef::new(b"Main St 1")?,
        code: Optional(None),
        type_: Optional(None),
        note: Optional(None),
    })
}

fn small(alloc: Global) -> Option<Parcel<'static>> {
    Some(Parcel {
        version: Defaulted(Explicit(WithDefault::new(NamedInteger::<Version>::new(Version::V1)))),
        number: IntRef::new(&[7])?,
        weight: IntegerIn::new(250)?,
        packing: Defaulted(DefaultValue::default_value()),
        handling: Optional(None),
        opened: Defaulted(BooleanRef::new(&[0])?),
        journey: Journey {
            sender: Implicit(sender()?),
            receiver: Optional(None),
            stops: SequenceOf::new(alloc, &[]).ok()?,
            properties: Optional(None),
            attempts: Defaulted(Implicit(WithDefault::new(IntegerOf { number: 0u64 }))),
        },
        label: Optional(None),
    })
}

#[test]
fn a_parcel_with_defaults_is_written_without_them(rt: HostRuntime) {
    let Some(parcel) = small(rt.alloc()) else {
        holds(&rt, false);
        return;
    };
    match parcel.to_der(rt.alloc()) {
        Ok(written) => same_octets(&rt, written.as_slice(), &SMALL),
        Err(_) => holds(&rt, false),
    }
}

fn seal() -> Option<Seal<'static>> {
    Some(Seal {
        algorithm: AlgorithmIdentifierRef {
            oid: ObjectIdentifierRef::new(&[0x2A, 0x87, 0x67, 2])?,
            parameters: Optional(Some(AnyRef {
                tag: Tag::Null,
                contents: &[],
            })),
        },
        text: Implicit(TextTagged {
            value: Text::Utf8(Utf8StringRef::new(b"ok")?),
        }),
        extra: Optional(Some(AnyRef {
            tag: Tag::OctetString,
            contents: b"x",
        })),
    })
}

#[test]
fn a_seal_is_written(rt: HostRuntime) {
    let Some(seal) = seal() else {
        holds(&rt, false);
        return;
    };
    match seal.to_der(rt.alloc()) {
        Ok(written) => same_octets(&rt, written.as_slice(), &SEAL),
        Err(_) => holds(&rt, false),
    }
}

// Checks that a value is written so that its encoding ends before index 250 of a buffer.
fn is_placed<T: Encode>(rt: &impl Abort, value: &T, encoding: &[u8]) {
    let mut buf = [0xAA; 252];
    let start = value.encode_before(&mut buf, 250) as usize;
    same_octets(rt, &buf[start..250], encoding);
    same_octets(rt, &buf[250..], &[0xAA, 0xAA]);
}

#[test]
fn values_are_written_from_the_end(rt: HostRuntime) {
    match (small(rt.alloc()), seal()) {
        (Some(parcel), Some(seal)) => {
            same(&rt, parcel.len_before(), Some(31));
            is_placed(&rt, &parcel, &SMALL);
            same(&rt, seal.len_before(), Some(21));
            is_placed(&rt, &seal, &SEAL);
        }
        _ => holds(&rt, false),
    }
}

#[test]
fn values_that_were_read_are_written_from_the_end(rt: HostRuntime) {
    match (Parcel::from_der(rt.alloc(), &FULL), Plan::from_der(rt.alloc(), &PLAN)) {
        (Ok(parcel), Ok(plan)) => {
            same(&rt, parcel.len_before(), Some(FULL.len() as u32));
            is_placed(&rt, &parcel, &FULL);
            same(&rt, plan.len_before(), Some(98));
            is_placed(&rt, &plan, &PLAN);
        }
        _ => holds(&rt, false),
    }
}
