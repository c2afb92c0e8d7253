//! Values that are known when the program is written, and defaults of other types than `u64`.
use crate::checks::same_at;
use crate::fixtures::readers::der_reader;
use der::{Decode, Encode, Error, ErrorKind, Length, Reader, Tag};
use der_asn1::{
    BooleanRef, DefaultEmpty, DefaultI64, Defaulted, IntegerIn, IntegerOf, SequenceOf,
    Utf8StringRef, WithDefault,
};
use std::alloc::Global;

#[test]
fn a_known_number_is_written(rt: HostRuntime) {
    let number: IntegerIn<1, 300> = IntegerIn::known(200);
    same_at(&rt, "number", number.get(), 200);
    let expected: &[u8] = &[2, 2, 0, 200];
    match number.to_der(rt.alloc()) {
        Ok(octets) => same_at(&rt, "octets", octets.as_slice(), expected),
        Err(error) => same_at(&rt, "error", Some(error), None),
    }
}

#[test]
fn a_known_text_is_written(rt: HostRuntime) {
    let text = Utf8StringRef::from_text("Gr\u{FC}n");
    same_at(&rt, "text", text.as_str(), "Gr\u{FC}n");
    let expected: &[u8] = &[12, 5, 0x47, 0x72, 0xC3, 0xBC, 0x6E];
    match text.to_der(rt.alloc()) {
        Ok(octets) => same_at(&rt, "octets", octets.as_slice(), expected),
        Err(error) => same_at(&rt, "error", Some(error), None),
    }
}

// INTEGER DEFAULT -1
type MinusOne = Defaulted<WithDefault<IntegerOf<i64>, DefaultI64<{ -1 }>>>;

fn number(alloc: Global, octets: &[u8]) -> Result<(i64, Length), Error> {
    let mut reader = der_reader(octets)?;
    let field = MinusOne::decode(alloc, &mut reader)?;
    Ok((field.0.value.number, reader.position()))
}

#[test]
fn an_absent_number_below_zero_is_the_default(rt: HostRuntime) {
    let written = ErrorKind::Noncanonical { tag: Tag::Integer };
    let rows: [(&[u8], Result<(i64, Length), Error>); 4] = [
        (&[], Ok((-1, Length::ZERO))),
        (&[5, 0], Ok((-1, Length::ZERO))),
        (&[2, 1, 0xFE], Ok((-2, Length::new(3)))),
        (&[2, 1, 0xFF], Err(written.at(Length::new(3)))),
    ];
    for (row, (octets, expected)) in rows.into_iter().enumerate() {
        same_at(&rt, row, number(rt.alloc(), octets), expected);
    }
}

// SEQUENCE OF BOOLEAN DEFAULT {}
type NoItems<'a> = Defaulted<WithDefault<SequenceOf<'a, BooleanRef<'a>>, DefaultEmpty>>;

fn items<'a>(alloc: Global, octets: &'a [u8]) -> Result<(&'a [u8], Length), Error> {
    let mut reader = der_reader(octets)?;
    let field: NoItems<'a> = Defaulted::decode(alloc, &mut reader)?;
    Ok((field.0.value.octets(), reader.position()))
}

#[test]
fn an_absent_list_is_the_empty_one(rt: HostRuntime) {
    let written = ErrorKind::Noncanonical { tag: Tag::Sequence };
    let rows: [(&[u8], Result<(&[u8], Length), Error>); 3] = [
        (&[], Ok((&[], Length::ZERO))),
        (&[0x30, 3, 1, 1, 0xFF], Ok((&[1, 1, 0xFF], Length::new(5)))),
        (&[0x30, 0], Err(written.at(Length::new(2)))),
    ];
    for (row, (octets, expected)) in rows.into_iter().enumerate() {
        same_at(&rt, row, items(rt.alloc(), octets), expected);
    }
}
