//! The work of writing.rs with the crate `der`.
use crate::common::Totals;
use crate::put::pass;
use crate::written::Wanted;
use der::{
    Encode, EncodeValue, FixedTag, Header, Length, Result, SliceWriter, Tag, TagNumber, Writer,
};

/// The octets of a number, the most significant first.
struct Eight([u8; 8]);

impl FixedTag for Eight {
    const TAG: Tag = Tag::OctetString;
}

impl EncodeValue for Eight {
    fn value_len(&self) -> Result<Length> {
        Ok(Length::new(8))
    }

    fn encode_value(&self, writer: &mut impl Writer) -> Result<()> {
        writer.write(&self.0)
    }
}

/// Writes each value with `write` and one writer, until an error. Returns the number of values and
/// of octets.
#[inline(always)]
fn put_all<I>(
    values: &[I],
    out: &mut [u8],
    write: impl Fn(&mut SliceWriter<'_>, &I) -> Result<()>,
) -> Totals {
    let mut totals = Totals::default();
    let mut writer = SliceWriter::new(out);
    for value in values {
        if write(&mut writer, value).is_err() {
            return totals;
        }
        totals.elements = totals.elements.wrapping_add(1);
    }
    if let Ok(octets) = writer.finish() {
        totals.contents = octets.len() as u64;
    }
    totals
}

fn tag_of(wanted: &Wanted) -> Tag {
    let constructed = wanted.constructed != 0;
    let number = TagNumber(wanted.number);
    match wanted.class {
        0 => universal_of(wanted.number),
        1 => number.application(constructed),
        2 => number.context_specific(constructed),
        _ => number.private(constructed),
    }
}

fn universal_of(number: u32) -> Tag {
    match number {
        1 => Tag::Boolean,
        2 => Tag::Integer,
        3 => Tag::BitString,
        4 => Tag::OctetString,
        6 => Tag::ObjectIdentifier,
        12 => Tag::Utf8String,
        16 => Tag::Sequence,
        17 => Tag::Set,
        19 => Tag::PrintableString,
        23 => Tag::UtcTime,
        _ => Tag::Null,
    }
}

#[inline(never)]
pub fn headers(wanted: &[Wanted], out: &mut [u8]) -> Totals {
    put_all(wanted, out, |writer, one| {
        writer.encode(&Header::new(tag_of(one), Length::new(one.length)))
    })
}

#[inline(never)]
pub fn known(lengths: &[u32], out: &mut [u8]) -> Totals {
    put_all(lengths, out, |writer, length| {
        let len = Length::new(*length);
        writer.encode(&Header::new(Tag::Sequence, len))?;
        writer.encode(&Header::new(Tag::Integer, len))?;
        writer.encode(&Header::new(Tag::ObjectIdentifier, len))?;
        writer.encode(&Header::new(TagNumber(3).context_specific(true), len))
    })
}

#[inline(never)]
pub fn elements(numbers: &[u64], out: &mut [u8]) -> Totals {
    put_all(numbers, out, |writer, number| {
        writer.encode(&Eight(number.to_be_bytes()))
    })
}

#[inline(always)]
fn put_four(writer: &mut SliceWriter<'_>, value: &Eight) -> Result<()> {
    writer.encode(value)?;
    writer.encode(value)?;
    writer.encode(value)?;
    writer.encode(value)
}

#[inline(never)]
fn call_four(writer: &mut SliceWriter<'_>, value: &Eight) -> Result<()> {
    put_four(writer, value)
}

#[inline(never)]
pub fn sequences(numbers: &[u64], out: &mut [u8]) -> Totals {
    put_all(numbers, out, |writer, number| {
        let value = Eight(number.to_be_bytes());
        writer.sequence(Length::new(40), |inside| put_four(inside, &value))
    })
}

#[inline(never)]
pub fn called(numbers: &[u64], out: &mut [u8]) -> Totals {
    put_all(numbers, out, |writer, number| {
        let value = Eight(number.to_be_bytes());
        writer.sequence(Length::new(40), |inside| call_four(inside, &value))
    })
}

#[inline(never)]
pub fn to_slice(numbers: &[u64]) -> Totals {
    let mut totals = Totals::default();
    for number in numbers {
        let mut buf = [0; 16];
        let Ok(octets) = Eight(number.to_be_bytes()).encode_to_slice(&mut buf) else {
            return totals;
        };
        pass(&mut totals, octets);
    }
    totals
}

#[inline(never)]
pub fn to_der(numbers: &[u64]) -> Totals {
    let mut totals = Totals::default();
    for number in numbers {
        let Ok(octets) = Eight(number.to_be_bytes()).to_der() else {
            return totals;
        };
        pass(&mut totals, &octets);
    }
    totals
}

#[inline(never)]
pub fn to_vec(numbers: &[u64]) -> Totals {
    let mut totals = Totals::default();
    let mut out = Vec::new();
    for number in numbers {
        if Eight(number.to_be_bytes()).encode_to_vec(&mut out).is_err() {
            return totals;
        }
        totals.elements = totals.elements.wrapping_add(1);
    }
    totals.contents = out.len() as u64;
    totals.octet_sum = out.last().copied().unwrap_or(0) as u64;
    totals
}
