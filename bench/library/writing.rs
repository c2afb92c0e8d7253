//! Writing of OCTET STRINGs of eight octets, and of SEQUENCEs that each hold four OCTET STRINGs.
ghost use Rattle.std.specs.Prelude.{Ok};
ghost use Rattle.der.specs.Prelude.{definite_length, OctetString, slice_writer_state, Keeps, Writes, write_outcome};

use crate::Totals;
use der::{
    Encode, EncodeValue, Error, FixedTag, Length, SliceWriter, Tag, Writer, WrittenValue,
    octets_len, place_before,
};
use std::alloc::Global;

// The octets of a number, the most significant first.
#[derive(Clone, Copy)]
struct Eight {
    octets: [u8; 8],
}

impl FixedTag for Eight {
    ghost tag_is = { OctetString };

    const TAG: Tag = Tag::OctetString;

    fn fixed_tag() -> Tag {
        Self::TAG
    }
}

impl WrittenValue for Eight {
    ghost contents = { λ v. v.octets };

    ghost writable = { λ _. Unit {0} };
}

impl EncodeValue for Eight {
    ghost value_size = { λ _. Ok (definite_length 8) };

    ghost encode_value_answers = { λ v s r t. Writes (write_outcome v.octets s) r t };

    fn value_len(&self) -> Result<Length, Error> {
        Ok(Length::new(8))
    }

    fn encode_value<W: Writer>(&self, writer: &mut W) -> Result<(), Error> {
        writer.write(&self.octets)
    }

    fn value_len_before(&self) -> Option<u32> {
        octets_len(&self.octets)
    }

    fn encode_value_before(&self, buf: &mut [u8], end: u32) -> u32 {
        place_before(&self.octets, buf, end)
    }
}

impl Eight {
    #[inline(always)]
    fn new(number: u64) -> Eight {
        Eight {
            octets: number.to_be_bytes(),
        }
    }
}

/// For each number in `numbers`, writes an OCTET STRING of the eight octets of the number to `out`.
/// Writes the OCTET STRINGs one after the other, until all are written or there is an error. In the
/// result, `elements` is the number of OCTET STRINGs written, and `octet_sum` is 0. If all are
/// written, `contents` is the number of octets written. After an error `contents` is 0.
#[unsafe(no_mangle)]
pub extern "C" fn der_bench_put_elements(numbers: &[u64], out: &mut [u8]) -> Totals {
    let mut totals = Totals::none();
    let mut writer = SliceWriter::new(out);
    for number in numbers {
        if writer.encode(&Eight::new(*number)).is_err() {
            return totals;
        }
        totals.pass(0, 0);
    }
    totals.written(writer.finish())
}

/// For each number in `numbers`, writes an OCTET STRING of the eight octets of the number into a
/// new array, until all are written or there is an error. In the result, `elements` is the number
/// of OCTET STRINGs written, `contents` is the total number of octets written, headers included,
/// and `octet_sum` is the sum of the last octets of the OCTET STRINGs.
#[unsafe(no_mangle)]
pub extern "C" fn der_bench_to_slice(numbers: &[u64]) -> Totals {
    let mut totals = Totals::none();
    for number in numbers {
        let mut buf = [0u8; 16];
        let Ok(octets) = Eight::new(*number).encode_to_slice(&mut buf) else {
            return totals;
        };
        totals.pass(octets.len(), last_of(octets) as u64);
    }
    totals
}

// The last octet, or 0. Not inlined, so that the compiler must write all octets and not only this
// one.
#[inline(never)]
pub(crate) fn last_of(octets: &[u8]) -> u8 {
    octets.last().copied().unwrap_or(0)
}

/// For each number in `numbers`, writes an OCTET STRING of the eight octets of the number into a
/// new vector, until all are written or there is an error. In the result, `elements` is the number
/// of OCTET STRINGs written, `contents` is the total number of octets written, headers included,
/// and `octet_sum` is the sum of the last octets of the OCTET STRINGs.
#[unsafe(no_mangle)]
pub extern "C" fn der_bench_to_der(alloc: Global, numbers: &[u64]) -> Totals {
    let mut totals = Totals::none();
    for number in numbers {
        let Ok(octets) = Eight::new(*number).to_der(alloc) else {
            return totals;
        };
        totals.pass(octets.len(), last_of(octets.as_slice()) as u64);
    }
    totals
}

/// For each number in `numbers`, appends an OCTET STRING of the eight octets of the number to one
/// vector, which grows. Stops at the first error. In the result, `elements` is the number of OCTET
/// STRINGs written. If all are written, `contents` is the length of the vector, and `octet_sum` is
/// the last octet of the vector, or 0 if the vector is empty. After an error `contents` and
/// `octet_sum` are 0.
#[unsafe(no_mangle)]
pub extern "C" fn der_bench_to_vec(alloc: Global, numbers: &[u64]) -> Totals {
    let mut totals = Totals::none();
    let mut out = Vec::new(alloc);
    for number in numbers {
        if Eight::new(*number).encode_to_vec(&mut out).is_err() {
            return totals;
        }
        totals.pass(0, 0);
    }
    totals.contents = out.len() as u64;
    totals.octet_sum = out.as_slice().last().copied().unwrap_or(0) as u64;
    totals
}

/// For each number in `numbers`, writes to `out` a SEQUENCE of four equal OCTET STRINGs, each of
/// the eight octets of the number. Writes the SEQUENCEs one after the other, each with a call of
/// [`SliceWriter::sequence`] and a closure. The closure is inlined. Stops at the first error. In
/// the result, `elements` is the number of SEQUENCEs written, and `octet_sum` is 0. If all are
/// written, `contents` is the number of octets written. After an error `contents` is 0.
#[unsafe(no_mangle)]
pub extern "C" fn der_bench_put_sequences(numbers: &[u64], out: &mut [u8]) -> Totals {
    let mut totals = Totals::none();
    let mut writer = SliceWriter::new(out);
    for number in numbers {
        let value = Eight::new(*number);
        let answer = writer.sequence(Length::new(40), |inside| put_four(inside, &value));
        if answer.is_err() {
            return totals;
        }
        totals.pass(0, 0);
    }
    totals.written(writer.finish())
}

/// For each number in `numbers`, writes to `out` a SEQUENCE of four equal OCTET STRINGs, each of
/// the eight octets of the number. Writes the SEQUENCEs one after the other, each with a call of
/// [`SliceWriter::sequence`] and a closure. The closure calls a function that is not inlined. Stops
/// at the first error. In the result, `elements` is the number of SEQUENCEs written, and
/// `octet_sum` is 0. If all are written, `contents` is the number of octets written. After an error
/// `contents` is 0.
#[unsafe(no_mangle)]
pub extern "C" fn der_bench_call_sequences(numbers: &[u64], out: &mut [u8]) -> Totals {
    let mut totals = Totals::none();
    let mut writer = SliceWriter::new(out);
    for number in numbers {
        let value = Eight::new(*number);
        let answer = writer.sequence(Length::new(40), |inside| call_four(inside, &value));
        if answer.is_err() {
            return totals;
        }
        totals.pass(0, 0);
    }
    totals.written(writer.finish())
}

#[inline(always)]
fn put_four(writer: &mut SliceWriter<'_>, value: &Eight) -> Result<(), Error>
    ensures { Keeps (slice_writer_state writer.old) (slice_writer_state writer.new) }
{
    writer.encode(value)?;
    writer.encode(value)?;
    writer.encode(value)?;
    writer.encode(value)
}

#[inline(never)]
fn call_four(writer: &mut SliceWriter<'_>, value: &Eight) -> Result<(), Error>
    ensures { Keeps (slice_writer_state writer.old) (slice_writer_state writer.new) }
{
    put_four(writer, value)
}
