//! Writing by hand with an index: a position in the output, and no writer.
use crate::common::Totals;
use crate::written::Wanted;
use std::hint::black_box;

/// Writes each value with `write`, which takes a position and returns the one after the value, or
/// `None` if there is too little space. Returns the number of values and of octets.
#[inline(always)]
fn put_all<I>(
    values: &[I],
    out: &mut [u8],
    write: impl Fn(&mut [u8], usize, &I) -> Option<usize>,
) -> Totals {
    let mut totals = Totals::default();
    let mut at = 0;
    for value in values {
        let Some(following) = write(out, at, value) else {
            return totals;
        };
        totals.elements = totals.elements.wrapping_add(1);
        at = following;
    }
    totals.contents = at as u64;
    totals
}

#[inline(never)]
pub fn headers(wanted: &[Wanted], out: &mut [u8]) -> Totals {
    put_all(wanted, out, |out, at, one| {
        let leading = one.class << 6 | (one.constructed != 0) as u8 * 0x20;
        let at = put_tag(out, at, leading, one.number)?;
        put_length(out, at, one.length)
    })
}

#[inline(never)]
pub fn known(lengths: &[u32], out: &mut [u8]) -> Totals {
    put_all(lengths, out, |out, mut at, length| {
        for first in [0x30, 0x02, 0x06, 0xA3] {
            at = put_octet(out, at, first)?;
            at = put_length(out, at, *length)?;
        }
        Some(at)
    })
}

#[inline(never)]
pub fn elements(numbers: &[u64], out: &mut [u8]) -> Totals {
    put_all(numbers, out, |out, at, number| {
        put_element(out, at, *number)
    })
}

#[inline(never)]
pub fn sequences(numbers: &[u64], out: &mut [u8]) -> Totals {
    put_all(numbers, out, |out, at, number| {
        let at = put_octet(out, at, 0x30)?;
        let at = put_length(out, at, 40)?;
        let at = put_element(out, at, *number)?;
        let at = put_element(out, at, *number)?;
        let at = put_element(out, at, *number)?;
        put_element(out, at, *number)
    })
}

#[inline(always)]
pub fn put_octet(out: &mut [u8], at: usize, octet: u8) -> Option<usize> {
    *out.get_mut(at)? = octet;
    Some(at + 1)
}

#[inline(always)]
fn put_tag(out: &mut [u8], at: usize, leading: u8, number: u32) -> Option<usize> {
    if number < 31 {
        return put_octet(out, at, leading | number as u8);
    }
    let mut at = put_octet(out, at, leading | 31)?;
    for place in (1..5).rev() {
        if number >> (7 * place) != 0 {
            at = put_octet(out, at, 0x80 | (number >> (7 * place)) as u8)?;
        }
    }
    put_octet(out, at, (number & 0x7F) as u8)
}

#[inline(always)]
pub fn put_length(out: &mut [u8], at: usize, length: u32) -> Option<usize> {
    if length < 0x80 {
        return put_octet(out, at, length as u8);
    }
    let octets = length.to_be_bytes();
    let digits = &octets[length.leading_zeros() as usize / 8..];
    let at = put_octet(out, at, 0x80 | digits.len() as u8)?;
    let following = at + digits.len();
    out.get_mut(at..following)?.copy_from_slice(digits);
    Some(following)
}

/// Writes an OCTET STRING of the eight octets of a number.
#[inline(always)]
fn put_element(out: &mut [u8], at: usize, number: u64) -> Option<usize> {
    let at = put_octet(out, at, 0x04)?;
    let at = put_length(out, at, 8)?;
    out.get_mut(at..at + 8)?
        .copy_from_slice(&number.to_be_bytes());
    Some(at + 8)
}

#[inline(always)]
fn push_element(out: &mut Vec<u8>, number: u64) {
    out.extend_from_slice(&[0x04, 0x08]);
    out.extend_from_slice(&number.to_be_bytes());
}

/// Counts octets that were written, and the last of them.
#[inline(always)]
pub fn pass(totals: &mut Totals, octets: &[u8]) {
    totals.elements = totals.elements.wrapping_add(1);
    totals.contents = totals.contents.wrapping_add(octets.len() as u64);
    let last = octets.last().copied().unwrap_or(0);
    totals.octet_sum = totals.octet_sum.wrapping_add(last as u64);
}

#[inline(never)]
pub fn to_slice(numbers: &[u64]) -> Totals {
    let mut totals = Totals::default();
    for number in numbers {
        let mut buf = [0; 16];
        let Some(following) = put_element(&mut buf, 0, *number) else {
            return totals;
        };
        pass(&mut totals, black_box(&buf[..following]));
    }
    totals
}

#[inline(never)]
pub fn to_der(numbers: &[u64]) -> Totals {
    let mut totals = Totals::default();
    for number in numbers {
        let mut octets = Vec::with_capacity(10);
        push_element(&mut octets, *number);
        pass(&mut totals, black_box(&octets));
    }
    totals
}

#[inline(never)]
pub fn to_vec(numbers: &[u64]) -> Totals {
    let mut totals = Totals::default();
    let mut out = Vec::new();
    for number in numbers {
        push_element(&mut out, *number);
        totals.elements = totals.elements.wrapping_add(1);
    }
    totals.contents = out.len() as u64;
    totals.octet_sum = out.last().copied().unwrap_or(0) as u64;
    totals
}
