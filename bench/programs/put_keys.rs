//! Writes by hand, with an index, what library/keys.rs writes. A key is a SEQUENCE of an
//! algorithm and an OCTET STRING, and an algorithm is a SEQUENCE of an OCTET STRING and a month.
use crate::common::Totals;
use crate::put::{pass, put_length, put_octet};
use crate::written::WantedKey;
use std::hint::black_box;

const SEQUENCE: u8 = 0x30;
const OCTET_STRING: u8 = 0x04;

/// The number of octets of a length.
#[inline(always)]
fn length_len(length: usize) -> usize {
    if length < 0x80 {
        return 1;
    }
    1 + (71 - (length as u64).leading_zeros() as usize) / 8
}

#[inline(always)]
pub fn element_len(contents: usize) -> Option<usize> {
    if contents > u32::MAX as usize {
        return None;
    }
    Some(1 + length_len(contents) + contents)
}

/// The octets of a key, and the number of octets of its inner SEQUENCE and of the key itself.
struct Key<'a> {
    algorithm: &'a [u8],
    month: u8,
    key: &'a [u8],
    inside: usize,
    contents: usize,
}

#[inline(always)]
fn key_of<'a>(wanted: &WantedKey, borrowed: &'a [u8]) -> Option<Key<'a>> {
    let algorithm = borrowed.get(..wanted.algorithm as usize)?;
    let key = borrowed.get(..wanted.key as usize)?;
    if wanted.month >= 12 {
        return None;
    }
    let inside = element_len(algorithm.len())? + 3;
    let contents = element_len(inside)? + element_len(key.len())?;
    Some(Key {
        algorithm,
        month: wanted.month,
        key,
        inside,
        contents,
    })
}

#[inline(always)]
pub fn put_header(out: &mut [u8], at: usize, first: u8, length: usize) -> Option<usize> {
    let at = put_octet(out, at, first)?;
    put_length(out, at, u32::try_from(length).ok()?)
}

#[inline(always)]
fn put_octets(out: &mut [u8], at: usize, octets: &[u8]) -> Option<usize> {
    let at = put_header(out, at, OCTET_STRING, octets.len())?;
    let after = at + octets.len();
    out.get_mut(at..after)?.copy_from_slice(octets);
    Some(after)
}

#[inline(always)]
fn put_key(out: &mut [u8], at: usize, key: &Key<'_>) -> Option<usize> {
    let at = put_header(out, at, SEQUENCE, key.contents)?;
    let at = put_header(out, at, SEQUENCE, key.inside)?;
    let at = put_octets(out, at, key.algorithm)?;
    let at = put_octets(out, at, &[key.month])?;
    put_octets(out, at, key.key)
}

#[inline(never)]
pub fn count(wanted: &[WantedKey], borrowed: &[u8]) -> Totals {
    let mut totals = Totals::default();
    for one in wanted {
        let Some(len) = key_of(one, borrowed).and_then(|it| element_len(it.contents)) else {
            return totals;
        };
        totals.elements = totals.elements.wrapping_add(1);
        totals.contents = totals.contents.wrapping_add(len as u64);
    }
    totals
}

#[inline(never)]
pub fn keys(wanted: &[WantedKey], borrowed: &[u8], out: &mut [u8]) -> Totals {
    let mut totals = Totals::default();
    let mut at = 0;
    for one in wanted {
        let Some(after) = key_of(one, borrowed).and_then(|it| put_key(out, at, &it)) else {
            return totals;
        };
        totals.elements = totals.elements.wrapping_add(1);
        at = after;
    }
    totals.contents = at as u64;
    totals
}

#[inline(never)]
pub fn to_slice(wanted: &[WantedKey], borrowed: &[u8]) -> Totals {
    let mut totals = Totals::default();
    let mut buf = [0; 1024];
    for one in wanted {
        let Some(after) = key_of(one, borrowed).and_then(|it| put_key(&mut buf, 0, &it)) else {
            return totals;
        };
        pass(&mut totals, black_box(&buf[..after]));
    }
    totals
}

#[inline(never)]
pub fn to_der(wanted: &[WantedKey], borrowed: &[u8]) -> Totals {
    let mut totals = Totals::default();
    for one in wanted {
        let Some(octets) = key_of(one, borrowed).and_then(|it| key_der(&it)) else {
            return totals;
        };
        pass(&mut totals, black_box(&octets));
    }
    totals
}

#[inline(always)]
fn key_der(key: &Key<'_>) -> Option<Vec<u8>> {
    let mut octets = vec![0; element_len(key.contents)?];
    put_key(&mut octets, 0, key)?;
    Some(octets)
}
