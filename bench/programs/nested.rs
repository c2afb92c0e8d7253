//! Walks over certificates and the elements inside them, and decodes keys, with the proved reader
//! and by hand. Prints the time for one element and for one key each.
#[cfg(beside)]
#[path = "nested_beside.rs"]
mod beside;
#[allow(dead_code, reason = "other drivers use the rest")]
mod certificates;
#[allow(dead_code, reason = "as above")]
mod common;
#[allow(dead_code, reason = "as above")]
mod elements;
#[allow(dead_code, reason = "as above")]
mod hand;
mod keys;
mod rounds;

use certificates::certificates;
use common::Totals;
use hand::{Element, element_at};
use keys::{decode_by_hand, keys, proved_decode};
use rounds::{By, Row, SIZES, print_row, way};

/// How many levels of nested parts are entered.
const LEVELS: usize = 64;

unsafe extern "C" {
    // A slice is passed as a pointer and then a length.
    fn der_bench_nested(octets: *const u8, len: usize) -> Totals;
    fn der_bench_values(octets: *const u8, len: usize) -> Totals;
    fn der_bench_halves(octets: *const u8, len: usize) -> Totals;
}

fn nested_proved(bytes: &[u8]) -> Totals {
    // SAFETY: the pointer and the length are those of a slice, which the call only reads.
    unsafe { der_bench_nested(bytes.as_ptr(), bytes.len()) }
}

fn values_proved(bytes: &[u8]) -> Totals {
    // SAFETY: as above.
    unsafe { der_bench_values(bytes.as_ptr(), bytes.len()) }
}

fn halves_proved(bytes: &[u8]) -> Totals {
    // SAFETY: as above.
    unsafe { der_bench_halves(bytes.as_ptr(), bytes.len()) }
}

/// The same with the reader of mbedTLS, which checks no tags but those of keys.
#[cfg(mbedtls)]
mod mbedtls {
    use crate::Totals;

    unsafe extern "C" {
        fn mbedtls_nested(octets: *const u8, len: usize) -> Totals;
        fn mbedtls_keys(octets: *const u8, len: usize) -> Totals;
    }

    pub fn walk(bytes: &[u8]) -> Totals {
        // SAFETY: the pointer and the length are those of a slice, which the call only reads.
        unsafe { mbedtls_nested(bytes.as_ptr(), bytes.len()) }
    }

    pub fn decode(bytes: &[u8]) -> Totals {
        // SAFETY: as above.
        unsafe { mbedtls_keys(bytes.as_ptr(), bytes.len()) }
    }
}

pub fn pass(totals: &mut Totals, contents: &[u8]) {
    totals.elements = totals.elements.wrapping_add(1);
    totals.contents = totals.contents.wrapping_add(contents.len() as u64);
    let first = contents.first().copied().unwrap_or(0);
    totals.octet_sum = totals.octet_sum.wrapping_add(first as u64);
}

/// With a function that calls itself for each nested part.
#[inline(never)]
fn walk_by_calls(bytes: &[u8]) -> Totals {
    let mut totals = Totals::default();
    let _ = walk_part(bytes, 0, bytes.len(), LEVELS, &mut totals);
    totals
}

fn walk_part(
    bytes: &[u8],
    start: usize,
    end: usize,
    levels: usize,
    totals: &mut Totals,
) -> Option<()> {
    let mut at = start;
    while at < end {
        let element = element_at(bytes, at, end)?;
        if element.is_constructed() && levels > 0 {
            pass(totals, &[]);
            walk_part(bytes, element.start, element.end, levels - 1, totals)?;
        } else {
            pass(totals, &bytes[element.start..element.end]);
        }
        at = element.end;
    }
    Some(())
}

/// With one loop that stores the ends of the parts around.
#[inline(never)]
fn walk_by_ends(bytes: &[u8]) -> Totals {
    let mut totals = Totals::default();
    let mut ends = [0; LEVELS];
    let (mut level, mut at, mut end) = (0, 0, bytes.len());
    loop {
        while at == end {
            if level == 0 {
                return totals;
            }
            level -= 1;
            end = ends[level];
        }
        let Some(element) = element_at(bytes, at, end) else {
            return totals;
        };
        if element.is_constructed() && level < LEVELS {
            pass(&mut totals, &[]);
            ends[level] = end;
            level += 1;
            (at, end) = (element.start, element.end);
        } else {
            pass(&mut totals, &bytes[element.start..element.end]);
            at = element.end;
        }
    }
}

#[allow(unused_mut, reason = "the ways of others may not be there")]
fn print_row_walks(size: usize, bytes: &[u8]) {
    let count = walk_by_calls(bytes).elements;
    let library: [(&str, fn(&[u8]) -> Totals); 3] = [
        ("certificates, by read_nested", nested_proved),
        ("certificates, by read_value", values_proved),
        (
            "certificates, by enter_nested and leave_nested",
            halves_proved,
        ),
    ];
    for (name, proved) in library {
        let row = Row {
            name: name.to_owned(),
            size,
            octets: bytes.len(),
            count,
        };
        let mut ways = vec![
            way(By::Library, |()| proved(bytes)),
            way(By::Hand, |()| walk_by_calls(bytes)),
            way(By::Hand, |()| walk_by_ends(bytes)),
        ];
        #[cfg(beside)]
        ways.push(way(By::Crate, |()| beside::walk(bytes)));
        #[cfg(mbedtls)]
        ways.push(way(By::Mbedtls, |()| mbedtls::walk(bytes)));
        print_row(&row, &ways, &mut ());
    }
}

#[allow(unused_mut, reason = "as above")]
fn print_row_keys(size: usize, bound: u64) {
    let (bytes, count) = keys(bound, size);
    let row = Row {
        name: format!("keys of 0 to {} octets, by decode", bound - 1),
        size,
        octets: bytes.len(),
        count,
    };
    let mut ways = vec![
        way(By::Library, |()| proved_decode(&bytes)),
        way(By::Hand, |()| decode_by_hand(&bytes)),
        way(By::Hand, |()| decode_by_index(&bytes)),
    ];
    #[cfg(beside)]
    ways.push(way(By::Crate, |()| beside::decode(&bytes)));
    #[cfg(mbedtls)]
    ways.push(way(By::Mbedtls, |()| mbedtls::decode(&bytes)));
    print_row(&row, &ways, &mut ());
}

/// Decodes the keys with an index.
#[inline(never)]
fn decode_by_index(bytes: &[u8]) -> Totals {
    let mut totals = Totals::default();
    let mut at = 0;
    while let Some((key, algorithm, month, octets)) = key_at(bytes, at) {
        let algorithm = algorithm.end - algorithm.start;
        let octets = octets.end - octets.start;
        totals.elements = totals.elements.wrapping_add(1);
        totals.contents = totals.contents.wrapping_add((algorithm + octets) as u64);
        totals.octet_sum = totals.octet_sum.wrapping_add(month as u64);
        at = key.end;
    }
    totals
}

/// The key at position `at`, the octets of its algorithm, its month, and its octets.
#[inline(always)]
fn key_at(bytes: &[u8], at: usize) -> Option<(Element, Element, u8, Element)> {
    let key = tagged_at(0x30, bytes, at, bytes.len())?;
    let identifier = tagged_at(0x30, bytes, key.start, key.end)?;
    let algorithm = tagged_at(0x04, bytes, identifier.start, identifier.end)?;
    let parameter = tagged_at(0x04, bytes, algorithm.end, identifier.end)?;
    let octets = tagged_at(0x04, bytes, identifier.end, key.end)?;
    match bytes[parameter.start..parameter.end] {
        [month] if month < 12 && parameter.end == identifier.end && octets.end == key.end => {
            Some((key, algorithm, month, octets))
        }
        _ => None,
    }
}

/// The element at position `at`, which must begin with the octet `tag`.
#[inline(always)]
fn tagged_at(tag: u8, bytes: &[u8], at: usize, end: usize) -> Option<Element> {
    if *bytes.get(at)? != tag {
        return None;
    }
    element_at(bytes, at, end)
}

fn main() {
    for wanted in SIZES {
        print_row_walks(wanted, &certificates(wanted));
        print_row_keys(wanted, 33);
        print_row_keys(wanted, 513);
    }
}
