//! Compares OCTET STRINGs, each with the preceding one, reads them as a SET OF, and sorts them for
//! sets, with the proved library and by hand. Prints the time for one element.
mod common;
mod rounds;

use common::{Numbers, Totals, push_length, split_contents};
use rounds::{By, Row, SIZES, print_row, way};
use std::hint::black_box;

const OCTET_STRING: u8 = 0x04;
const SET: u8 = 0x31;
/// How many elements a set has that is sorted.
const SET_SIZES: [usize; 3] = [17, 500, 15_000];
/// The mean number of octets of an element with 0 to 32 octets of contents.
const ELEMENT_LEN: usize = 18;

unsafe extern "C" {
    // A slice is passed as a pointer and then a length; the allocator has size 0 and is not passed.
    fn der_bench_orders(octets: *const u8, len: usize) -> Totals;
    fn der_bench_set(octets: *const u8, len: usize) -> Totals;
    fn der_bench_sorted(octets: *const u8, len: usize) -> Totals;
}

fn compare_proved(bytes: &[u8]) -> Totals {
    // SAFETY: the pointer and the length are those of a slice, which the call only reads.
    unsafe { der_bench_orders(bytes.as_ptr(), bytes.len()) }
}

fn read_proved(bytes: &[u8]) -> Totals {
    // SAFETY: as above.
    unsafe { der_bench_set(bytes.as_ptr(), bytes.len()) }
}

fn sort_proved(bytes: &[u8]) -> Totals {
    // SAFETY: as above.
    unsafe { der_bench_sorted(bytes.as_ptr(), bytes.len()) }
}

/// The next element, which must have this tag, its contents, and the octets after it.
#[inline(always)]
fn split_element(tag: u8, bytes: &[u8]) -> Option<(&[u8], &[u8], &[u8])> {
    let (&identifier, rest) = bytes.split_first()?;
    if identifier != tag {
        return None;
    }
    let (contents, following) = split_contents(rest)?;
    let element = &bytes[..bytes.len() - following.len()];
    Some((element, contents, following))
}

#[inline(never)]
fn compare_by_hand(bytes: &[u8]) -> Totals {
    let mut totals = Totals::default();
    let Some((mut upcoming, _, mut rest)) = split_element(OCTET_STRING, bytes) else {
        return totals;
    };
    while let Some((element, contents, following)) = split_element(OCTET_STRING, rest) {
        totals.elements = totals.elements.wrapping_add(1);
        totals.contents = totals.contents.wrapping_add(contents.len() as u64);
        let less = (element < upcoming) as u64;
        totals.octet_sum = totals.octet_sum.wrapping_add(less);
        (upcoming, rest) = (element, following);
    }
    totals
}

fn reported(elements: u64, octets: &[u8]) -> Totals {
    Totals {
        elements,
        contents: octets.len() as u64,
        octet_sum: octets.last().copied().unwrap_or(0) as u64,
    }
}

#[inline(never)]
fn read_by_hand(bytes: &[u8]) -> Totals {
    match ordered_contents(bytes) {
        Some(contents) => reported(1, contents),
        None => reported(0, &[]),
    }
}

/// The contents of a SET OF OCTET STRING whose elements are in order.
fn ordered_contents(bytes: &[u8]) -> Option<&[u8]> {
    let (_, contents, following) = split_element(SET, bytes)?;
    let (mut upcoming, mut rest): (&[u8], _) = (&[], contents);
    while !rest.is_empty() {
        let (element, _, more) = split_element(OCTET_STRING, rest)?;
        if element < upcoming {
            return None;
        }
        (upcoming, rest) = (element, more);
    }
    following.is_empty().then_some(contents)
}

#[inline(never)]
fn sort_by_hand(bytes: &[u8]) -> Totals {
    let mut elements = Vec::new();
    let mut rest = bytes;
    while let Some((element, _, following)) = split_element(OCTET_STRING, rest) {
        elements.push(element);
        rest = following;
    }
    elements.sort_unstable();
    reported(elements.len() as u64, &black_box(set_of(&elements)))
}

/// The encoding of a SET of these elements.
fn set_of(elements: &[&[u8]]) -> Vec<u8> {
    let mut out = vec![SET];
    push_length(&mut out, elements.iter().map(|it| it.len()).sum());
    elements.iter().for_each(|it| out.extend_from_slice(it));
    out
}

/// Appends an element with fewer than `bound` octets of contents. Most of equal length differ in
/// the last octet alone.
fn push_element(out: &mut Vec<u8>, numbers: &mut Numbers, bound: u64) {
    let len = numbers.below(bound) as usize;
    out.push(OCTET_STRING);
    push_length(out, len);
    let mut octet = |at| {
        if at + 1 < len {
            0x2A
        } else {
            numbers.below(256) as u8
        }
    };
    out.extend((0..len).map(&mut octet));
}

/// Such elements until they are `wanted` octets long, and their number.
fn elements(bound: u64, wanted: usize) -> (Vec<u8>, u64) {
    let mut numbers = Numbers(0x9E37_79B9_7F4A_7C15);
    let mut out = Vec::with_capacity(wanted + (1 << 12));
    let mut count = 0;
    while out.len() < wanted {
        push_element(&mut out, &mut numbers, bound);
        count += 1;
    }
    (out, count)
}

/// The elements of sets, about `wanted` octets together, and where each set ends.
fn sets(set_size: usize, wanted: usize) -> (Vec<u8>, Vec<usize>) {
    let mut numbers = Numbers(0x9E37_79B9_7F4A_7C15);
    let (mut out, mut ends) = (Vec::with_capacity(2 * wanted), Vec::new());
    while out.len() < wanted {
        for _ in 0..set_size {
            push_element(&mut out, &mut numbers, 33);
        }
        ends.push(out.len());
    }
    (out, ends)
}

/// Sorts and writes each set, and adds up what is reported of each.
#[inline(always)]
fn sort_each(bytes: &[u8], ends: &[usize], sort: impl Fn(&[u8]) -> Totals) -> Totals {
    let mut totals = Totals::default();
    let mut start = 0;
    for &end in ends {
        let one = sort(&bytes[start..end]);
        totals.elements = totals.elements.wrapping_add(one.elements);
        totals.contents = totals.contents.wrapping_add(one.contents);
        totals.octet_sum = totals.octet_sum.wrapping_add(one.octet_sum);
        start = end;
    }
    totals
}

fn row(name: String, size: usize, bytes: &[u8], count: u64) -> Row {
    Row {
        name,
        size,
        octets: bytes.len(),
        count,
    }
}

fn print_row_compared(size: usize, bound: u64) {
    let (bytes, count) = elements(bound, size);
    let name = format!("compared, 0 to {} octets", bound - 1);
    let ways = [
        way(By::Library, |()| compare_proved(&bytes)),
        way(By::Hand, |()| compare_by_hand(&bytes)),
    ];
    print_row(&row(name, size, &bytes, count - 1), &ways, &mut ());
}

fn print_row_read(size: usize) {
    let (bytes, count) = elements(33, size);
    let mut parts = Vec::new();
    let mut rest = &bytes[..];
    while let Some((element, _, following)) = split_element(OCTET_STRING, rest) {
        parts.push(element);
        rest = following;
    }
    parts.sort_unstable();
    let set = set_of(&parts);
    let ways = [
        way(By::Library, |()| read_proved(&set)),
        way(By::Hand, |()| read_by_hand(&set)),
    ];
    print_row(
        &row("read in order".to_owned(), size, &set, count),
        &ways,
        &mut (),
    );
}

fn print_row_sorted(size: usize, set_size: usize) {
    let (bytes, ends) = sets(set_size, size);
    let count = (ends.len() * set_size) as u64;
    let name = format!("sorted and written, sets of {set_size}");
    let ways = [
        way(By::Library, |()| sort_each(&bytes, &ends, sort_proved)),
        way(By::Hand, |()| sort_each(&bytes, &ends, sort_by_hand)),
    ];
    print_row(&row(name, size, &bytes, count), &ways, &mut ());
}

fn main() {
    for size in SIZES {
        for bound in [5, 33, 513] {
            print_row_compared(size, bound);
        }
        print_row_read(size);
        // an input has at least one set
        let fitting = SET_SIZES.into_iter().filter(|it| it * ELEMENT_LEN <= size);
        fitting.for_each(|set_size| print_row_sorted(size, set_size));
    }
}
