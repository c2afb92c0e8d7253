//! Decodes OCTET STRINGs and UTF8Strings with the proved reader and by hand: borrowed, copied as
//! text, and joined from segments, flat and nested. Prints the time for one string each.
mod common;
mod rounds;

use common::{Numbers, Totals, push_length, split_contents};
use rounds::{By, Row, SIZES, print_row, way};
use std::hint::black_box;

const OCTET_STRING: u8 = 0x04;
const UTF8_STRING: u8 = 0x0C;
const SEGMENTS: [u8; 2] = [0x24, 0x80];
const END_MARK: [u8; 2] = [0x00, 0x00];

unsafe extern "C" {
    // A slice is passed as a pointer and then a length; the allocator has size 0 and is not passed.
    fn der_bench_borrowed(octets: *const u8, len: usize) -> Totals;
    fn der_bench_texts(octets: *const u8, len: usize) -> Totals;
    fn der_bench_joined(octets: *const u8, len: usize) -> Totals;
}

fn proved_borrowed(bytes: &[u8]) -> Totals {
    // SAFETY: the pointer and the length are those of a slice, which the call only reads.
    unsafe { der_bench_borrowed(bytes.as_ptr(), bytes.len()) }
}

fn proved_texts(bytes: &[u8]) -> Totals {
    // SAFETY: as above.
    unsafe { der_bench_texts(bytes.as_ptr(), bytes.len()) }
}

fn proved_joined(bytes: &[u8]) -> Totals {
    // SAFETY: as above.
    unsafe { der_bench_joined(bytes.as_ptr(), bytes.len()) }
}

#[inline(always)]
fn count(totals: &mut Totals, contents: &[u8]) {
    totals.elements = totals.elements.wrapping_add(1);
    totals.contents = totals.contents.wrapping_add(contents.len() as u64);
    let first = contents.first().copied().unwrap_or(0);
    totals.octet_sum = totals.octet_sum.wrapping_add(first as u64);
}

/// The contents of the next element, which must have this tag, and the octets after it.
#[inline(always)]
fn split_element(tag: u8, bytes: &[u8]) -> Option<(&[u8], &[u8])> {
    let (&identifier, rest) = bytes.split_first()?;
    if identifier != tag {
        return None;
    }
    split_contents(rest)
}

#[inline(never)]
fn borrow_by_hand(bytes: &[u8]) -> Totals {
    let mut totals = Totals::default();
    let mut rest = bytes;
    while let Some((contents, following)) = split_element(OCTET_STRING, rest) {
        count(&mut totals, contents);
        rest = following;
    }
    totals
}

#[inline(never)]
fn copy_by_hand(bytes: &[u8]) -> Totals {
    let mut totals = Totals::default();
    let mut rest = bytes;
    while let Some((contents, following)) = split_element(UTF8_STRING, rest) {
        let Ok(text) = std::str::from_utf8(contents) else {
            return totals;
        };
        count(&mut totals, black_box(text.to_owned()).as_bytes());
        rest = following;
    }
    totals
}

#[inline(never)]
fn join_by_hand(bytes: &[u8]) -> Totals {
    let mut totals = Totals::default();
    let mut rest = bytes;
    while let Some(segments) = rest.strip_prefix(&SEGMENTS) {
        let Some((joined, following)) = join_segments(segments) else {
            return totals;
        };
        count(&mut totals, &black_box(joined));
        rest = following;
    }
    totals
}

/// The joined segments up to the end-of-contents octets, and the octets after those.
#[inline(always)]
fn join_segments(bytes: &[u8]) -> Option<(Vec<u8>, &[u8])> {
    let mut joined = Vec::new();
    let mut rest = bytes;
    loop {
        if let Some(following) = rest.strip_prefix(&END_MARK) {
            return Some((joined, following));
        }
        let (contents, following) = split_element(OCTET_STRING, rest)?;
        joined.extend_from_slice(contents);
        rest = following;
    }
}

#[inline(never)]
fn join_levels_by_hand(bytes: &[u8]) -> Totals {
    let mut totals = Totals::default();
    let mut rest = bytes;
    while let Some(segments) = rest.strip_prefix(&SEGMENTS) {
        let mut joined = Vec::new();
        let Some(following) = append_segments(segments, &mut joined) else {
            return totals;
        };
        count(&mut totals, &black_box(joined));
        rest = following;
    }
    totals
}

/// Appends the segments up to the end-of-contents octets, nested ones too, and returns the octets
/// after those. No octet is read twice.
fn append_segments<'a>(bytes: &'a [u8], joined: &mut Vec<u8>) -> Option<&'a [u8]> {
    let mut rest = bytes;
    loop {
        if let Some(following) = rest.strip_prefix(&END_MARK) {
            return Some(following);
        }
        if let Some(inside) = rest.strip_prefix(&SEGMENTS) {
            rest = append_segments(inside, joined)?;
            continue;
        }
        let (contents, following) = split_element(OCTET_STRING, rest)?;
        joined.extend_from_slice(contents);
        rest = following;
    }
}

fn push_element(out: &mut Vec<u8>, numbers: &mut Numbers, tag: u8, len: usize) {
    out.push(tag);
    push_length(out, len);
    out.extend((0..len).map(|_| b'a' + numbers.below(26) as u8));
}

/// Elements until the input is `wanted` octets long, and their number.
fn elements(tag: u8, bound: u64, wanted: usize) -> (Vec<u8>, u64) {
    let mut numbers = Numbers(0x9E37_79B9_7F4A_7C15);
    let mut out = Vec::with_capacity(wanted + (1 << 12));
    let mut count = 0;
    while out.len() < wanted {
        let len = numbers.below(bound) as usize;
        push_element(&mut out, &mut numbers, tag, len);
        count += 1;
    }
    (out, count)
}

/// The same for strings of `segments` segments each, nested in `levels` levels.
fn segmented(levels: usize, segments: usize, bound: u64, wanted: usize) -> (Vec<u8>, u64) {
    let mut numbers = Numbers(0x9E37_79B9_7F4A_7C15);
    let mut out = Vec::with_capacity(wanted + (1 << 16));
    let mut count = 0;
    while out.len() < wanted {
        for _ in 0..levels {
            out.extend_from_slice(&SEGMENTS);
        }
        for _ in 0..segments {
            let len = numbers.below(bound) as usize;
            push_element(&mut out, &mut numbers, OCTET_STRING, len);
        }
        for _ in 0..levels {
            out.extend_from_slice(&END_MARK);
        }
        count += 1;
    }
    (out, count)
}

/// A way to decode strings.
type Decoding = fn(&[u8]) -> Totals;

fn print_row_strings(
    name: &str,
    size: usize,
    (bytes, count): &(Vec<u8>, u64),
    [proved, by_hand]: [Decoding; 2],
) {
    let row = Row {
        name: name.to_owned(),
        size,
        octets: bytes.len(),
        count: *count,
    };
    let ways = [
        way(By::Library, |()| proved(bytes)),
        way(By::Hand, |()| by_hand(bytes)),
    ];
    print_row(&row, &ways, &mut ());
}

fn print_rows(size: usize) {
    let borrowed = elements(OCTET_STRING, 33, size);
    print_row_strings(
        "borrowed octets",
        size,
        &borrowed,
        [proved_borrowed, borrow_by_hand],
    );
    let texts = elements(UTF8_STRING, 33, size);
    print_row_strings("copied texts", size, &texts, [proved_texts, copy_by_hand]);
    for bound in [33, 2049] {
        let name = format!("16 segments of 0 to {} octets", bound - 1);
        let joined = segmented(1, 16, bound, size);
        print_row_strings(&name, size, &joined, [proved_joined, join_by_hand]);
    }
    for levels in [1, 4, 16, 64] {
        let name = format!("1024 segments of 0 to 32 octets, inside {levels} levels");
        let joined = segmented(levels, 1024, 33, size);
        print_row_strings(&name, size, &joined, [proved_joined, join_levels_by_hand]);
    }
}

fn main() {
    SIZES.into_iter().for_each(print_rows);
}
