//! Walks over elements with the proved reader and by hand, with their tags unused, summed and
//! counted. Prints the time for one element each.
#[cfg(beside)]
#[path = "tags_beside.rs"]
mod beside;
#[allow(dead_code, reason = "other drivers use the rest")]
mod certificates;
#[allow(dead_code, reason = "as above")]
mod common;
#[allow(dead_code, reason = "as above")]
mod elements;
mod hand;
mod rounds;

use certificates::headers;
use common::{Numbers, Totals, push_length, split_contents};
use elements::{UNIVERSAL, count_contents, proved_walk, short_len, skip_identifier};
use hand::{Element, element_at};
use rounds::{By, Row, SIZES, print_row, way};

unsafe extern "C" {
    // A slice is passed as a pointer and then a length.
    fn der_bench_numbers(octets: *const u8, len: usize) -> Totals;
    fn der_bench_counts(octets: *const u8, len: usize) -> Totals;
}

fn sum_proved(bytes: &[u8]) -> Totals {
    // SAFETY: the pointer and the length are those of a slice, which the call only reads.
    unsafe { der_bench_numbers(bytes.as_ptr(), bytes.len()) }
}

fn count_proved(bytes: &[u8]) -> Totals {
    // SAFETY: as above.
    unsafe { der_bench_counts(bytes.as_ptr(), bytes.len()) }
}

/// Walks with an index; `read` returns what is summed in place of first octets.
#[inline(always)]
fn walk(bytes: &[u8], mut read: impl FnMut(&Element) -> u64) -> Totals {
    let mut totals = Totals::default();
    let mut at = 0;
    while let Some(element) = element_at(bytes, at, bytes.len()) {
        totals.elements = totals.elements.wrapping_add(1);
        let len = element.end - element.start;
        totals.contents = totals.contents.wrapping_add(len as u64);
        totals.octet_sum = totals.octet_sum.wrapping_add(read(&element));
        at = element.end;
    }
    totals
}

#[inline(never)]
fn walk_by_index(bytes: &[u8]) -> Totals {
    walk(bytes, |it| {
        bytes[it.start..it.end].first().copied().unwrap_or(0) as u64
    })
}

#[inline(never)]
fn walk_by_slices(bytes: &[u8]) -> Totals {
    count_contents(bytes, |rest| {
        split_contents(skip_identifier(UNIVERSAL, rest)?)
    })
}

#[inline(never)]
fn sum_by_hand(bytes: &[u8]) -> Totals {
    walk(bytes, |it| it.number as u64)
}

#[inline(never)]
fn count_by_hand(bytes: &[u8]) -> Totals {
    let mut counts = [0u64; 256];
    let totals = walk(bytes, |it| {
        counts[it.number as u8 as usize] += 1;
        0
    });
    Totals {
        octet_sum: mixed(&counts),
        ..totals
    }
}

/// A number that depends on each count and its index.
fn mixed(counts: &[u64; 256]) -> u64 {
    counts.iter().fold(0, |sum: u64, count| {
        sum.wrapping_mul(31).wrapping_add(*count)
    })
}

/// Elements of 1 to 18 octets of contents with the tags of `next_tag`, `wanted` octets together,
/// and their number.
fn elements(mut next_tag: impl FnMut(&mut Numbers) -> u8, wanted: usize) -> (Vec<u8>, u64) {
    let mut numbers = Numbers(0x9E37_79B9_7F4A_7C15);
    let mut out = Vec::with_capacity(wanted + (1 << 7));
    let mut count = 0;
    while out.len() < wanted {
        out.push(next_tag(&mut numbers));
        let len = short_len(&mut numbers);
        push_length(&mut out, len);
        out.extend((0..len).map(|_| numbers.next() as u8));
        count += 1;
    }
    (out, count)
}

#[cfg_attr(
    not(beside),
    allow(unused_mut, reason = "the crate's ways are not there")
)]
fn print_row_all(tags: &str, size: usize, (bytes, count): (&[u8], u64)) {
    let row = |what: &str| Row {
        name: format!("{tags}, {what}"),
        size,
        octets: bytes.len(),
        count,
    };
    let mut left = vec![
        way(By::Library, |()| proved_walk(bytes)),
        way(By::Hand, |()| walk_by_index(bytes)),
        way(By::Hand, |()| walk_by_slices(bytes)),
    ];
    let mut summed = vec![
        way(By::Library, |()| sum_proved(bytes)),
        way(By::Hand, |()| sum_by_hand(bytes)),
    ];
    let mut counted = vec![
        way(By::Library, |()| count_proved(bytes)),
        way(By::Hand, |()| count_by_hand(bytes)),
    ];
    #[cfg(beside)]
    {
        left.push(way(By::Crate, |()| beside::walk(bytes)));
        summed.push(way(By::Crate, |()| beside::sum(bytes)));
        counted.push(way(By::Crate, |()| beside::count(bytes)));
    }
    print_row(&row("left alone"), &left, &mut ());
    print_row(&row("summed"), &summed, &mut ());
    print_row(&row("counted"), &counted, &mut ());
}

fn main() {
    let universal: Vec<u8> = (0..64).filter(|tag| UNIVERSAL >> tag & 1 == 1).collect();
    let of_certificates = headers(1 << 22);
    for wanted in SIZES {
        let random =
            |numbers: &mut Numbers| universal[numbers.below(universal.len() as u64) as usize];
        let (bytes, count) = elements(random, wanted);
        print_row_all("random universal tags", wanted, (&bytes, count));
        let mut tags = of_certificates.iter().cycle().map(|(tag, _)| *tag);
        let (bytes, count) = elements(|_| tags.next().unwrap_or(0), wanted);
        print_row_all("tags of certificates", wanted, (&bytes, count));
    }
}
