//! Walks over elements with the proved reader and by hand. Prints the time for one element each.
mod common;
mod elements;
mod rounds;

use common::{Numbers, Totals, split_contents};
use elements::{UNIVERSAL, count_contents, proved_walk, push_element, short_len, skip_identifier};
use rounds::{By, Row, SIZES, print_row, way};

/// Walks by hand, without a reader. It rejects the same elements.
#[inline(never)]
fn walk_by_hand(bytes: &[u8]) -> Totals {
    count_contents(bytes, split_element)
}

/// The contents of the next element, and the octets after it.
#[inline(always)]
fn split_element(bytes: &[u8]) -> Option<(&[u8], &[u8])> {
    split_contents(skip_identifier(UNIVERSAL, bytes)?)
}

/// From 1 to 65536 octets of contents, of all magnitudes.
fn any_len(numbers: &mut Numbers) -> usize {
    let bound = 1 << numbers.below(17);
    1 + numbers.below(bound) as usize
}

/// Elements until the input is `wanted` octets long, and their number.
fn elements(next_len: fn(&mut Numbers) -> usize, wanted: usize) -> (Vec<u8>, u64) {
    let mut numbers = Numbers(0x9E37_79B9_7F4A_7C15);
    let mut out = Vec::with_capacity(wanted + (1 << 17));
    let mut count = 0;
    while out.len() < wanted {
        push_element(&mut out, &mut numbers, next_len);
        count += 1;
    }
    (out, count)
}

fn print_row_walks(name: &str, size: usize, next_len: fn(&mut Numbers) -> usize) {
    let (bytes, count) = elements(next_len, size);
    let row = Row {
        name: name.to_owned(),
        size,
        octets: bytes.len(),
        count,
    };
    let ways = [
        way(By::Library, |()| proved_walk(&bytes)),
        way(By::Hand, |()| walk_by_hand(&bytes)),
    ];
    print_row(&row, &ways, &mut ());
}

fn main() {
    for size in SIZES {
        print_row_walks("1 to 18 octets of contents", size, short_len);
    }
    // 16 KiB would hold only four of these
    for size in &SIZES[1..] {
        print_row_walks("1 to 65536 octets of contents", *size, any_len);
    }
}
