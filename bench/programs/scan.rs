//! Reads messages with indefinite lengths with the proved reader, by its scan octet by octet, and
//! by hand. Prints the time for one item each.
mod common;
#[allow(dead_code, reason = "other drivers use the rest")]
mod elements;
mod rounds;

use common::{Numbers, Totals, split_contents};
use elements::{UNIVERSAL, count_contents, push_element, short_len, skip_identifier};
use rounds::{By, Row, SIZES, print_row, way};

const INDEFINITE: u8 = 0x80;
const MAX_LEVEL: usize = 64;
/// The number of octets of an item, at most on average.
const ITEM_LEN: usize = 12;
/// How deep a message is, and how many items it has, equally many on each level.
const MESSAGES: [(usize, usize); 6] = [
    (1, 256),
    (4, 256),
    (MAX_LEVEL, 256),
    (1, 16),
    (1, 1 << 14),
    (1, 1 << 20),
];
/// Under BER, 0x24 is an identifier too.
const BER_IDENTIFIERS: u64 = UNIVERSAL | 1 << 0x24;

unsafe extern "C" {
    // A slice is passed as a pointer and then a length.
    #[link_name = "der_bench_scan"]
    fn library_scan(octets: *const u8, len: usize) -> Totals;
    #[link_name = "der_bench_scan_by_octets"]
    fn library_scan_by_octets(octets: *const u8, len: usize) -> Totals;
}

fn proved_scan(bytes: &[u8]) -> Totals {
    // SAFETY: the pointer and the length are those of a slice, which the call only reads.
    unsafe { library_scan(bytes.as_ptr(), bytes.len()) }
}

fn scan_by_octets(bytes: &[u8]) -> Totals {
    // SAFETY: as above.
    unsafe { library_scan_by_octets(bytes.as_ptr(), bytes.len()) }
}

/// Reads the messages by hand, without a reader. It rejects the same octets.
#[inline(never)]
fn scan_by_hand(bytes: &[u8]) -> Totals {
    count_contents(bytes, split_message)
}

/// The contents of the next message, with any end-of-contents octets, and the octets after it.
#[inline(always)]
fn split_message(bytes: &[u8]) -> Option<(&[u8], &[u8])> {
    let rest = skip_identifier(BER_IDENTIFIERS, bytes)?;
    match rest.split_first()? {
        (&INDEFINITE, body) if is_constructed(bytes[0]) => body.split_at_checked(body_len(body)?),
        _ => split_contents(rest),
    }
}

fn is_constructed(identifier: u8) -> bool {
    identifier & 0x20 != 0
}

/// The number of octets of indefinite-length contents, end-of-contents octets included.
#[inline(never)]
fn body_len(bytes: &[u8]) -> Option<usize> {
    let mut level = 1;
    let mut rest = bytes;
    loop {
        let (&first, following) = rest.split_first()?;
        if first == 0 {
            let (&second, following) = following.split_first()?;
            if second != 0 {
                return None;
            }
            rest = following;
            level -= 1;
            if level == 0 {
                return Some(bytes.len() - rest.len());
            }
            continue;
        }
        let length = skip_identifier(BER_IDENTIFIERS, rest)?;
        let (&octet, following) = length.split_first()?;
        if octet == INDEFINITE {
            if !is_constructed(first) || level == MAX_LEVEL {
                return None;
            }
            rest = following;
            level += 1;
        } else {
            (_, rest) = split_contents(length)?;
        }
    }
}

/// Messages of `items` items, with `levels` levels open in them, until they are `wanted` octets
/// long, and the number of all items.
fn messages(levels: usize, items: usize, wanted: usize) -> (Vec<u8>, u64) {
    let mut numbers = Numbers(0x9E37_79B9_7F4A_7C15);
    let mut out = Vec::with_capacity(wanted + (1 << 17));
    let mut count = 0;
    while out.len() < wanted {
        push_message(&mut out, &mut numbers, levels, items);
        count += items as u64;
    }
    (out, count)
}

fn push_message(out: &mut Vec<u8>, numbers: &mut Numbers, levels: usize, items: usize) {
    for _ in 0..levels {
        out.extend_from_slice(&[0x30, INDEFINITE]);
        for _ in 0..items / levels {
            push_element(out, numbers, short_len);
        }
    }
    out.resize(out.len() + 2 * levels, 0);
}

fn print_row_scans(levels: usize, items: usize, size: usize) {
    let (bytes, count) = messages(levels, items, size);
    let row = Row {
        name: format!("messages of {items} items, {levels} deep"),
        size,
        octets: bytes.len(),
        count,
    };
    let ways = [
        way(By::Library, |()| proved_scan(&bytes)),
        way(By::Octets, |()| scan_by_octets(&bytes)),
        way(By::Hand, |()| scan_by_hand(&bytes)),
    ];
    print_row(&row, &ways, &mut ());
}

fn main() {
    for (levels, items) in MESSAGES {
        // an input has at least one message
        for size in SIZES.into_iter().filter(|size| items * ITEM_LEN <= *size) {
            print_row_scans(levels, items, size);
        }
    }
}
