//! Decodes and writes public keys (RFC 5280, 4.1.2.7) with types that are compiled from an ASN.1
//! module, with types that are written by hand over the library, and by hand without it. Prints the
//! time for one key each. First a key of each kind is read with each octet in turn changed to each
//! other value: all three must reject the same.
#[allow(dead_code, reason = "other drivers use the rest")]
mod common;
#[allow(dead_code, reason = "as above")]
mod elements;
#[allow(dead_code, reason = "as above")]
mod hand;
#[allow(dead_code, reason = "as above")]
mod put;
#[allow(dead_code, reason = "as above")]
mod put_keys;
#[allow(dead_code, reason = "as above")]
mod read_by_hand;
mod rounds;
#[allow(dead_code, reason = "as above")]
#[path = "x509_ways.rs"]
mod ways;
#[allow(dead_code, reason = "as above")]
mod write_by_hand;
#[allow(dead_code, reason = "as above")]
mod written;

use common::{Numbers, Totals, push_length};
use read_by_hand::{BIT_STRING, Left, OBJECT_IDENTIFIER, SEQUENCE, public_key};
use rounds::{By, Row, SIZES, counted_row, print_row, way};
use std::hint::black_box;

/// Keys of one kind: the contents of the object identifier, the element of the parameters, and the
/// number of contents octets of the BIT STRING.
struct Kind {
    name: &'static str,
    oid: &'static [u8],
    parameters: &'static [u8],
    key_len: usize,
}

const KINDS: [Kind; 3] = [
    // RFC 8017, appendix C, and RFC 3279, 2.3.1
    Kind {
        name: "RSA with 2048 bits",
        oid: &[0x2A, 0x86, 0x48, 0x86, 0xF7, 0x0D, 0x01, 0x01, 0x01],
        parameters: &[0x05, 0x00],
        key_len: 271,
    },
    // RFC 5480, 2.1.1
    Kind {
        name: "P-256",
        oid: &[0x2A, 0x86, 0x48, 0xCE, 0x3D, 0x02, 0x01],
        parameters: &[0x06, 0x08, 0x2A, 0x86, 0x48, 0xCE, 0x3D, 0x03, 0x01, 0x07],
        key_len: 66,
    },
    // RFC 8410, 3 and 4
    Kind {
        name: "Ed25519",
        oid: &[0x2B, 0x65, 0x70],
        parameters: &[],
        key_len: 33,
    },
];

unsafe extern "C" {
    // Slices are passed as pointers and then lengths; the allocator has size 0 and is not passed.
    fn der_bench_generated_keys(octets: *const u8, len: usize) -> Totals;
    fn der_bench_handwritten_keys(octets: *const u8, len: usize) -> Totals;
    fn der_bench_handwritten_key_to_slice(
        octets: *const u8,
        len: usize,
        times: u64,
        out: *mut u8,
        out_len: usize,
    ) -> Totals;
}

fn decode_generated(bytes: &[u8]) -> Totals {
    // SAFETY: the pointer and the length are those of a slice, which the call only reads.
    unsafe { der_bench_generated_keys(bytes.as_ptr(), bytes.len()) }
}

fn decode_handwritten(bytes: &[u8]) -> Totals {
    // SAFETY: as above.
    unsafe { der_bench_handwritten_keys(bytes.as_ptr(), bytes.len()) }
}

fn write_handwritten(key: &[u8], times: u64, out: &mut [u8]) -> Totals {
    let (at, len) = (out.as_mut_ptr(), out.len());
    // SAFETY: pointers and lengths are those of slices: the call reads the first, and writes to the
    // second.
    unsafe { der_bench_handwritten_key_to_slice(key.as_ptr(), key.len(), times, at, len) }
}

#[inline(never)]
fn decode_by_hand(bytes: &[u8]) -> Totals {
    let mut totals = Totals::default();
    let mut left = Left::of(bytes);
    while !left.is_empty() {
        let Some(one) = public_key(&mut left) else {
            return totals;
        };
        let first = one.algorithm.oid.first().copied().unwrap_or(0);
        totals.elements = totals.elements.wrapping_add(1);
        totals.contents = totals.contents.wrapping_add(one.key.len() as u64);
        totals.octet_sum = totals.octet_sum.wrapping_add(first as u64);
        black_box(&one);
    }
    totals
}

fn element(tag: u8, contents: &[u8]) -> Vec<u8> {
    let mut out = vec![tag];
    push_length(&mut out, contents.len());
    out.extend_from_slice(contents);
    out
}

/// A key of this kind, with random octets after the first octet of its BIT STRING.
fn key(kind: &Kind, numbers: &mut Numbers) -> Vec<u8> {
    let oid = element(OBJECT_IDENTIFIER, kind.oid);
    let algorithm = element(SEQUENCE, &[&oid[..], kind.parameters].concat());
    let mut bits = vec![0];
    bits.extend((1..kind.key_len).map(|_| numbers.next() as u8));
    element(SEQUENCE, &[algorithm, element(BIT_STRING, &bits)].concat())
}

/// Keys of all kinds in random order until they are `wanted` octets long, and their number.
fn keys(wanted: usize) -> (Vec<u8>, u64) {
    let mut numbers = Numbers(0x9E37_79B9_7F4A_7C15);
    let mut out = Vec::with_capacity(wanted + (1 << 9));
    let mut count = 0;
    while out.len() < wanted {
        let kind = &KINDS[numbers.below(KINDS.len() as u64) as usize];
        out.extend(key(kind, &mut numbers));
        count += 1;
    }
    (out, count)
}

/// Checks that all ways to decode reject the same if an octet of the key is changed, and if the key
/// is truncated, and that the key is written as it was read.
fn agree(name: &str, key: &[u8]) {
    let same = |octets: &[u8], at: usize| {
        let by_hand = decode_by_hand(octets);
        assert_eq!(decode_generated(octets), by_hand, "{name} at {at}");
        assert_eq!(decode_handwritten(octets), by_hand, "{name} at {at}");
    };
    let mut changed = key.to_vec();
    for at in 0..key.len() {
        for by in 1..=255 {
            changed[at] = key[at] ^ by;
            same(&changed, at);
        }
        changed[at] = key[at];
        same(&key[..at], at);
    }
    for write in [
        ways::key_to_slice,
        write_handwritten,
        ways::key_to_slice_by_hand,
    ] {
        let mut out = vec![0; key.len()];
        write(key, 1, &mut out);
        assert!(out == key, "{name}");
    }
}

fn print_row_decoding(size: usize) {
    let (bytes, count) = keys(size);
    let row = Row {
        name: "public keys, decoded".to_owned(),
        size,
        octets: bytes.len(),
        count,
    };
    let ways = [
        way(By::Library, |()| decode_generated(&bytes)),
        way(By::Handwritten, |()| decode_handwritten(&bytes)),
        way(By::Hand, |()| decode_by_hand(&bytes)),
    ];
    print_row(&row, &ways, &mut ());
}

/// Writes one key until about `size` octets are written.
fn print_row_writing(name: &str, key: &[u8], size: usize) {
    let times = (size / key.len()) as u64;
    let row = Row {
        name: format!("{name}, by encode_to_slice"),
        size,
        octets: times as usize * key.len(),
        count: times,
    };
    let ways = [
        way(By::Library, |out: &mut Vec<u8>| {
            ways::key_to_slice(key, times, out)
        }),
        way(By::Handwritten, |out: &mut Vec<u8>| {
            write_handwritten(key, times, out)
        }),
        way(By::Hand, |out: &mut Vec<u8>| {
            ways::key_to_slice_by_hand(key, times, out)
        }),
    ];
    print_row(&row, &ways, &mut vec![0; key.len()]);
}

fn main() {
    let mut numbers = Numbers(0x2545_F491_4F6C_DD1D);
    let one_each = KINDS.map(|kind| (kind.name, key(&kind, &mut numbers)));
    if counted_row().is_none() {
        one_each.iter().for_each(|(name, key)| agree(name, key));
    }
    for size in SIZES {
        print_row_decoding(size);
        for (name, key) in &one_each {
            print_row_writing(name, key, size);
        }
    }
}
