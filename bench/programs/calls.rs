//! Reads and writes with the library for C, from C and from Rust, and does the same inside Rattle,
//! by hand, with the crate `der` and with mbedTLS. Prints the time for one element each.
#[allow(dead_code, reason = "other drivers use the rest")]
mod certificates;
#[allow(dead_code, reason = "as above")]
mod common;
#[allow(dead_code, reason = "as above")]
mod elements;
#[path = "calls_of_c.rs"]
mod from_c;
#[path = "calls_of_rust.rs"]
mod from_rust;
#[allow(dead_code, reason = "as above")]
mod hand;
#[allow(dead_code, reason = "as above")]
mod keys;
#[path = "nested_beside.rs"]
mod nested_beside;
#[allow(dead_code, reason = "as above")]
mod put;
#[allow(dead_code, reason = "as above")]
mod rounds;
#[allow(dead_code, reason = "as above")]
#[path = "writing_beside.rs"]
mod writing_beside;
#[allow(dead_code, reason = "as above")]
mod written;

use certificates::{certificates, headers};
use common::{Numbers, Totals};
use der::{Decode, Header, Reader, SliceReader};
use elements::{proved_walk, push_element, short_len};
use keys::{keys, proved_decode};
use rounds::SIZES;
use std::hint::black_box;
use std::time::{Duration, Instant};
use written::Wanted;

/// How many levels of nested parts are entered.
const LEVELS: usize = 64;
/// The minimum duration of the rounds of a row, and their minimum number.
const WHILE: Duration = Duration::from_secs(1);
const ROUNDS: usize = 7;

unsafe extern "C" {
    // A slice is passed as a pointer and then a length.
    fn der_bench_nested(octets: *const u8, len: usize) -> Totals;
}

fn nested_inside(bytes: &[u8]) -> Totals {
    // SAFETY: the pointer and the length are those of a slice, which the call only reads.
    unsafe { der_bench_nested(bytes.as_ptr(), bytes.len()) }
}

pub fn pass(totals: &mut Totals, contents: &[u8]) {
    totals.elements = totals.elements.wrapping_add(1);
    totals.contents = totals.contents.wrapping_add(contents.len() as u64);
    let first = contents.first().copied().unwrap_or(0);
    totals.octet_sum = totals.octet_sum.wrapping_add(first as u64);
}

/// The flat walk with the crate `der`.
#[inline(never)]
fn walk_by_crate(bytes: &[u8]) -> Totals {
    fn walk(bytes: &[u8], totals: &mut Totals) -> Result<(), der::Error> {
        let mut reader = SliceReader::new(bytes)?;
        while !reader.is_finished() {
            let header = Header::decode(&mut reader)?;
            pass(totals, reader.read_slice(header.length())?);
        }
        Ok(())
    }
    let mut totals = Totals::default();
    let _ = walk(bytes, &mut totals);
    totals
}

/// Prints the minimum time of each way, in nanoseconds for each of `count` things. The rounds
/// alternate between the ways, so that all see the same machine. All ways must return the same
/// totals.
fn print_row<F: Copy>(
    name: &str,
    size: usize,
    count: u64,
    ways: &[(&str, F)],
    mut run: impl FnMut(F) -> Totals,
) {
    let reported = run(ways[0].1);
    assert_ne!(reported.elements, 0, "{name}");
    let mut least = vec![f64::INFINITY; ways.len()];
    let begun = Instant::now();
    let mut rounds = 0;
    while rounds < ROUNDS || begun.elapsed() < WHILE {
        for ((way, does), least) in ways.iter().zip(&mut least) {
            let start = Instant::now();
            let again = black_box(run(black_box(*does)));
            *least = least.min(start.elapsed().as_nanos() as f64 / count as f64);
            assert_eq!(again, reported, "{name} by {way}");
        }
        rounds += 1;
    }
    for ((way, _), least) in ways.iter().zip(least) {
        println!("{name}|{size}|{way}|{least:.3}");
    }
}

type Reading = fn(&[u8]) -> Totals;
type Putting<I> = fn(&[I], &mut [u8]) -> Totals;

fn print_row_reading(name: &str, size: usize, count: u64, bytes: &[u8], ways: &[(&str, Reading)]) {
    print_row(name, size, count, ways, |walk| walk(bytes));
}

fn print_row_putting<I>(name: &str, size: usize, input: &[I], ways: &[(&str, Putting<I>)]) {
    let mut out = vec![0; 2 * size];
    let count = (ways[0].1)(input, &mut out).contents as usize;
    out.truncate(count);
    let wanted = out.clone();
    for (way, put) in ways {
        out.fill(0);
        put(input, &mut out);
        assert!(out == wanted, "{name} by {way}");
    }
    print_row(name, size, input.len() as u64, ways, |put| {
        put(input, &mut out)
    });
}

/// The ways, with that of mbedTLS if it is available.
macro_rules! ways {
    ($type:ty, $mbedtls:ident, $($name:literal: $way:expr),*) => {{
        #[allow(unused_mut, reason = "mbedTLS is not there")]
        let mut ways: Vec<(&str, $type)> = vec![$(($name, $way)),*];
        #[cfg(mbedtls)]
        ways.push(("mbedTLS", from_c::mbedtls::$mbedtls));
        ways
    }};
}

fn print_row_reads(size: usize) {
    let mut numbers = Numbers(0x9E37_79B9_7F4A_7C15);
    let mut flat = Vec::with_capacity(size + (1 << 12));
    let mut count = 0;
    while flat.len() < size {
        push_element(&mut flat, &mut numbers, short_len);
        count += 1;
    }
    let walks = ways!(Reading, walk,
        "inside Rattle": proved_walk,
        "C": from_c::walk,
        "Rust": from_rust::walk,
        "by hand": from_c::hand_walk,
        "the crate": walk_by_crate
    );
    print_row_reading("flat walk", size, count, &flat, &walks);
    let nested = certificates(size);
    let count = nested_inside(&nested).elements;
    let walks = ways!(Reading, nested,
        "inside Rattle": nested_inside,
        "C": from_c::nested,
        "Rust": from_rust::nested,
        "by hand": from_c::hand_nested,
        "the crate": nested_beside::walk
    );
    print_row_reading(
        "certificates, a call an element",
        size,
        count,
        &nested,
        &walks,
    );
    let walks = ways!(Reading, nested,
        "inside Rattle": nested_inside,
        "C": from_c::tree,
        "Rust": from_rust::tree,
        "by hand": from_c::hand_nested,
        "the crate": nested_beside::walk
    );
    print_row_reading("certificates, a call a tree", size, count, &nested, &walks);
    let (octets, count) = keys(33, size);
    let reads = ways!(Reading, keys,
        "inside Rattle": proved_decode,
        "C": from_c::keys,
        "Rust": from_rust::keys,
        "by hand": from_c::hand_keys,
        "the crate": nested_beside::decode
    );
    print_row_reading("keys, by tags", size, count, &octets, &reads);
}

fn print_row_writes(size: usize) {
    let of_certificates: Vec<Wanted> = headers(1 << 20)
        .iter()
        .cycle()
        .map(|&(first, len)| Wanted::new(first, len))
        .take(size * 4 / 9)
        .collect();
    let ways = ways!(Putting<Wanted>, headers,
        "inside Rattle": written::headers,
        "C": from_c::headers,
        "Rust": from_rust::headers,
        "by hand": from_c::hand_headers,
        "the crate": writing_beside::headers
    );
    print_row_putting(
        "headers of certificates written",
        size,
        &of_certificates,
        &ways,
    );
    let mut numbers = Numbers(0x9E37_79B9_7F4A_7C15);
    let numbers: Vec<u64> = (0..size / 10).map(|_| numbers.next()).collect();
    let ways = ways!(Putting<u64>, elements,
        "inside Rattle": written::elements,
        "C": from_c::elements,
        "Rust": from_rust::elements,
        "by hand": from_c::hand_elements,
        "the crate": writing_beside::elements
    );
    print_row_putting("elements written", size, &numbers, &ways);
    let numbers = &numbers[..size / 42];
    let ways = ways!(Putting<u64>, sequences,
        "inside Rattle": written::sequences,
        "C": from_c::sequences,
        "Rust": from_rust::sequences,
        "by hand": from_c::hand_sequences,
        "the crate": writing_beside::sequences
    );
    print_row_putting(
        "SEQUENCEs of four written, lengths first",
        size,
        numbers,
        &ways,
    );
    let ways = ways!(Putting<u64>, sequences,
        "inside Rattle": written::sequences,
        "C": from_c::parts,
        "Rust": from_rust::parts,
        "by hand": from_c::hand_sequences,
        "the crate": writing_beside::sequences
    );
    print_row_putting(
        "SEQUENCEs of four written, begin and end",
        size,
        numbers,
        &ways,
    );
}

fn main() {
    for size in SIZES {
        print_row_reads(size);
        print_row_writes(size);
    }
}
