//! Reads signed messages under BER, as `openssl cms -sign -stream` writes them, with the proved
//! library and with OpenSSL, and prints the time for each KiB of the content. The message is a
//! file, whose content is replaced by segments of 4 KiB: `messages FILE PLACE`, where `PLACE` is
//! the offset of the first segment. A message grows in octets, and in levels of segments around
//! its segments.
#[allow(dead_code, reason = "other drivers use the rest")]
mod common;
#[allow(dead_code, reason = "as above")]
mod rounds;

use common::Totals;
use rounds::counted_row;
use std::hint::black_box;
use std::time::{Duration, Instant};

const WHILE: Duration = Duration::from_secs(1);
const ROUNDS: usize = 7;
const SEGMENT: usize = 4 << 10;
const SIZES: [usize; 3] = [1 << 20, 4 << 20, 16 << 20];
const LEVELS: [usize; 3] = [0, 8, 48];

unsafe extern "C" {
    fn der_bench_message(octets: *const u8, len: usize) -> Totals;
    fn openssl_message(octets: *const u8, len: usize) -> u64;
}

fn by_library(octets: &[u8]) -> u64 {
    // SAFETY: the pointer and the length are those of a slice, which the call only reads.
    unsafe { der_bench_message(octets.as_ptr(), octets.len()) }.contents
}

fn by_openssl(octets: &[u8]) -> u64 {
    // SAFETY: the pointer and the length are those of a slice, which the call only reads.
    unsafe { openssl_message(octets.as_ptr(), octets.len()) }
}

/// The message with so many octets of content, in segments inside so many constructed ones.
fn grown(message: &[u8], place: usize, size: usize, levels: usize) -> Vec<u8> {
    let old = 2 + message[place + 1] as usize;
    let mut out = message[..place].to_vec();
    out.extend([0x24, 0x80].repeat(levels));
    for at in 0..size / SEGMENT {
        out.extend([0x04, 0x82, (SEGMENT >> 8) as u8, SEGMENT as u8]);
        out.extend((0..SEGMENT).map(|octet| (octet + at) as u8));
    }
    out.extend([0, 0].repeat(levels));
    out.extend(&message[place + old..]);
    out
}

/// The minimum time of each way, in nanoseconds for each KiB of the content.
fn print_row(name: &str, size: usize, message: &[u8], ways: &[(&str, fn(&[u8]) -> u64)]) {
    if let Some(counted) = counted_row() {
        if counted == format!("{name}|{size}") {
            ways.iter().for_each(|(_, run)| {
                black_box(run(black_box(message)));
            });
            println!("{}", size >> 10);
        }
        return;
    }
    let mut least = vec![f64::INFINITY; ways.len()];
    for (way, run) in ways {
        assert_eq!(run(message), size as u64, "{name} by {way}");
    }
    let begun = Instant::now();
    let mut rounds = 0;
    while rounds < ROUNDS || begun.elapsed() < WHILE {
        for ((_, run), least) in ways.iter().zip(&mut least) {
            let start = Instant::now();
            black_box(run(black_box(message)));
            *least = least.min(start.elapsed().as_nanos() as f64 / (size >> 10) as f64);
        }
        rounds += 1;
    }
    for ((way, _), least) in ways.iter().zip(least) {
        println!("{name}|{size}|{way}|{least:.6}");
    }
}

fn main() {
    let words: Vec<String> = std::env::args().collect();
    let message = std::fs::read(&words[1]).expect("a message");
    let place: usize = words[2].parse().expect("an offset");
    let all: [(&str, fn(&[u8]) -> u64); 2] = [("library", by_library), ("OpenSSL", by_openssl)];
    for levels in LEVELS {
        // OpenSSL refuses more than five levels of segments
        let ways = if levels == 0 { &all[..] } else { &all[..1] };
        for size in SIZES {
            let grown = grown(&message, place, size, levels);
            print_row(&format!("{levels} levels of segments"), size, &grown, ways);
        }
    }
}
