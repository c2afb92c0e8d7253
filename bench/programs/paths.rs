//! `paths FILE` judges the path of ten certificates in the file with the proved library, without signatures, and policies of paths
//! whose tree doubles with each certificate. It prints the time for a path, and for a certificate of a path.
use std::hint::black_box;
use std::time::{Duration, Instant};

/// The minimum duration of the rounds of a row, and their minimum number.
const WHILE: Duration = Duration::from_secs(1);
const ROUNDS: usize = 7;

unsafe extern "C" {
    #[allow(improper_ctypes, reason = "the library takes slices of Rust")]
    fn path_bench_judge(slices: &[&[u8]]) -> usize;
    fn path_bench_policies(length: usize) -> usize;
}

/// The octets in a file, each after its length.
fn split(mut octets: &[u8]) -> Vec<&[u8]> {
    let mut found = Vec::new();
    while let Some((length, rest)) = octets.split_first_chunk::<4>() {
        let (item, after) = rest.split_at(u32::from_be_bytes(*length) as usize);
        found.push(item);
        octets = after;
    }
    found
}

/// The minimum time of a call, in nanoseconds, which has to return this number.
fn least(expected: usize, way: impl Fn() -> usize) -> f64 {
    assert_eq!(way(), expected);
    let (mut least, began, mut rounds) = (Duration::MAX, Instant::now(), 0);
    while rounds < ROUNDS || began.elapsed() < WHILE {
        let start = Instant::now();
        for _ in 0..64 {
            black_box(way());
        }
        least = least.min(start.elapsed());
        rounds += 1;
    }
    least.as_nanos() as f64 / 64.0
}

fn main() {
    let path = std::env::args().nth(1).expect("a file");
    let octets = std::fs::read(path).expect("the file");
    let slices = split(&octets);
    let time = least(10, || unsafe { path_bench_judge(black_box(&slices)) });
    println!("a path of ten certificates, read and judged: library {time:.0} ns");
    for length in [4, 16, 64] {
        let time = least(1, || unsafe { path_bench_policies(black_box(length)) });
        println!(
            "policies of {length} certificates, a tree of 2^{length} nodes: library {:.0} ns a certificate",
            time / length as f64
        );
    }
}
