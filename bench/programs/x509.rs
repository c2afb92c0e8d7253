//! Reads and writes certificates, and reads revocation lists, with the proved library, by hand,
//! with OpenSSL and with mbedTLS, and prints the time for one certificate or one entry each. First
//! each certificate is read with each octet in turn changed to each other value, by the library and
//! by hand, which must reject the same. Files after `--` are used for that alone.
#[allow(dead_code, reason = "other drivers use the rest")]
mod common;
#[allow(dead_code, reason = "as above")]
mod elements;
#[allow(dead_code, reason = "as above")]
mod hand;
mod lists;
#[allow(dead_code, reason = "as above")]
mod put;
#[allow(dead_code, reason = "as above")]
mod put_keys;
mod read_by_hand;
#[allow(dead_code, reason = "as above")]
mod rounds;
#[path = "x509_ways.rs"]
mod ways;
mod write_by_hand;
#[allow(dead_code, reason = "as above")]
mod written;

use common::Totals;
use rounds::{SIZES, counted_row};
use std::cell::RefCell;
use std::hint::black_box;
use std::time::{Duration, Instant};

/// The minimum duration of the rounds of a row, and their minimum number: OpenSSL takes seconds for
/// 16 MiB.
const WHILE: Duration = Duration::from_secs(1);
const ROUNDS: usize = 3;
/// How many times a row of writing writes: often enough that reading, which is done once, is a
/// small part for OpenSSL too.
const TIMES: u64 = 1000;

/// A way to do the work. All ways return how many were read or written; those of one row that
/// return more must agree.
type Way<'a> = (&'static str, Box<dyn Fn() -> Totals + 'a>);

/// Checks that the library and the code by hand reject the same if an octet is changed, and if the
/// file is truncated.
fn agree(name: &str, file: &[u8]) {
    let same = |octets: &[u8], at: usize| {
        let (library, hand) = (ways::read(octets), ways::read_by_hand(octets));
        assert_eq!(library, hand, "{name} at {at}");
    };
    let mut changed = file.to_vec();
    for at in 0..file.len() {
        for by in 1..=255 {
            changed[at] = file[at] ^ by;
            same(&changed, at);
        }
        changed[at] = file[at];
        same(&file[..at], at);
    }
    same(file, file.len());
}

/// Prints the minimum time of each way, in nanoseconds for each of `count` things. The rounds
/// alternate between the ways, so that all see the same machine.
fn print_row(name: &str, size: usize, count: u64, ways: &[Way<'_>]) {
    if let Some(counted) = counted_row() {
        if counted == format!("{name}|{size}") {
            ways.iter().for_each(|(_, run)| {
                black_box(run());
            });
            println!("{count}");
        }
        return;
    }
    let wanted = (ways[0].1)();
    assert_eq!(wanted.elements, count, "{name}");
    for (way, run) in ways {
        let reported = run();
        let prints_more = reported.contents != 0;
        assert_eq!(reported.elements, count, "{name} by {way}");
        assert!(!prints_more || reported == wanted, "{name} by {way}");
    }
    let mut least = vec![f64::INFINITY; ways.len()];
    let begun = Instant::now();
    let mut rounds = 0;
    while rounds < ROUNDS || begun.elapsed() < WHILE {
        for ((_, run), least) in ways.iter().zip(&mut least) {
            let start = Instant::now();
            black_box(run());
            *least = least.min(start.elapsed().as_nanos() as f64 / count as f64);
        }
        rounds += 1;
    }
    for ((way, _), least) in ways.iter().zip(least) {
        println!("{name}|{size}|{way}|{least:.3}");
    }
}

fn print_row_reading(name: &str, file: &[u8]) {
    for size in SIZES {
        let count = size / file.len();
        let bytes = file.repeat(count);
        let bytes = &bytes[..];
        let ways: Vec<Way<'_>> = vec![
            ("library", Box::new(|| ways::read(black_box(bytes)))),
            ("by hand", Box::new(|| ways::read_by_hand(black_box(bytes)))),
            ("OpenSSL", Box::new(|| ways::read_by_openssl(bytes))),
            #[cfg(mbedtls)]
            ("mbedTLS", Box::new(|| ways::read_by_mbedtls(bytes))),
            ("a walk by hand", Box::new(|| ways::walked(bytes))),
        ];
        print_row(&format!("{name}, read"), size, count as u64, &ways);
    }
}

/// Prints the row of a certificate that is read, and whose subjectAltName is found and decoded.
fn print_row_finding(name: &str, file: &[u8]) {
    for size in SIZES {
        let count = size / file.len();
        let bytes = file.repeat(count);
        let bytes = &bytes[..];
        let ways: Vec<Way<'_>> = vec![
            (
                "library",
                Box::new(|| ways::read_dns_names(black_box(bytes))),
            ),
            (
                "OpenSSL",
                Box::new(|| ways::read_dns_names_by_openssl(bytes)),
            ),
        ];
        print_row(
            &format!("{name}, read, with its DNS names"),
            size,
            count as u64,
            &ways,
        );
    }
}

/// The octets that a way writes to, which starts with none of them written.
fn space(len: usize) -> RefCell<Vec<u8>> {
    RefCell::new(vec![0; len])
}

/// Prints the rows of a certificate that is written.
fn print_row_writing(name: &str, file: &[u8]) {
    let (out, other) = (space(file.len()), space(file.len()));
    let ways: Vec<Way<'_>> = vec![
        (
            "library",
            Box::new(|| ways::to_slice(file, TIMES, &mut out.borrow_mut())),
        ),
        (
            "by hand",
            Box::new(|| ways::to_slice_by_hand(file, TIMES, &mut other.borrow_mut())),
        ),
    ];
    print_row(&format!("{name}, by encode_to_slice"), 1, TIMES, &ways);
    let ways: Vec<Way<'_>> = vec![
        ("library", Box::new(|| ways::to_der(file, TIMES))),
        ("by hand", Box::new(|| ways::to_der_by_hand(file, TIMES))),
        (
            "OpenSSL",
            Box::new(|| ways::written_by_openssl(file, TIMES)),
        ),
    ];
    print_row(&format!("{name}, by to_der"), 1, TIMES, &ways);
}

/// The same for the public key of a certificate.
fn print_row_writing_key(name: &str, key: &[u8]) {
    let (out, other) = (space(key.len()), space(key.len()));
    let ways: Vec<Way<'_>> = vec![
        (
            "library",
            Box::new(|| ways::key_to_slice(key, TIMES, &mut out.borrow_mut())),
        ),
        (
            "by hand",
            Box::new(|| ways::key_to_slice_by_hand(key, TIMES, &mut other.borrow_mut())),
        ),
    ];
    let name = format!("the public key alone, {name}");
    print_row(&format!("{name}, by encode_to_slice"), 1, TIMES, &ways);
    let ways: Vec<Way<'_>> = vec![
        ("library", Box::new(|| ways::key_to_der(key, TIMES))),
        ("by hand", Box::new(|| ways::key_to_der_by_hand(key, TIMES))),
    ];
    print_row(&format!("{name}, by to_der"), 1, TIMES, &ways);
}

/// Checks that a certificate and its key are written as they were read.
fn writes_back(name: &str, file: &[u8]) {
    let key = ways::public_key_of(file);
    let (mut out, mut other) = (vec![0; file.len()], vec![0; file.len()]);
    ways::to_slice(file, 1, &mut out);
    ways::to_slice_by_hand(file, 1, &mut other);
    assert!(out == file && other == file, "{name}");
    let (mut out, mut other) = (vec![0; key.len()], vec![0; key.len()]);
    ways::key_to_slice(&key, 1, &mut out);
    ways::key_to_slice_by_hand(&key, 1, &mut other);
    assert!(out == key && other == key, "the key of {name}");
}

/// Checks that the library and the code by hand reject the same if an octet of a short list is
/// changed.
fn lists_agree() {
    let short = lists::revocation_list(4);
    let mut changed = short.clone();
    for at in 0..short.len() {
        for by in 1..=255 {
            changed[at] = short[at] ^ by;
            let (library, hand) = (ways::read_list(&changed), ways::read_list_by_hand(&changed));
            assert_eq!(library, hand, "a list at {at}");
        }
        changed[at] = short[at];
    }
}

/// Prints the rows of revocation lists of growing size.
fn print_rows_reading_lists() {
    for entries in [1_000, 10_000, 100_000] {
        let list = lists::revocation_list(entries);
        let bytes = &list[..];
        let ways: Vec<Way<'_>> = vec![
            ("library", Box::new(|| ways::read_list(black_box(bytes)))),
            (
                "by hand",
                Box::new(|| ways::read_list_by_hand(black_box(bytes))),
            ),
            ("OpenSSL", Box::new(|| ways::read_list_by_openssl(bytes))),
        ];
        print_row(
            "an entry of a revocation list, read",
            entries,
            entries as u64,
            &ways,
        );
    }
}

/// Prints all rows of a certificate.
fn print_rows(name: &str, file: &[u8]) {
    print_row_reading(name, file);
    print_row_finding(name, file);
    print_row_writing(name, file);
    print_row_writing_key(name, &ways::public_key_of(file));
}

fn main() {
    let is_counting = counted_row().is_some();
    if !is_counting {
        lists_agree();
    }
    print_rows_reading_lists();
    let mut is_measured = true;
    for path in std::env::args().skip(1) {
        if path == "--" {
            is_measured = false;
            continue;
        }
        let file = std::fs::read(&path).expect("a file that can be read");
        let name = path.rsplit('/').next().unwrap_or(&path);
        if !is_counting {
            agree(name, &file);
            writes_back(name, &file);
        }
        if is_measured {
            eprintln!("{name}: {} octets", file.len());
            print_rows(name, &file);
        }
    }
}
