//! Computes the lengths of keys and writes keys, each as a whole value, with the proved library and
//! by hand. Prints the time for one key each.
#[cfg(beside)]
#[path = "whole_beside.rs"]
mod beside;
#[allow(dead_code, reason = "other drivers use the rest")]
mod common;
#[allow(dead_code, reason = "as above")]
mod put;
mod put_keys;
mod rounds;
#[allow(dead_code, reason = "as above")]
mod written;

use common::{Numbers, Totals};
use rounds::{By, Row, SIZES, print_row, way};
use written::WantedKey;

/// A way to compute something from keys, and a way to write them.
type Making = fn(&[WantedKey], &[u8]) -> Totals;
type Putting = fn(&[WantedKey], &[u8], &mut [u8]) -> Totals;

/// The number of octets that keys borrow from: the most that one key needs.
const BORROWED: usize = 512;

/// Keys whose sizes are below `bound`, about `size` octets together.
fn wanted_keys(bound: u64, size: usize) -> Vec<WantedKey> {
    let mut numbers = Numbers(0x9E37_79B9_7F4A_7C15);
    let mut wanted = Vec::new();
    let mut octets = 0;
    while octets < size {
        let len = numbers.below(bound) as u32;
        wanted.push(WantedKey {
            algorithm: 5 + len % 5,
            key: len,
            month: (len % 12) as u8,
        });
        octets += 18 + len as usize;
    }
    wanted
}

/// A row of what is computed from keys, by the library, by hand and by the crate.
macro_rules! making {
    ($name:literal, $library:ident, $hand:ident, $bound:expr, $size:expr, $borrowed:expr) => {{
        let wanted = wanted_keys($bound, $size);
        let octets = put_keys::count(&wanted, $borrowed).contents as usize;
        let run = |by, make: Making| {
            let (wanted, borrowed) = (&wanted[..], $borrowed);
            way(by, move |()| make(wanted, borrowed))
        };
        #[allow(unused_mut, reason = "the crate's way may not be there")]
        let mut ways = vec![
            run(By::Library, written::$library),
            run(By::Hand, put_keys::$hand),
        ];
        #[cfg(beside)]
        ways.push(run(By::Crate, beside::$hand));
        print_row(
            &row($name, $bound, $size, octets, wanted.len()),
            &ways,
            &mut (),
        );
    }};
}

fn row(name: &str, bound: u64, size: usize, octets: usize, count: usize) -> Row {
    Row {
        name: format!("keys of 0 to {} octets, {name}", bound - 1),
        size,
        octets,
        count: count as u64,
    }
}

fn print_row_putting(bound: u64, size: usize, borrowed: &[u8]) {
    let wanted = wanted_keys(bound, size);
    let octets = put_keys::count(&wanted, borrowed).contents as usize;
    let mut out = vec![0; octets];
    let run = |by, put: Putting| {
        let wanted = &wanted[..];
        way(by, move |out: &mut Vec<u8>| put(wanted, borrowed, out))
    };
    #[allow(unused_mut, reason = "as above")]
    let mut ways = vec![
        run(By::Library, written::keys),
        run(By::Hand, put_keys::keys),
    ];
    #[cfg(beside)]
    ways.push(run(By::Crate, beside::keys));
    print_row(
        &row("into one writer", bound, size, octets, wanted.len()),
        &ways,
        &mut out,
    );
}

fn main() {
    let mut numbers = Numbers(0x2545_F491_4F6C_DD1D);
    let borrowed: Vec<u8> = (0..BORROWED).map(|_| numbers.next() as u8).collect();
    for size in SIZES {
        for bound in [33, 513] {
            making!("counted", count_keys, count, bound, size, &borrowed);
            print_row_putting(bound, size, &borrowed);
            making!(
                "by encode_to_slice",
                keys_to_slice,
                to_slice,
                bound,
                size,
                &borrowed
            );
            making!("by to_der", keys_to_der, to_der, bound, size, &borrowed);
        }
    }
}
