//! What the proved library is asked to write, and the functions that call it.
use crate::common::Totals;

/// A header to write, with the layout of the library.
#[repr(C)]
#[derive(Clone, Copy)]
pub struct Wanted {
    pub number: u32,
    pub length: u32,
    pub class: u8,
    pub constructed: u8,
}

impl Wanted {
    /// The header with this first octet, which is a whole identifier, and `len` octets of contents.
    pub fn new(first: u8, len: usize) -> Wanted {
        Wanted {
            number: (first & 0x1F) as u32,
            length: len as u32,
            class: first >> 6,
            constructed: first >> 5 & 1,
        }
    }
}

/// A key to write, whose fields borrow the first octets of a common slice: how many its algorithm
/// and the key itself have, and its month.
#[repr(C)]
#[derive(Clone, Copy)]
pub struct WantedKey {
    pub algorithm: u32,
    pub key: u32,
    pub month: u8,
}

mod library {
    use super::{Totals, Wanted, WantedKey};

    // Slices are passed as pointers and then lengths; the allocator has size 0 and is not passed.
    unsafe extern "C" {
        pub fn der_bench_put_headers(_: *const Wanted, _: usize, _: *mut u8, _: usize) -> Totals;
        pub fn der_bench_put_known(_: *const u32, _: usize, _: *mut u8, _: usize) -> Totals;
        pub fn der_bench_put_elements(_: *const u64, _: usize, _: *mut u8, _: usize) -> Totals;
        pub fn der_bench_put_sequences(_: *const u64, _: usize, _: *mut u8, _: usize) -> Totals;
        pub fn der_bench_call_sequences(_: *const u64, _: usize, _: *mut u8, _: usize) -> Totals;
        pub fn der_bench_to_slice(_: *const u64, _: usize) -> Totals;
        pub fn der_bench_to_der(_: *const u64, _: usize) -> Totals;
        pub fn der_bench_to_vec(_: *const u64, _: usize) -> Totals;
        pub fn der_bench_count_keys(
            _: *const WantedKey,
            _: usize,
            _: *const u8,
            _: usize,
        ) -> Totals;
        pub fn der_bench_keys_to_slice(
            _: *const WantedKey,
            _: usize,
            _: *const u8,
            _: usize,
        ) -> Totals;
        pub fn der_bench_keys_to_der(
            _: *const WantedKey,
            _: usize,
            _: *const u8,
            _: usize,
        ) -> Totals;
        pub fn der_bench_put_keys(
            _: *const WantedKey,
            _: usize,
            _: *const u8,
            _: usize,
            _: *mut u8,
            _: usize,
        ) -> Totals;
    }
}

/// A function that passes these slices to the library.
macro_rules! handed {
    ($name:ident, $library:ident, $input:ty) => {
        pub fn $name(input: &[$input], out: &mut [u8]) -> Totals {
            let (at, len) = (out.as_mut_ptr(), out.len());
            // SAFETY: pointers and lengths are those of slices: the call reads the first, and
            // writes to the second.
            unsafe { library::$library(input.as_ptr(), input.len(), at, len) }
        }
    };
    ($name:ident, $library:ident) => {
        pub fn $name(input: &[u64]) -> Totals {
            // SAFETY: the pointer and the length are those of a slice, which the call only reads.
            unsafe { library::$library(input.as_ptr(), input.len()) }
        }
    };
}

/// The same for keys, and for the octets that they borrow from.
macro_rules! keys {
    ($name:ident, $library:ident) => {
        pub fn $name(wanted: &[WantedKey], borrowed: &[u8]) -> Totals {
            let (at, len) = (borrowed.as_ptr(), borrowed.len());
            // SAFETY: pointers and lengths are those of slices, which the call only reads.
            unsafe { library::$library(wanted.as_ptr(), wanted.len(), at, len) }
        }
    };
}

pub fn keys(wanted: &[WantedKey], borrowed: &[u8], out: &mut [u8]) -> Totals {
    let (at, len) = (out.as_mut_ptr(), out.len());
    let (from, count) = (borrowed.as_ptr(), borrowed.len());
    // SAFETY: pointers and lengths are those of slices: the call reads the first two, and writes
    // to the third.
    unsafe { library::der_bench_put_keys(wanted.as_ptr(), wanted.len(), from, count, at, len) }
}

keys!(count_keys, der_bench_count_keys);
keys!(keys_to_slice, der_bench_keys_to_slice);
keys!(keys_to_der, der_bench_keys_to_der);
handed!(headers, der_bench_put_headers, Wanted);
handed!(known, der_bench_put_known, u32);
handed!(elements, der_bench_put_elements, u64);
handed!(sequences, der_bench_put_sequences, u64);
handed!(called, der_bench_call_sequences, u64);
handed!(to_slice, der_bench_to_slice);
handed!(to_der, der_bench_to_der);
handed!(to_vec, der_bench_to_vec);
