//! Wrappers of the functions of calls.c and mbedtls.c.
use crate::common::Totals;
use crate::written::Wanted;

/// Functions that pass slices to those of C, as pointers and then lengths.
macro_rules! reading {
    ($($name:ident: $of_c:literal),*) => { $(
        pub fn $name(bytes: &[u8]) -> Totals {
            unsafe extern "C" {
                #[link_name = $of_c]
                fn of_c(octets: *const u8, length: usize) -> Totals;
            }
            // SAFETY: the pointer and the length are those of a slice, which the call only reads.
            unsafe { of_c(bytes.as_ptr(), bytes.len()) }
        }
    )* };
}

macro_rules! putting {
    ($($name:ident: $of_c:literal, $input:ty);*) => { $(
        pub fn $name(input: &[$input], out: &mut [u8]) -> Totals {
            unsafe extern "C" {
                #[link_name = $of_c]
                fn of_c(input: *const $input, count: usize, out: *mut u8, space: usize) -> Totals;
            }
            // SAFETY: pointers and lengths are those of slices: the call reads the first, and
            // writes to the second.
            unsafe { of_c(input.as_ptr(), input.len(), out.as_mut_ptr(), out.len()) }
        }
    )* };
}

reading!(walk: "calls_walk", nested: "calls_nested", tree: "calls_tree", keys: "calls_keys");
reading!(hand_walk: "hand_walk", hand_nested: "hand_nested", hand_keys: "hand_keys");
putting!(headers: "calls_headers", Wanted; elements: "calls_elements", u64);
putting!(sequences: "calls_sequences", u64; parts: "calls_parts", u64);
putting!(hand_headers: "hand_headers", Wanted; hand_elements: "hand_elements", u64);
putting!(hand_sequences: "hand_sequences", u64);

#[cfg(mbedtls)]
pub mod mbedtls {
    use super::{Totals, Wanted};

    reading!(walk: "mbedtls_walk", nested: "mbedtls_nested", keys: "mbedtls_keys");
    putting!(headers: "mbedtls_headers", Wanted; elements: "mbedtls_elements", u64);
    putting!(sequences: "mbedtls_sequences", u64);
}
