//! The work of x509.rs, in several ways.
use crate::common::Totals;
use crate::put::pass;
use crate::read_by_hand::{Certificate, Left, PublicKey, certificate, public_key, revocation_list};
use crate::write_by_hand;
use std::hint::black_box;

mod other {
    use super::Totals;

    // Slices are passed as pointers and then lengths; the allocator has size 0 and is not passed.
    unsafe extern "C" {
        pub fn der_bench_certificates(_: *const u8, _: usize) -> Totals;
        pub fn der_bench_dns_names(_: *const u8, _: usize) -> Totals;
        pub fn der_bench_revocation_list(_: *const u8, _: usize) -> Totals;
        pub fn der_bench_certificate_to_slice(
            _: *const u8,
            _: usize,
            _: u64,
            _: *mut u8,
            _: usize,
        ) -> Totals;
        pub fn der_bench_certificate_to_der(_: *const u8, _: usize, _: u64) -> Totals;
        pub fn der_bench_public_key_to_slice(
            _: *const u8,
            _: usize,
            _: u64,
            _: *mut u8,
            _: usize,
        ) -> Totals;
        pub fn der_bench_public_key_to_der(_: *const u8, _: usize, _: u64) -> Totals;
        pub fn openssl_certificates(_: *const u8, _: usize) -> u64;
        pub fn openssl_dns_names(_: *const u8, _: usize) -> u64;
        pub fn openssl_revocation_list(_: *const u8, _: usize) -> u64;
        pub fn openssl_written(_: *const u8, _: usize, _: u64) -> u64;
        #[cfg(mbedtls)]
        pub fn mbedtls_certificates(_: *const u8, _: usize) -> u64;
        pub fn walked_certificates(_: *const u8, _: usize) -> u64;
    }
}

pub fn read(bytes: &[u8]) -> Totals {
    // SAFETY: the pointer and the length are those of a slice, which the call only reads.
    unsafe { other::der_bench_certificates(bytes.as_ptr(), bytes.len()) }
}

#[inline(never)]
pub fn read_by_hand(bytes: &[u8]) -> Totals {
    let mut totals = Totals::default();
    let mut left = Left::of(bytes);
    while !left.is_empty() {
        let Some(one) = certificate(&mut left) else {
            return totals;
        };
        let first = one.serial_number.first().copied().unwrap_or(0);
        totals.elements = totals.elements.wrapping_add(1);
        totals.contents = totals.contents.wrapping_add(one.signature.len() as u64);
        totals.octet_sum = totals.octet_sum.wrapping_add(first as u64);
        black_box(&one);
    }
    totals
}

pub fn read_dns_names(bytes: &[u8]) -> Totals {
    // SAFETY: the pointer and the length are those of a slice, which the call only reads.
    unsafe { other::der_bench_dns_names(bytes.as_ptr(), bytes.len()) }
}

pub fn read_list(bytes: &[u8]) -> Totals {
    // SAFETY: the pointer and the length are those of a slice, which the call only reads.
    unsafe { other::der_bench_revocation_list(bytes.as_ptr(), bytes.len()) }
}

pub fn read_list_by_hand(bytes: &[u8]) -> Totals {
    let mut totals = Totals::default();
    let pass = |serial_number: &[u8]| {
        let first = serial_number.first().copied().unwrap_or(0);
        totals.elements = totals.elements.wrapping_add(1);
        totals.contents = totals.contents.wrapping_add(serial_number.len() as u64);
        totals.octet_sum = totals.octet_sum.wrapping_add(first as u64);
    };
    match revocation_list(bytes, pass) {
        Some(()) => totals,
        None => Totals::default(),
    }
}

/// Ways that return the number of elements alone.
macro_rules! counting {
    ($name:ident, $other:ident $(, $times:ident)?) => {
        pub fn $name(bytes: &[u8] $(, $times: u64)?) -> Totals {
            // SAFETY: the pointer and the length are those of a slice, which the call only reads.
            let elements = unsafe { other::$other(bytes.as_ptr(), bytes.len() $(, $times)?) };
            Totals {
                elements,
                ..Totals::default()
            }
        }
    };
}

counting!(read_by_openssl, openssl_certificates);
#[cfg(mbedtls)]
counting!(read_by_mbedtls, mbedtls_certificates);
counting!(walked, walked_certificates);
counting!(read_dns_names_by_openssl, openssl_dns_names);
counting!(read_list_by_openssl, openssl_revocation_list);
counting!(written_by_openssl, openssl_written, times);

/// The ways of the library to write what it read from the octets.
macro_rules! writing {
    ($to_slice:ident, $slice:ident, $to_der:ident, $der:ident) => {
        pub fn $to_slice(bytes: &[u8], times: u64, out: &mut [u8]) -> Totals {
            let (at, len) = (out.as_mut_ptr(), out.len());
            // SAFETY: pointers and lengths are those of slices: the call reads the first, and
            // writes to the second.
            unsafe { other::$slice(bytes.as_ptr(), bytes.len(), times, at, len) }
        }

        pub fn $to_der(bytes: &[u8], times: u64) -> Totals {
            // SAFETY: the pointer and the length are those of a slice, which the call only reads.
            unsafe { other::$der(bytes.as_ptr(), bytes.len(), times) }
        }
    };
}

writing!(
    to_slice,
    der_bench_certificate_to_slice,
    to_der,
    der_bench_certificate_to_der
);
writing!(
    key_to_slice,
    der_bench_public_key_to_slice,
    key_to_der,
    der_bench_public_key_to_der
);

/// The same by hand.
macro_rules! writing_by_hand {
    ($read:ident, $type:ident, $to_slice:ident, $slice:ident, $to_der:ident, $der:ident) => {
        #[inline(never)]
        pub fn $to_slice(bytes: &[u8], times: u64, out: &mut [u8]) -> Totals {
            let mut totals = Totals::default();
            let Some(one) = $read(&mut Left::of(bytes)) else {
                return totals;
            };
            for _ in 0..times {
                let one: &$type<'_> = black_box(&one);
                let Some(written) = write_by_hand::$slice(one, out) else {
                    return totals;
                };
                pass(&mut totals, black_box(written));
            }
            totals
        }

        #[inline(never)]
        pub fn $to_der(bytes: &[u8], times: u64) -> Totals {
            let mut totals = Totals::default();
            let Some(one) = $read(&mut Left::of(bytes)) else {
                return totals;
            };
            for _ in 0..times {
                let one: &$type<'_> = black_box(&one);
                let Some(written) = write_by_hand::$der(one) else {
                    return totals;
                };
                pass(&mut totals, black_box(&written));
            }
            totals
        }
    };
}

writing_by_hand!(
    certificate,
    Certificate,
    to_slice_by_hand,
    certificate_to_slice,
    to_der_by_hand,
    certificate_to_der
);
writing_by_hand!(
    public_key,
    PublicKey,
    key_to_slice_by_hand,
    public_key_to_slice,
    key_to_der_by_hand,
    public_key_to_der
);

/// The octets of the public key of a certificate.
pub fn public_key_of(bytes: &[u8]) -> Vec<u8> {
    let one = certificate(&mut Left::of(bytes)).expect("a certificate");
    write_by_hand::public_key_to_der(&one.public_key).expect("a key of few octets")
}
