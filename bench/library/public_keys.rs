//! Public keys, decoded and written by types that are compiled from an ASN.1 module, and by types
//! that are written by hand.
use crate::Totals;
use crate::again::to_slice;
use crate::decode::{Counted, decode_each};
use crate::handwritten::PublicKey;
use der::EncodingRules;
use spki::SubjectPublicKeyInfoRef;
use std::alloc::Global;

impl<'a> Counted for SubjectPublicKeyInfoRef<'a> {
    #[inline(always)]
    fn contents(&self) -> usize {
        self.subject_public_key.octets().len()
    }

    #[inline(always)]
    fn first_octet(&self) -> u8 {
        self.algorithm.oid.octets().first().copied().unwrap_or(0)
    }
}

impl<'a> Counted for PublicKey<'a> {
    #[inline(always)]
    fn contents(&self) -> usize {
        self.key.octets().len()
    }

    #[inline(always)]
    fn first_octet(&self) -> u8 {
        self.algorithm.oid.octets().first().copied().unwrap_or(0)
    }
}

/// Decodes the public keys ([`SubjectPublicKeyInfoRef`]) in `bytes`, one after the other, until the
/// octets end or there is an error. In the result, `elements` is the number of keys, `contents` is
/// the total number of contents octets of their BIT STRINGs, and `octet_sum` is the sum of the
/// first contents octets of their object identifiers.
#[unsafe(no_mangle)]
pub extern "C" fn der_bench_generated_keys(alloc: Global, bytes: &[u8]) -> Totals {
    decode_each::<SubjectPublicKeyInfoRef<'_>>(alloc, bytes, EncodingRules::Der)
}

/// Decodes the public keys in `bytes` by a type that is written by hand, one after the other, until
/// the octets end or there is an error. The result is that of [`der_bench_generated_keys`].
#[unsafe(no_mangle)]
pub extern "C" fn der_bench_handwritten_keys(alloc: Global, bytes: &[u8]) -> Totals {
    decode_each::<PublicKey<'_>>(alloc, bytes, EncodingRules::Der)
}

/// Decodes one public key from `octets` by a type that is written by hand, then writes this public
/// key `times` times, each time to the start of `out`. Stops at the first error; the result then
/// covers the writes before it. In the result, `elements` is the number of writes, `contents` is
/// the total number of octets written, headers included, and `octet_sum` is the sum of the last
/// octets of all writes.
#[unsafe(no_mangle)]
pub extern "C" fn der_bench_handwritten_key_to_slice(
    alloc: Global,
    octets: &[u8],
    times: u64,
    out: &mut [u8],
) -> Totals {
    to_slice::<PublicKey<'_>>(alloc, octets, times, out)
}
