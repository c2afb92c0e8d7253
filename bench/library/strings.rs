//! Decoding of byte strings and texts: borrowed, copied, and joined from segments.
use crate::Totals;
use crate::decode::{Counted, decode_each};
use der::EncodingRules;
use der::example::{BorrowedOctets, JoinedOctets, OwnedText};
use std::alloc::Global;

impl<'a> Counted for BorrowedOctets<'a> {
    #[inline(always)]
    fn contents(&self) -> usize {
        self.octets.as_slice().len()
    }

    #[inline(always)]
    fn first_octet(&self) -> u8 {
        first_of(self.octets.as_slice())
    }
}

impl Counted for OwnedText {
    #[inline(always)]
    fn contents(&self) -> usize {
        self.text.as_bytes().len()
    }

    #[inline(always)]
    fn first_octet(&self) -> u8 {
        first_of(self.text.as_bytes())
    }
}

impl Counted for JoinedOctets {
    #[inline(always)]
    fn contents(&self) -> usize {
        self.octets.as_slice().len()
    }

    #[inline(always)]
    fn first_octet(&self) -> u8 {
        first_of(self.octets.as_slice())
    }
}

// The first octet, or zero.
#[inline(always)]
fn first_of(octets: &[u8]) -> u8 {
    octets.first().copied().unwrap_or(0)
}

/// Decodes the OCTET STRINGs in `bytes`, one after the other, until the octets end or there is an
/// error. Each decoded value borrows its octets from `bytes`. In the result, `elements` is the
/// number of OCTET STRINGs, `contents` is the total number of their contents octets, and
/// `octet_sum` is the sum of their first contents octets.
#[unsafe(no_mangle)]
pub extern "C" fn der_bench_borrowed(alloc: Global, bytes: &[u8]) -> Totals {
    decode_each::<BorrowedOctets<'_>>(alloc, bytes, EncodingRules::Der)
}

/// Decodes the UTF8Strings in `bytes`, one after the other, and copies each text, until the octets
/// end or there is an error. In the result, `elements` is the number of texts, `contents` is the
/// total number of their octets, and `octet_sum` is the sum of their first octets.
#[unsafe(no_mangle)]
pub extern "C" fn der_bench_texts(alloc: Global, bytes: &[u8]) -> Totals {
    decode_each::<OwnedText>(alloc, bytes, EncodingRules::Der)
}

/// Decodes the OCTET STRINGs in `bytes` under the Basic Encoding Rules, one after the other, and
/// joins the segments of each OCTET STRING, until the octets end or there is an error. In the
/// result, `elements` is the number of OCTET STRINGs, `contents` is the total number of their
/// joined octets, and `octet_sum` is the sum of their first joined octets.
#[unsafe(no_mangle)]
pub extern "C" fn der_bench_joined(alloc: Global, bytes: &[u8]) -> Totals {
    decode_each::<JoinedOctets>(alloc, bytes, EncodingRules::Ber)
}
