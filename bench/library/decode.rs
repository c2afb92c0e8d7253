//! Decoding of values, one after the other: of a SEQUENCE type with another SEQUENCE inside it, and
//! of any type that implements `Counted`.
use crate::Totals;
use der::{Decode, EncodingRules, Error, ReaderExt, SliceReader};
use example_calls::key_info::KeyInfo;
use std::alloc::Global;

// A value that is counted in the totals.
pub(crate) trait Counted: Drop {
    // How many octets of contents it has.
    fn contents(&self) -> usize;

    // The first of them, or another octet in its place.
    fn first_octet(&self) -> u8;
}

impl<'a> Counted for KeyInfo<'a> {
    #[inline(always)]
    fn contents(&self) -> usize {
        let algorithm = self.algorithm.algorithm.octets.len();
        algorithm.wrapping_add(self.key.octets.len())
    }

    #[inline(always)]
    fn first_octet(&self) -> u8 {
        self.algorithm.month.month()
    }
}

/// Decodes the keys ([`KeyInfo`]) in `bytes`, one after the other, until the octets end or there is
/// an error. In the result, `elements` is the number of keys, `contents` is the total number of
/// contents octets of their algorithm and key fields, and `octet_sum` is the sum of the numbers of
/// their months.
#[unsafe(no_mangle)]
pub extern "C" fn der_bench_decode(alloc: Global, bytes: &[u8]) -> Totals {
    decode_each::<KeyInfo<'_>>(alloc, bytes, EncodingRules::Der)
}

// Decodes values in sequence until the octets end or there is an error.
#[inline(always)]
pub(crate) fn decode_each<'a, T: Decode<SliceReader<'a>, Error = Error> + Counted>(
    alloc: Global,
    bytes: &'a [u8],
    rules: EncodingRules,
) -> Totals {
    let mut totals = Totals::none();
    let Ok(mut reader) = SliceReader::new_with_encoding_rules(bytes, rules) else {
        return totals;
    };
    // Each value has at least one octet.
    for _ in 0..bytes.len() {
        if reader.is_finished() {
            break;
        }
        let Ok(value) = reader.decode::<T>(alloc) else {
            return totals;
        };
        totals.pass(value.contents(), value.first_octet() as u64);
    }
    totals
}
