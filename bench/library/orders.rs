//! Comparison of OCTET STRINGs, each with the OCTET STRING before it, as in a SET OF.
use crate::Totals;
use der::example::BorrowedOctets;
use der::{DerOrd, ReaderExt, SliceReader};
use std::alloc::Global;
use std::cmp::Ordering;

/// Decodes the OCTET STRINGs in `bytes`, one after the other, and compares each OCTET STRING, from
/// the second on, with the OCTET STRING before it, until the octets end or there is an error. In
/// the result, `elements` is the number of comparisons, `contents` is the total number of contents
/// octets of all OCTET STRINGs but the first, and `octet_sum` is the number of OCTET STRINGs that
/// are less than the OCTET STRING before them.
#[unsafe(no_mangle)]
pub extern "C" fn der_bench_orders(alloc: Global, bytes: &[u8]) -> Totals {
    let mut totals = Totals::none();
    let Ok(mut reader) = SliceReader::new(bytes) else {
        return totals;
    };
    let Ok(mut next) = reader.decode::<BorrowedOctets<'_>>(alloc) else {
        return totals;
    };
    // Each value has at least one octet.
    for _ in 0..bytes.len() {
        if reader.is_finished() {
            break;
        }
        let Ok(value) = reader.decode::<BorrowedOctets<'_>>(alloc) else {
            return totals;
        };
        let Ok(ordering) = value.der_cmp(&next) else {
            return totals;
        };
        let less = (ordering == Ordering::Less) as u64;
        totals.pass(value.octets.as_slice().len(), less);
        next = value;
    }
    totals
}
