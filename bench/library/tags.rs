//! Walks over elements whose tags are used.
use crate::Totals;
use der::{Reader, ReaderExt, SliceReader, decode_header};

/// Reads the elements in `bytes` one after the other, without entering their contents, until the
/// octets end or there is an error. In the result, `elements` is the number of elements, `contents`
/// is the total number of their contents octets, and `octet_sum` is the sum of their tag numbers.
#[unsafe(no_mangle)]
pub extern "C" fn der_bench_numbers(bytes: &[u8]) -> Totals {
    let mut totals = Totals::none();
    let Ok(mut reader) = SliceReader::new(bytes) else {
        return totals;
    };
    // Each element has at least one octet.
    for _ in 0..bytes.len() {
        if reader.is_finished() {
            break;
        }
        let Ok(header) = decode_header(&mut reader) else {
            return totals;
        };
        let Ok(contents) = reader.read_slice(header.length()) else {
            return totals;
        };
        totals.pass(contents.len(), header.tag().number().0 as u64);
    }
    totals
}

/// Reads the elements in `bytes` one after the other, without entering their contents, until the
/// octets end or there is an error. Also counts the elements in a table of 256 counts, by the low
/// octet of their tag numbers. In the result, `elements` is the number of elements, and `contents`
/// is the total number of their contents octets. `octet_sum` is a number computed from the table,
/// or 0 after an error.
#[unsafe(no_mangle)]
pub extern "C" fn der_bench_counts(bytes: &[u8]) -> Totals {
    let mut counts = [0u64; 256];
    let mut totals = Totals::none();
    let Ok(mut reader) = SliceReader::new(bytes) else {
        return totals;
    };
    // Each element has at least one octet.
    for _ in 0..bytes.len() {
        if reader.is_finished() {
            break;
        }
        let Ok(header) = decode_header(&mut reader) else {
            return totals;
        };
        let Ok(contents) = reader.read_slice(header.length()) else {
            return totals;
        };
        totals.pass(contents.len(), 0);
        let low = (header.tag().number().0 % 256) as usize;
        counts[low] = counts[low].wrapping_add(1);
    }
    totals.octet_sum = mixed(&counts);
    totals
}

// A number that depends on each count and its index.
fn mixed(counts: &[u64; 256]) -> u64 {
    let mut sum = 0u64;
    for count in counts {
        sum = sum.wrapping_mul(31).wrapping_add(*count);
    }
    sum
}
