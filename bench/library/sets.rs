//! A SET OF OCTET STRING that is sorted and written, and a SET OF OCTET STRING that is read.
use crate::Totals;
use der::example::BorrowedOctets;
use der::{ReaderExt, SliceReader};
use example_calls::set_of::{set_of_contents, set_of_der};
use std::alloc::Global;

/// Decodes the OCTET STRINGs in `bytes`, one after the other, sorts them, and writes them as one
/// SET OF. In the result, `elements` is the number of OCTET STRINGs, `contents` is the number of
/// octets of the SET OF, header included, and `octet_sum` is the last octet of the SET OF. After an
/// error all three are 0.
#[unsafe(no_mangle)]
pub extern "C" fn der_bench_sorted(alloc: Global, bytes: &[u8]) -> Totals {
    let mut elements = Vec::new(alloc);
    if push_elements(alloc, bytes, &mut elements).is_none() {
        return reported(0, &[]);
    }
    match set_of_der(alloc, elements.as_mut_slice()) {
        Ok(octets) => reported(elements.len() as u64, octets.as_slice()),
        Err(_) => reported(0, &[]),
    }
}

/// Reads one SET OF OCTET STRING from `bytes`. In the result, `elements` is 1, `contents` is the
/// number of contents octets of the SET OF, and `octet_sum` is the last of these octets, or 0 if
/// the SET OF is empty. After an error all three are 0.
#[unsafe(no_mangle)]
pub extern "C" fn der_bench_set(alloc: Global, bytes: &[u8]) -> Totals {
    match set_of_contents(alloc, bytes) {
        Ok(contents) => reported(1, contents),
        Err(_) => reported(0, &[]),
    }
}

// Decodes OCTET STRINGs in sequence until the octets end.
fn push_elements<'a>(
    alloc: Global,
    bytes: &'a [u8],
    elements: &mut Vec<BorrowedOctets<'a>>,
) -> Option<()> {
    let mut reader = SliceReader::new(bytes).ok()?;
    // Each value has at least one octet.
    for _ in 0..bytes.len() {
        if reader.is_finished() {
            break;
        }
        elements.push(reader.decode(alloc).ok()?).ok()?;
    }
    Some(())
}

fn reported(elements: u64, octets: &[u8]) -> Totals {
    Totals {
        elements,
        contents: octets.len() as u64,
        octet_sum: octets.last().copied().unwrap_or(0) as u64,
    }
}
