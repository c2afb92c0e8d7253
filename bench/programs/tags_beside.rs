//! The walks of tags.rs with the crate `der`.
use crate::common::Totals;
use crate::mixed;
use der::{Decode, Header, Reader, SliceReader};

/// Walks until the octets end or there is an error; `read` returns what is summed in place of first
/// octets.
#[inline(always)]
fn pass(bytes: &[u8], read: impl FnMut(&Header, &[u8]) -> u64) -> Totals {
    let mut totals = Totals::default();
    let _ = try_pass(bytes, read, &mut totals);
    totals
}

#[inline(always)]
fn try_pass(
    bytes: &[u8],
    mut read: impl FnMut(&Header, &[u8]) -> u64,
    totals: &mut Totals,
) -> der::Result<()> {
    let mut reader = SliceReader::new(bytes)?;
    while !reader.is_finished() {
        let header = Header::decode(&mut reader)?;
        let contents = reader.read_slice(header.length())?;
        totals.elements = totals.elements.wrapping_add(1);
        totals.contents = totals.contents.wrapping_add(contents.len() as u64);
        totals.octet_sum = totals.octet_sum.wrapping_add(read(&header, contents));
    }
    Ok(())
}

#[inline(never)]
pub fn walk(bytes: &[u8]) -> Totals {
    pass(bytes, |_, contents| {
        contents.first().copied().unwrap_or(0) as u64
    })
}

#[inline(never)]
pub fn sum(bytes: &[u8]) -> Totals {
    pass(bytes, |header, _| header.tag().number().value() as u64)
}

#[inline(never)]
pub fn count(bytes: &[u8]) -> Totals {
    let mut counts = [0u64; 256];
    let totals = pass(bytes, |header, _| {
        counts[header.tag().number().value() as u8 as usize] += 1;
        0
    });
    Totals {
        octet_sum: mixed(&counts),
        ..totals
    }
}
