//! Certificates and public keys that are read once and written repeatedly.
use crate::Totals;
use crate::writing::last_of;
use der::{Decode, DecodeBytes, Encode, Error, SliceReader};
use spki::SubjectPublicKeyInfoRef;
use std::alloc::Global;
use x509::Certificate;

/// Decodes one certificate from `octets`, then writes this certificate `times` times, each time to
/// the start of `out`. Stops at the first error; the result then covers the writes before it. In
/// the result, `elements` is the number of writes, `contents` is the total number of octets
/// written, headers included, and `octet_sum` is the sum of the last octets of all writes.
#[unsafe(no_mangle)]
pub extern "C" fn der_bench_certificate_to_slice(
    alloc: Global,
    octets: &[u8],
    times: u64,
    out: &mut [u8],
) -> Totals {
    to_slice::<Certificate<'_>>(alloc, octets, times, out)
}

/// Decodes one certificate from `octets`, then writes this certificate `times` times, each time
/// into a new vector. Stops at the first error; the result then covers the writes before it. In the
/// result, `elements` is the number of writes, `contents` is the total number of octets written,
/// headers included, and `octet_sum` is the sum of the last octets of all writes.
#[unsafe(no_mangle)]
pub extern "C" fn der_bench_certificate_to_der(alloc: Global, octets: &[u8], times: u64) -> Totals {
    to_der::<Certificate<'_>>(alloc, octets, times)
}

/// Decodes one public key from `octets`, then writes this public key `times` times, each time to
/// the start of `out`. Stops at the first error; the result then covers the writes before it. In
/// the result, `elements` is the number of writes, `contents` is the total number of octets
/// written, headers included, and `octet_sum` is the sum of the last octets of all writes.
#[unsafe(no_mangle)]
pub extern "C" fn der_bench_public_key_to_slice(
    alloc: Global,
    octets: &[u8],
    times: u64,
    out: &mut [u8],
) -> Totals {
    to_slice::<SubjectPublicKeyInfoRef<'_>>(alloc, octets, times, out)
}

/// Decodes one public key from `octets`, then writes this public key `times` times, each time into
/// a new vector. Stops at the first error; the result then covers the writes before it. In the
/// result, `elements` is the number of writes, `contents` is the total number of octets written,
/// headers included, and `octet_sum` is the sum of the last octets of all writes.
#[unsafe(no_mangle)]
pub extern "C" fn der_bench_public_key_to_der(alloc: Global, octets: &[u8], times: u64) -> Totals {
    to_der::<SubjectPublicKeyInfoRef<'_>>(alloc, octets, times)
}

#[inline(always)]
pub(crate) fn to_slice<'a, T: Decode<SliceReader<'a>, Error = Error> + Encode>(
    alloc: Global,
    octets: &'a [u8],
    times: u64,
    out: &mut [u8],
) -> Totals {
    let mut totals = Totals::none();
    let Ok(value) = T::from_der(alloc, octets) else {
        return totals;
    };
    for _ in 0..times {
        let Ok(written) = value.encode_to_slice(out) else {
            return totals;
        };
        totals.pass(written.len(), last_of(written) as u64);
    }
    totals
}

#[inline(always)]
fn to_der<'a, T: Decode<SliceReader<'a>, Error = Error> + Encode>(
    alloc: Global,
    octets: &'a [u8],
    times: u64,
) -> Totals {
    let mut totals = Totals::none();
    let Ok(value) = T::from_der(alloc, octets) else {
        return totals;
    };
    for _ in 0..times {
        let Ok(written) = value.to_der(alloc) else {
            return totals;
        };
        totals.pass(written.len(), last_of(written.as_slice()) as u64);
    }
    totals
}
