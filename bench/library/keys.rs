//! Keys that are written, each as a whole value: a SEQUENCE with another SEQUENCE inside it.
use crate::Totals;
use crate::writing::last_of;
use der::example::MyByteMonth;
use der::{Encode, SliceWriter};
use example_calls::algorithm_identifier::AlgorithmIdentifier;
use example_calls::key_info::KeyInfo;
use example_calls::my_octets::MyOctets;
use std::alloc::Global;

/// A key that a benchmark writes. The octets of the key come from the slice `borrowed`, which is a
/// parameter of the functions below. The first `algorithm` octets of this slice are the algorithm
/// octets of the key, and the first `key` octets of the same slice are its key octets.
#[repr(C)]
pub struct WantedKey {
    /// The number of algorithm octets: how many octets, from the start of `borrowed`, are the
    /// contents of the field `algorithm` inside the key's algorithm.
    pub algorithm: u32,
    /// The number of key octets: how many octets, from the start of `borrowed`, are the contents of
    /// the field `key` of the key.
    pub key: u32,
    /// The number of the month in the key's algorithm. A number above 11 is an error.
    pub month: u8,
}

#[inline(always)]
fn key_of<'a>(wanted: &WantedKey, borrowed: &'a [u8]) -> Option<KeyInfo<'a>> {
    let algorithm = borrowed.get(..wanted.algorithm as usize)?;
    let key = borrowed.get(..wanted.key as usize)?;
    let month = MyByteMonth::new(wanted.month)?;
    Some(KeyInfo {
        algorithm: AlgorithmIdentifier {
            algorithm: MyOctets { octets: algorithm },
            month,
        },
        key: MyOctets { octets: key },
    })
}

/// Computes the length of the encoding of each key in `wanted`, and stops at the first error. The
/// algorithm octets of a key are the first [`WantedKey::algorithm`] octets of `borrowed`; its key
/// octets are the first [`WantedKey::key`] octets of `borrowed`. In the result, `elements` is the
/// number of keys, `contents` is the sum of the lengths of their encodings, headers included, and
/// `octet_sum` is 0.
#[unsafe(no_mangle)]
pub extern "C" fn der_bench_count_keys(wanted: &[WantedKey], borrowed: &[u8]) -> Totals {
    let mut totals = Totals::none();
    for one in wanted {
        let Some(key) = key_of(one, borrowed) else {
            return totals;
        };
        let Ok(len) = key.encoded_len() else {
            return totals;
        };
        totals.pass(u32::from(len) as usize, 0);
    }
    totals
}

/// Writes the keys in `wanted`, one after the other, to `out` until all are written or there is an
/// error. The algorithm octets of a key are the first [`WantedKey::algorithm`] octets of
/// `borrowed`; its key octets are the first [`WantedKey::key`] octets of `borrowed`. In the result,
/// `elements` is the number of keys written, and `octet_sum` is 0. If all keys are written,
/// `contents` is the number of octets written. After an error `contents` is 0.
#[unsafe(no_mangle)]
pub extern "C" fn der_bench_put_keys(
    wanted: &[WantedKey],
    borrowed: &[u8],
    out: &mut [u8],
) -> Totals {
    let mut totals = Totals::none();
    let mut writer = SliceWriter::new(out);
    for one in wanted {
        let Some(key) = key_of(one, borrowed) else {
            return totals;
        };
        if key.encode(&mut writer).is_err() {
            return totals;
        }
        totals.pass(0, 0);
    }
    totals.written(writer.finish())
}

/// Writes each key in `wanted` to the start of one array of 1024 octets, until all are written or
/// there is an error. Each key overwrites the key before it. The algorithm octets of a key are the
/// first [`WantedKey::algorithm`] octets of `borrowed`; its key octets are the first
/// [`WantedKey::key`] octets of `borrowed`. In the result, `elements` is the number of keys
/// written, `contents` is the total number of octets written, headers included, and `octet_sum` is
/// the sum of the last octets of the written keys.
#[unsafe(no_mangle)]
pub extern "C" fn der_bench_keys_to_slice(wanted: &[WantedKey], borrowed: &[u8]) -> Totals {
    let mut totals = Totals::none();
    let mut buf = [0u8; 1024];
    for one in wanted {
        let Some(key) = key_of(one, borrowed) else {
            return totals;
        };
        let Ok(octets) = key.encode_to_slice(&mut buf) else {
            return totals;
        };
        totals.pass(octets.len(), last_of(octets) as u64);
    }
    totals
}

/// Writes each key in `wanted` into a new vector, until all are written or there is an error. The
/// algorithm octets of a key are the first [`WantedKey::algorithm`] octets of `borrowed`; its key
/// octets are the first [`WantedKey::key`] octets of `borrowed`. In the result, `elements` is the
/// number of keys written, `contents` is the total number of octets written, headers included, and
/// `octet_sum` is the sum of the last octets of the written keys.
#[unsafe(no_mangle)]
pub extern "C" fn der_bench_keys_to_der(
    alloc: Global,
    wanted: &[WantedKey],
    borrowed: &[u8],
) -> Totals {
    let mut totals = Totals::none();
    for one in wanted {
        let Some(key) = key_of(one, borrowed) else {
            return totals;
        };
        let Ok(octets) = key.to_der(alloc) else {
            return totals;
        };
        totals.pass(octets.len(), last_of(octets.as_slice()) as u64);
    }
    totals
}
