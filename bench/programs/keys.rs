//! Keys, and decoding them with the proved reader and by hand. A key is a SEQUENCE of an algorithm
//! and an OCTET STRING, and an algorithm is a SEQUENCE of an OCTET STRING and a month.
use crate::common::{Numbers, Totals, push_length, split_contents};

const SEQUENCE: u8 = 0x30;
const OCTET_STRING: u8 = 0x04;

unsafe extern "C" {
    // A slice is passed as a pointer and then a length; the allocator has size 0 and is not passed.
    #[link_name = "der_bench_decode"]
    fn library_decode(octets: *const u8, len: usize) -> Totals;
}

pub fn proved_decode(bytes: &[u8]) -> Totals {
    // SAFETY: the pointer and the length are those of a slice, which the call only reads.
    unsafe { library_decode(bytes.as_ptr(), bytes.len()) }
}

/// Reads keys by hand, without a reader. It rejects the same octets.
#[inline(never)]
pub fn decode_by_hand(bytes: &[u8]) -> Totals {
    let mut totals = Totals::default();
    let mut rest = bytes;
    while let Some((key, following)) = split_element(SEQUENCE, rest) {
        let Some((algorithm, month, octets)) = split_key(key) else {
            return totals;
        };
        totals.elements = totals.elements.wrapping_add(1);
        totals.contents = totals.contents.wrapping_add(algorithm.len() as u64);
        totals.contents = totals.contents.wrapping_add(octets.len() as u64);
        totals.octet_sum = totals.octet_sum.wrapping_add(month as u64);
        rest = following;
    }
    totals
}

/// The octets of the algorithm, its month, and the octets of the key.
#[inline(always)]
fn split_key(key: &[u8]) -> Option<(&[u8], u8, &[u8])> {
    let (identifier, rest) = split_element(SEQUENCE, key)?;
    let (algorithm, parameter) = split_element(OCTET_STRING, identifier)?;
    let (month, following) = split_element(OCTET_STRING, parameter)?;
    let (octets, left) = split_element(OCTET_STRING, rest)?;
    match month {
        &[number] if number < 12 && following.is_empty() && left.is_empty() => {
            Some((algorithm, number, octets))
        }
        _ => None,
    }
}

/// The contents of the next element, which must have this tag, and the octets after it.
#[inline(always)]
fn split_element(tag: u8, bytes: &[u8]) -> Option<(&[u8], &[u8])> {
    let (&identifier, rest) = bytes.split_first()?;
    if identifier != tag {
        return None;
    }
    split_contents(rest)
}

fn push_element(out: &mut Vec<u8>, tag: u8, contents: &[u8]) {
    out.push(tag);
    push_length(out, contents.len());
    out.extend_from_slice(contents);
}

/// An algorithm of 5 to 9 octets, as object identifiers have them.
fn push_key(out: &mut Vec<u8>, numbers: &mut Numbers, len: usize) {
    let mut octets = |count: usize| (0..count).map(|_| numbers.next() as u8).collect::<Vec<u8>>();
    let algorithm = octets(9);
    let key = octets(len);
    let (mut identifier, mut contents) = (Vec::new(), Vec::new());
    push_element(&mut identifier, OCTET_STRING, &algorithm[..5 + len % 5]);
    push_element(&mut identifier, OCTET_STRING, &[(len % 12) as u8]);
    push_element(&mut contents, SEQUENCE, &identifier);
    push_element(&mut contents, OCTET_STRING, &key);
    push_element(out, SEQUENCE, &contents);
}

/// Keys until the input is `wanted` octets long, and their number.
pub fn keys(bound: u64, wanted: usize) -> (Vec<u8>, u64) {
    let mut numbers = Numbers(0x9E37_79B9_7F4A_7C15);
    let mut out = Vec::with_capacity(wanted + (1 << 12));
    let mut count = 0;
    while out.len() < wanted {
        let len = numbers.below(bound) as usize;
        push_key(&mut out, &mut numbers, len);
        count += 1;
    }
    (out, count)
}
