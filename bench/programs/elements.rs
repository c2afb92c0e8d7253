//! Elements, and a walk over them, for the drivers `walk` and `scan`.
use crate::common::{Numbers, Totals, push_length};

// Tags of one octet, as certificates have them.
const TAGS: [u8; 12] = [
    0x02, 0x02, 0x04, 0x06, 0x06, 0x0C, 0x13, 0x17, 0x30, 0x30, 0x31, 0xA0,
];

unsafe extern "C" {
    // A slice is passed as a pointer and then a length.
    #[link_name = "der_bench_walk"]
    fn library_walk(octets: *const u8, len: usize) -> Totals;
}

pub fn proved_walk(bytes: &[u8]) -> Totals {
    // SAFETY: the pointer and the length are those of a slice, which the call only reads.
    unsafe { library_walk(bytes.as_ptr(), bytes.len()) }
}

/// Counts what `split` splits off the octets, until they end or it returns `None`.
#[inline(always)]
pub fn count_contents(bytes: &[u8], split: impl Fn(&[u8]) -> Option<(&[u8], &[u8])>) -> Totals {
    let mut totals = Totals::default();
    let mut rest = bytes;
    while let Some((contents, following)) = split(rest) {
        totals.elements = totals.elements.wrapping_add(1);
        totals.contents = totals.contents.wrapping_add(contents.len() as u64);
        let first = contents.first().copied().unwrap_or(0);
        totals.octet_sum = totals.octet_sum.wrapping_add(first as u64);
        rest = following;
    }
    totals
}

/// The octets that are identifiers of universal tags, as bits.
pub const UNIVERSAL: u64 = {
    const KNOWN: [u8; 22] = [
        0x01, 0x02, 0x03, 0x04, 0x05, 0x06, 0x09, 0x0A, 0x0C, 0x0D, 0x12, 0x13, 0x14, 0x15, 0x16,
        0x17, 0x18, 0x1A, 0x1B, 0x1E, 0x30, 0x31,
    ];
    let mut mask = 0;
    let mut i = 0;
    while i < KNOWN.len() {
        mask |= 1 << KNOWN[i];
        i += 1;
    }
    mask
};

/// The octets after the next identifier, which must be one of these bits if it is below 0x40.
#[inline(always)]
pub fn skip_identifier(universal: u64, bytes: &[u8]) -> Option<&[u8]> {
    let (&identifier, rest) = bytes.split_first()?;
    if identifier < 0x40 {
        if universal >> identifier & 1 == 0 {
            return None;
        }
    } else if identifier & 0x1F == 0x1F {
        return skip_long_number(rest);
    }
    Some(rest)
}

fn skip_long_number(bytes: &[u8]) -> Option<&[u8]> {
    let mut number = 0u32;
    let mut rest = bytes;
    loop {
        let (&octet, following) = rest.split_first()?;
        rest = following;
        let digit = (octet & 0x7F) as u32;
        if number == 0 && digit == 0 || number >= 1 << 25 {
            return None;
        }
        number = number << 7 | digit;
        if octet < 0x80 {
            return (number >= 31).then_some(rest);
        }
    }
}

/// From 1 to 18 octets of contents: with their headers the elements have 11.5 octets on average.
pub fn short_len(numbers: &mut Numbers) -> usize {
    1 + numbers.below(18) as usize
}

/// Appends an element with `next_len` octets of contents.
pub fn push_element(out: &mut Vec<u8>, numbers: &mut Numbers, next_len: fn(&mut Numbers) -> usize) {
    out.push(TAGS[numbers.below(TAGS.len() as u64) as usize]);
    let len = next_len(numbers);
    push_length(out, len);
    for _ in 0..len {
        out.push(numbers.next() as u8);
    }
}
