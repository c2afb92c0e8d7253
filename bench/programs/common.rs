//! What all drivers share.

/// What was read or written, with the layout of the library.
#[repr(C)]
#[derive(Clone, Copy, Debug, Default, PartialEq, Eq)]
pub struct Totals {
    pub elements: u64,
    pub contents: u64,
    pub octet_sum: u64,
}

/// The contents after the next length, and the octets after them.
#[inline(always)]
pub fn split_contents(bytes: &[u8]) -> Option<(&[u8], &[u8])> {
    let (&first, rest) = bytes.split_first()?;
    let (len, rest) = if first < 0x80 {
        (first as usize, rest)
    } else {
        long_length(first, rest)?
    };
    rest.split_at_checked(len)
}

/// A length after its first octet, which is 128 or more, and the octets after it.
fn long_length(first: u8, bytes: &[u8]) -> Option<(usize, &[u8])> {
    let count = (first & 0x7F) as usize;
    if !(1..=4).contains(&count) {
        return None;
    }
    let (octets, rest) = bytes.split_at_checked(count)?;
    let mut len = 0usize;
    for &octet in octets {
        len = len << 8 | octet as usize;
    }
    let least = if count == 1 {
        0x80
    } else {
        1 << (8 * (count - 1))
    };
    (len >= least).then_some((len, rest))
}

/// A pseudo-random sequence of numbers, the same in every run.
pub struct Numbers(pub u64);

impl Numbers {
    pub fn next(&mut self) -> u64 {
        self.0 ^= self.0 << 13;
        self.0 ^= self.0 >> 7;
        self.0 ^= self.0 << 17;
        self.0
    }

    pub fn below(&mut self, bound: u64) -> u64 {
        self.next() % bound
    }
}

pub fn push_length(out: &mut Vec<u8>, len: usize) {
    if len < 0x80 {
        out.push(len as u8);
        return;
    }
    let octets = len.to_be_bytes();
    let zeros = octets.iter().take_while(|octet| **octet == 0).count();
    out.push(0x80 | (octets.len() - zeros) as u8);
    out.extend_from_slice(&octets[zeros..]);
}
