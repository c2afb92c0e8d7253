//! BIT STRINGs with named bits, as KeyUsage of RFC 5280, 4.2.1.3.
use crate::checks::{holds, same_at};
use der::{Encode, Error, ErrorKind, Length, Tag};
use der_asn1::{NamedBitsRef, lawful_from_der};
use std::alloc::Global;
use x509::{KeyUsage, KeyUsageBit};

// The uses with the numbers 0, 2, 4, 5, 6 and 8, the number of bits, and whether the value is written exactly
// as it was read.
fn usage(alloc: Global, octets: &[u8]) -> Result<([bool; 6], Option<u64>, bool), Error> {
    let bits: KeyUsage<'_> = lawful_from_der(alloc, octets)?;
    let written = bits.to_der(alloc)?;
    let uses = [
        bits.has_bit(KeyUsageBit::DigitalSignature as u32),
        bits.has_bit(KeyUsageBit::KeyEncipherment as u32),
        bits.has_bit(KeyUsageBit::KeyAgreement as u32),
        bits.has_bit(KeyUsageBit::KeyCertSign as u32),
        bits.has_bit(KeyUsageBit::CrlSign as u32),
        bits.has_bit(KeyUsageBit::DecipherOnly as u32),
    ];
    Ok((uses, bits.bit_count(), written.as_slice() == octets))
}

#[test]
fn bits_are_read_by_their_number(rt: HostRuntime) {
    let rows: [(&[u8], [bool; 6], u64); 6] = [
        (&[3, 2, 1, 0x06], [false, false, false, true, true, false], 7),
        (&[3, 2, 5, 0xA0], [true, true, false, false, false, false], 3),
        (&[3, 2, 7, 0x80], [true, false, false, false, false, false], 1),
        (&[3, 2, 0, 0x01], [false, false, false, false, false, false], 8),
        (&[3, 3, 7, 0x08, 0x80], [false, false, true, false, false, true], 9),
        (&[3, 1, 0], [false, false, false, false, false, false], 0),
    ];
    for (row, (octets, uses, count)) in rows.into_iter().enumerate() {
        same_at(&rt, row, usage(rt.alloc(), octets), Ok((uses, Some(count), true)));
    }
}

#[test]
fn trailing_zero_bits_are_refused(rt: HostRuntime) {
    let refused = |end: u32| -> Result<([bool; 6], Option<u64>, bool), Error> {
        let tag = Tag::BitString;
        Err(ErrorKind::Value { tag }.at(Length::new(end)))
    };
    let rows: [(&[u8], u32); 6] = [
        (&[3, 2, 0, 0x06], 4),
        (&[3, 2, 1, 0x04], 4),
        (&[3, 2, 7, 0], 4),
        (&[3, 3, 0, 0x80, 0], 5),
        (&[3, 1, 1], 3),
        (&[3, 0], 2),
    ];
    for (row, (octets, end)) in rows.into_iter().enumerate() {
        same_at(&rt, row, usage(rt.alloc(), octets), refused(end));
    }
    holds(&rt, NamedBitsRef::new(&[0, 0x80]).is_none());
}

#[test]
fn bits_that_are_absent_are_zero(rt: HostRuntime) {
    match NamedBitsRef::new(&[0, 0xFF]) {
        Some(bits) => {
            holds(&rt, bits.has_bit(7));
            holds(&rt, !bits.has_bit(8));
            holds(&rt, !bits.has_bit(0xFFFF_FFFF));
        }
        None => holds(&rt, false),
    }
}
