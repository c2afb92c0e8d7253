//! Values in each form.
use super::*;
use crate::checks::{holds_at, same_at, same_octets};

// The first three pieces, and whether there are others.
type FirstThree<'a> = (Option<&'a [u8]>, Option<&'a [u8]>, Option<&'a [u8]>, bool);

fn first_three<'a>(string: &Segmented<'a>) -> FirstThree<'a> {
    let mut pieces = string.segments();
    let (first, second, third) = (pieces.next(), pieces.next(), pieces.next());
    (first, second, third, pieces.next().is_some())
}

fn pieces_of<'a>(alloc: Global, octets: &'a [u8]) -> Result<FirstThree<'a>, Error> {
    Ok(first_three(&of_ber(alloc, octets)?))
}

#[test]
fn pieces_are_given_in_order(rt: HostRuntime) {
    let (a, b, c): (&[u8], &[u8], &[u8]) = (&[0xAA], &[0xBB], &[0xCC]);
    let (ab, abc): (&[u8], &[u8]) = (&[0xAA, 0xBB], &[0xAA, 0xBB, 0xCC]);
    let rows: [(&[u8], FirstThree); 8] = [
        (&PRIMITIVE, (Some(abc), None, None, false)),
        (&DEFINITE, (Some(ab), Some(c), None, false)),
        (&INDEFINITE, (Some(ab), Some(c), None, false)),
        (&NESTED, (Some(a), Some(b), Some(c), false)),
        (&[0x04, 0], (Some(&[]), None, None, false)),
        (&[0x24, 0], (None, None, None, false)),
        (&[0x24, 0x80, 0, 0], (None, None, None, false)),
        (&[0x24, 4, 0x04, 0, 0x04, 0], (Some(&[]), Some(&[]), None, false)),
    ];
    for (row, (octets, pieces)) in rows.into_iter().enumerate() {
        same_at(&rt, row, pieces_of(rt.alloc(), octets), Ok(pieces));
    }
}

#[test]
fn octets_are_joined_into_a_buffer(rt: HostRuntime) -> Result<(), Error> {
    let rows: [&[u8]; 4] = [&PRIMITIVE, &DEFINITE, &INDEFINITE, &NESTED];
    for (row, octets) in rows.into_iter().enumerate() {
        let string = of_ber(rt.alloc(), octets)?;
        same_at(&rt, row, string.joined_len(), 3);
        let mut long = [0x11u8; 4];
        holds_at(&rt, row, string.copy_to(&mut long));
        same_octets(&rt, &long, &[0xAA, 0xBB, 0xCC, 0x11]);
        let mut short = [0x11u8; 2];
        holds_at(&rt, row, !string.copy_to(&mut short));
        same_octets(&rt, &short, &[0x11, 0x11]);
    }
    Ok(())
}

#[test]
fn contents_are_borrowed_as_they_stand(rt: HostRuntime) -> Result<(), Error> {
    let rows: [(&[u8], &[u8], bool); 4] = [
        (&PRIMITIVE, &PRIMITIVE[2..], true),
        (&DEFINITE, &DEFINITE[2..], false),
        (&INDEFINITE, &INDEFINITE[2..9], false),
        (&[0x24, 0], &[], false),
    ];
    for (row, (octets, contents, primitive)) in rows.into_iter().enumerate() {
        let string = of_ber(rt.alloc(), octets)?;
        same_octets(&rt, string.octets(), contents);
        same_at(&rt, row, string.is_primitive(), primitive);
    }
    Ok(())
}

#[test]
fn many_segments_are_walked(rt: HostRuntime) -> Result<(), Error> {
    let mut octets = [0u8; 3 * 300 + 4];
    octets[0] = 0x24;
    octets[1] = 0x80;
    for i in 0..300usize {
        octets[3 * i + 2] = 0x04;
        octets[3 * i + 3] = 1;
        octets[3 * i + 4] = (i % 251) as u8;
    }
    let string = of_ber(rt.alloc(), &octets)?;
    same_at(&rt, 0, string.joined_len(), 300);
    let mut joined = [0u8; 300];
    holds_at(&rt, 0, string.copy_to(&mut joined));
    for i in 0..300usize {
        same_at(&rt, i, joined[i], (i % 251) as u8);
    }
    Ok(())
}

#[test]
fn der_takes_primitive_strings_alone(rt: HostRuntime) -> Result<(), Error> {
    same_octets(&rt, of_der(rt.alloc(), &PRIMITIVE)?.octets(), &PRIMITIVE[2..]);
    same_at(&rt, 0, of_der(rt.alloc(), &[0x04, 0])?.joined_len(), 0);
    Ok(())
}
