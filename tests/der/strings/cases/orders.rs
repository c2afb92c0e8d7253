//! Equality and orders.
use super::*;
use crate::checks::{holds, same};
use std::cmp::Ordering;

fn borrowed_order(a: &[u8], b: &[u8]) -> Result<Ordering, Error> {
    let a = bytes_of(a)?;
    Ok(a.cmp(&bytes_of(b)?))
}

fn owned_order(alloc: Global, a: &[u8], b: &[u8]) -> Result<Ordering, Error> {
    let a = owned_bytes(alloc, a)?;
    Ok(a.cmp(&owned_bytes(alloc, b)?))
}

// Borrowed octets are ordered octet by octet; owned ones first by their number.
#[test]
fn borrowed_octets_are_ordered_one_by_one_and_owned_by_number_first(rt: HostRuntime) {
    let rows: [(&[u8], &[u8], Ordering, Ordering); 6] = [
        (&[0xFF], &[0x00, 0x00], Ordering::Greater, Ordering::Less),
        (&[], &[0x00], Ordering::Less, Ordering::Less),
        (&[0x01], &[0x01, 0x00], Ordering::Less, Ordering::Less),
        (&[0x01, 0xFF], &[0x02, 0x00], Ordering::Less, Ordering::Less),
        (&[0x02], &[0x01, 0xFF], Ordering::Greater, Ordering::Less),
        (
            &[0x07, 0x08],
            &[0x07, 0x08],
            Ordering::Equal,
            Ordering::Equal,
        ),
    ];
    for (a, b, borrowed, owned) in rows {
        same(&rt, borrowed_order(a, b), Ok(borrowed));
        same(&rt, borrowed_order(b, a), Ok(borrowed.reverse()));
        same(&rt, owned_order(rt.alloc(), a, b), Ok(owned));
        same(&rt, owned_order(rt.alloc(), b, a), Ok(owned.reverse()));
    }
}

#[test]
fn texts_are_ordered_by_their_octets(rt: HostRuntime) -> Result<(), Fail> {
    let long = text_of("aa")?;
    let short = text_of("b")?;
    same(&rt, long.cmp(&short), Ordering::Less);
    same(&rt, long.partial_cmp(&short), Some(Ordering::Less));
    let long = copied_text(rt.alloc(), &long)?;
    let short = copied_text(rt.alloc(), &short)?;
    same(&rt, long.cmp(&short), Ordering::Less);
    same(&rt, short.cmp(&long), Ordering::Greater);
    holds(&rt, long != short);
    holds(&rt, long == cloned_text(rt.alloc(), &long)?);
    Ok(())
}
