//! Readers that fail at one read, for each read in turn until none fails.
use super::joined::decoding;
use super::*;
use crate::checks::same_at;

// The contents are scanned first, so a read that fails there fails after octet `0x80`.
#[test]
fn an_element_is_refused_at_whichever_read_fails(rt: HostRuntime) -> Result<(), Fail> {
    let octets = [
        0x24, 0x80, 0x04, 0x02, 0xAA, 0xBB, 0x04, 0x01, 0xCC, 0x00, 0x00,
    ];
    let rows = [
        (1, 0),
        (2, 1),
        (3, 2),
        (4, 3),
        (5, 4),
        (6, 6),
        (7, 7),
        (8, 8),
        (9, 9),
        (10, 10),
    ];
    for (read, position) in rows {
        let reader = ber_failing(&octets, read)?;
        let place = (position.min(2), false);
        decoding(&rt, rt.alloc(), reader, Err(unsupported(position)), place);
    }
    for read in [0, 11, 12] {
        let reader = ber_failing(&octets, read)?;
        let joined = Ok([0xAA, 0xBB, 0xCC].as_slice());
        decoding(&rt, rt.alloc(), reader, joined, (11, false));
    }
    Ok(())
}

#[test]
fn segments_are_refused_at_whichever_read_fails(rt: HostRuntime) -> Result<(), Fail> {
    let octets = [0x04, 0x02, 0xAA, 0xBB, 0x04, 0x01, 0xCC];
    let rows = [(1, 0), (2, 1), (3, 2), (4, 4), (5, 5), (6, 6)];
    for (read, position) in rows {
        let mut reader = ber_failing(&octets, read)?;
        let joined = join(rt.alloc(), &mut reader);
        same_at(&rt, read, view(&joined), Err(unsupported(position)));
        same_at(&rt, read, reader.place(), (position, 7, false));
    }
    for read in [0, 7, 8] {
        let mut reader = ber_failing(&octets, read)?;
        let joined = join(rt.alloc(), &mut reader);
        same_at(&rt, read, view(&joined), Ok([0xAA, 0xBB, 0xCC].as_slice()));
        same_at(&rt, read, reader.place(), (7, 7, false));
    }
    Ok(())
}

fn join(alloc: Global, reader: &mut CopyingReader<'_>) -> Result<Vec<u8>, Error> {
    reader.join(alloc, Length::new_indefinite(7), Tag::OctetString)
}
