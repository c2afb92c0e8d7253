//! Values that are written, and values inside others.
use super::*;
use crate::checks::{same, same_at, same_octets};
use der::{Encode, ErrorKind, Length};
use der_asn1::{Explicit, SequenceOf, lawful_from_der};

#[test]
fn strings_are_written_as_primitive(rt: HostRuntime) -> Result<(), Error> {
    let rows: [&[u8]; 4] = [&PRIMITIVE, &DEFINITE, &INDEFINITE, &NESTED];
    for octets in rows {
        let string = of_ber(rt.alloc(), octets)?;
        same_octets(&rt, string.to_der(rt.alloc())?.as_slice(), &PRIMITIVE);
    }
    let none = of_ber(rt.alloc(), &[0x24, 0x80, 0, 0])?;
    same_octets(&rt, none.to_der(rt.alloc())?.as_slice(), &[0x04, 0]);
    Ok(())
}

// The segment that does not fit is refused at the position where it would end.
#[test]
fn pieces_are_written_one_by_one(rt: HostRuntime) -> Result<(), Error> {
    let string = of_ber(rt.alloc(), &INDEFINITE)?;
    let rows: [(usize, u32); 2] = [(3, 4), (4, 5)];
    for (row, (space, end)) in rows.into_iter().enumerate() {
        let mut buffer = [0u8; 5];
        let written = string.encode_to_slice(&mut buffer[..space]).err();
        same_at(&rt, row, written, Some(ErrorKind::Overlength.at(Length::new(end))));
    }
    let mut buffer = [0u8; 5];
    same_octets(&rt, string.encode_to_slice(&mut buffer)?, &PRIMITIVE);
    Ok(())
}

#[test]
fn strings_are_read_inside_a_tag(rt: HostRuntime) -> Result<(), Error> {
    let octets: [u8; 11] = [0xA0, 0x80, 0x24, 0x80, 0x04, 1, 0xAA, 0, 0, 0, 0];
    let tagged: Explicit<Segmented<'_>, 0> = Explicit::from_ber(rt.alloc(), &octets)?;
    same_octets(&rt, tagged.0.octets(), &[0x04, 1, 0xAA]);
    let written = tagged.to_der(rt.alloc())?;
    same_octets(&rt, written.as_slice(), &[0xA0, 3, 0x04, 1, 0xAA]);
    let again: Explicit<Segmented<'_>, 0> = lawful_from_der(rt.alloc(), written.as_slice())?;
    same(&rt, again.0.joined_len(), 1);
    Ok(())
}

#[test]
fn strings_are_items_of_a_list(rt: HostRuntime) -> Result<(), Error> {
    let octets: [u8; 7] = [0x30, 5, 0x04, 1, 0xAA, 0x04, 0];
    let list: SequenceOf<'_, Segmented<'_>> = lawful_from_der(rt.alloc(), &octets)?;
    let mut items = list.iter(rt.alloc());
    same(&rt, items.next().map(|item| item.joined_len()), Some(1));
    same(&rt, items.next().map(|item| item.joined_len()), Some(0));
    same(&rt, items.next().is_none(), true);
    Ok(())
}
