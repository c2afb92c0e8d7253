//! Borrowed octets and texts.
use super::*;
use crate::checks::{holds, same};

#[test]
fn borrowed_octets_tell_their_octets_and_number(rt: HostRuntime) -> Result<(), Fail> {
    let bytes = bytes_of(&[0x01, 0x02, 0x03])?;
    same(&rt, bytes.as_slice(), [0x01, 0x02, 0x03].as_slice());
    same(&rt, bytes.len(), Length::new(3));
    holds(&rt, !bytes.is_empty());
    let empty = bytes_of(&[])?;
    same(&rt, empty, BytesRef::EMPTY);
    same(&rt, BytesRef::EMPTY.len(), Length::ZERO);
    holds(&rt, BytesRef::EMPTY.is_empty());
    Ok(())
}

#[test]
fn prefixes_are_the_first_octets(rt: HostRuntime) -> Result<(), Fail> {
    let bytes = bytes_of(&[0x01, 0x02, 0x03])?;
    let two = bytes.prefix(Length::new(2))?;
    same(&rt, two.as_slice(), [0x01, 0x02].as_slice());
    same(&rt, bytes.prefix(Length::ZERO)?, BytesRef::EMPTY);
    same(&rt, bytes.prefix(Length::new_indefinite(3))?, bytes);
    Ok(())
}

#[test]
fn prefixes_that_are_too_long_are_refused(rt: HostRuntime) -> Result<(), Fail> {
    let bytes = bytes_of(&[0x01, 0x02, 0x03])?;
    for len in [Length::new(4), Length::new_indefinite(4), Length::MAX] {
        same(&rt, bytes.prefix(len), Err(incomplete(4, 3, 3)));
    }
    let empty = BytesRef::EMPTY.prefix(Length::ONE);
    same(&rt, empty, Err(incomplete(1, 0, 0)));
    Ok(())
}

#[test]
fn borrowed_texts_tell_their_octets_and_number(rt: HostRuntime) -> Result<(), Fail> {
    let text = text_of("grün")?;
    same(&rt, text.as_str(), "grün");
    let octets = [0x67, 0x72, 0xC3, 0xBC, 0x6E];
    same(&rt, text.as_bytes(), octets.as_slice());
    same(&rt, text.as_bytes_ref(), bytes_of(&octets)?);
    same(&rt, text.len(), Length::new(5));
    holds(&rt, !text.is_empty());
    same(&rt, text_from(&octets), Ok(text));
    let empty = text_of("")?;
    same(&rt, empty.len(), Length::ZERO);
    holds(&rt, empty.is_empty());
    same(&rt, text_from(&[]), Ok(empty));
    Ok(())
}

#[test]
fn copies_of_what_is_borrowed_refer_to_the_same(rt: HostRuntime) -> Result<(), Fail> {
    let bytes = bytes_of(&[0x01, 0x02])?;
    let copy = bytes.ref_to_owned(rt.alloc())?;
    same(&rt, copy.owned_to_ref(), bytes);
    let text = text_of("grün")?;
    let copy = copied_text(rt.alloc(), &text)?;
    same(&rt, copy.owned_to_ref(), text);
    Ok(())
}
