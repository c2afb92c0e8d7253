//! Owned octets and texts.
use super::*;
use crate::checks::{holds, same};
use der::{box_to_ref, slice_to_owned};
use std::process::Abort;

fn three(alloc: Global) -> Result<BytesOwned, Error> {
    owned_bytes(alloc, &[0x01, 0x02, 0x03])
}

// Octets of any origin equal these.
fn are_three(rt: &impl Abort, bytes: BytesOwned) {
    same(rt, bytes.as_slice(), [0x01, 0x02, 0x03].as_slice());
}

#[test]
fn octets_of_each_origin_are_kept(rt: HostRuntime) -> Result<(), Fail> {
    let alloc = rt.alloc();
    let octets = [0x01, 0x02, 0x03];
    are_three(&rt, three(alloc)?);
    are_three(&rt, BytesOwned::new(slice_to_owned(alloc, &octets)?)?);
    are_three(&rt, BytesOwned::from_vec(Vec::from_slice(alloc, &octets)?)?);
    are_three(&rt, BytesOwned::from_ref(alloc, bytes_of(&octets)?)?);
    Ok(())
}

#[test]
fn a_clone_is_equal_to_what_was_cloned(rt: HostRuntime) -> Result<(), Fail> {
    let bytes = three(rt.alloc())?;
    same(&rt, bytes.clone_in(rt.alloc())?, bytes);
    Ok(())
}

#[test]
fn owned_octets_tell_their_views_and_number(rt: HostRuntime) -> Result<(), Fail> {
    let octets = [0x01, 0x02, 0x03];
    let bytes = three(rt.alloc())?;
    same(&rt, bytes.as_bytes_ref(), bytes_of(&octets)?);
    same(&rt, bytes.owned_to_ref(), bytes_of(&octets)?);
    same(&rt, bytes.len(), Length::new(3));
    holds(&rt, !bytes.is_empty());
    same(&rt, box_to_ref(&bytes.into_box()), octets.as_slice());
    Ok(())
}

#[test]
fn empty_octets_have_length_zero(rt: HostRuntime) -> Result<(), Fail> {
    let empty = BytesOwned::empty(rt.alloc());
    same(&rt, empty.as_slice(), [].as_slice());
    same(&rt, empty.len(), Length::ZERO);
    holds(&rt, empty.is_empty());
    same(&rt, owned_bytes(rt.alloc(), &[])?, empty);
    Ok(())
}

const TEXT: [u8; 5] = [0x67, 0x72, 0xC3, 0xBC, 0x6E];

#[test]
fn texts_of_each_origin_are_kept(rt: HostRuntime) -> Result<(), Fail> {
    let alloc = rt.alloc();
    let text = owned_text(alloc, &TEXT)?;
    same(&rt, text.as_str(), "grün");
    same(&rt, cloned_text(alloc, &text)?, text);
    let text = StringOwned::new(String::from_str(alloc, "grün")?)?;
    same(&rt, text.as_bytes(), TEXT.as_slice());
    Ok(())
}

#[test]
fn owned_texts_tell_their_views_and_number(rt: HostRuntime) -> Result<(), Fail> {
    let text = owned_text(rt.alloc(), &TEXT)?;
    same(&rt, text.as_bytes_ref(), bytes_of(&TEXT)?);
    same(&rt, text.as_string_ref(), text_of("grün")?);
    same(&rt, text.owned_to_ref(), text_of("grün")?);
    same(&rt, text.len(), Length::new(5));
    holds(&rt, !text.is_empty());
    Ok(())
}

#[test]
fn an_empty_text_has_length_zero(rt: HostRuntime) -> Result<(), Fail> {
    let empty = owned_text(rt.alloc(), &[])?;
    same(&rt, empty.len(), Length::ZERO);
    holds(&rt, empty.is_empty());
    Ok(())
}
