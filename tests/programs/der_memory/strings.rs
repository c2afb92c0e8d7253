//! Calls with byte strings and texts that are borrowed, or that own memory allocated before the
//! calls.
use crate::print::{print_result, print_text, print_value};
use der::{BytesOwned, BytesRef, Encode, Error, Length, StringOwned, StringRef, box_to_ref};
use std::alloc::Global;
use std::io;

pub fn borrowed(rt: &impl Print) -> io::Result<()> {
    print_result(rt, "prefix", prefix())?;
    print_value(rt, "EMPTY", BytesRef::EMPTY.is_empty())?;
    print_result(rt, "StringRef::new", text_len())?;
    print_result(rt, "StringRef::from_bytes", text_of_octets())?;
    print_result(rt, "as_str", text_views())
}

fn prefix() -> Result<usize, Error> {
    Ok(
        BytesRef::new(&[1, 2, 3])?
            .prefix(Length::new(2))?
            .as_slice()
            .len(),
    )
}

fn text_len() -> Result<Length, Error> {
    Ok(StringRef::new("hi")?.len())
}

fn text_of_octets() -> Result<usize, Error> {
    Ok(
        StringRef::from_bytes(&[0x68, 0x69])?
            .as_bytes_ref()
            .as_slice()
            .len(),
    )
}

// The octets of a text by each of its views, and whether it is empty.
fn text_views() -> Result<(usize, usize, bool), Error> {
    let text = StringRef::new("hi")?;
    Ok((text.as_str().len(), text.as_bytes().len(), text.is_empty()))
}

pub fn owned(rt: &impl Print, alloc: Global) -> io::Result<()> {
    let Ok(octets) = Vec::from_slice(alloc, &[1u8, 2, 3]) else {
        return Ok(());
    };
    let Ok(text) = String::from_str(alloc, "hi") else {
        return Ok(());
    };
    println!(rt; "prepared")?;
    print_result(rt, "from_vec", from_vec(octets))?;
    print_result(rt, "StringOwned::new", text_of(text))?;
    print_value(rt, "empty", BytesOwned::empty(alloc).is_empty())
}

// The octets of a vector are moved in, boxed, and moved in again.
fn from_vec(octets: Vec<u8>) -> Result<usize, Error> {
    let octets = BytesOwned::new(BytesOwned::from_vec(octets)?.into_box())?;
    let views = octets.as_bytes_ref().len() == octets.owned_to_ref().len();
    let boxed = octets.into_box();
    Ok(if views { box_to_ref(&boxed).len() } else { 0 })
}

fn text_of(text: String) -> Result<Length, Error> {
    let text = StringOwned::new(text)?;
    let views = text.as_str().len() == text.as_bytes().len() && !text.is_empty();
    let len = text.owned_to_ref().len();
    let borrowed = text.as_string_ref().as_bytes_ref().len();
    Ok(if views && text.len() == len {
        borrowed
    } else {
        Length::ZERO
    })
}
