//! References, which are encoded like what they refer to.
use super::month::september;
use super::*;
use crate::checks::{holds, same};
use der::{Encode, EncodeRef, EncodeValue, EncodeValueRef, Tagged, encode_value_to_slice};

#[test]
fn references_are_encoded_as_their_values(rt: HostRuntime) -> Result<(), Fail> {
    let month = september()?;
    let reference = EncodeRef(&month);
    same(&rt, *reference.as_ref(), month);
    same(&rt, reference.encoded_len(), Ok(Length::new(3)));
    let mut buf = [0; 4];
    same(
        &rt,
        reference.encode_to_slice(&mut buf)?,
        [0x04, 0x01, 0x09].as_slice(),
    );
    Ok(())
}

#[test]
fn references_have_the_contents_of_their_values(rt: HostRuntime) -> Result<(), Fail> {
    let month = september()?;
    let reference = EncodeValueRef(&month);
    same(&rt, *reference.as_ref(), month);
    same(&rt, reference.tag(), Tag::OctetString);
    same(&rt, reference.value_len(), Ok(Length::ONE));
    let mut buf = [0; 4];
    same(
        &rt,
        reference.encode_to_slice(&mut buf)?,
        [0x04, 0x01, 0x09].as_slice(),
    );
    let mut buf = [0; 4];
    same(
        &rt,
        encode_value_to_slice(&mut buf, &reference)?,
        [0x09].as_slice(),
    );
    Ok(())
}

#[test]
fn contents_are_rejected_where_there_is_no_space(rt: HostRuntime) -> Result<(), Fail> {
    let month = september()?;
    let refused = encode_value_to_slice(&mut [], &month);
    let no_space = ErrorKind::Overlength.at(Length::ONE);
    holds(&rt, matches!(refused, Err(error) if error == no_space));
    Ok(())
}
