//! A type that is written: a month as an `OCTET STRING` of one octet.

use super::*;
use crate::checks::same;
use der::example::MyByteMonth;
use der::{Encode, EncodeValue};
use test_fixtures::month::{append_month, month_der};

pub fn september() -> Result<MyByteMonth, Error> {
    MyByteMonth::new(9).ok_or(ErrorKind::DateTime.to_error())
}

#[test]
fn a_month_is_written(rt: HostRuntime) -> Result<(), Fail> {
    let month = september()?;
    let der = month_der(rt.alloc(), &month)?;
    same(&rt, der.as_slice(), [0x04, 0x01, 0x09].as_slice());
    let mut out = Vec::from_slice(rt.alloc(), &[0xAAu8])?;
    same(&rt, append_month(&mut out, &month), Ok(Length::new(3)));
    same(&rt, out.as_slice(), [0xAA, 0x04, 0x01, 0x09].as_slice());
    same(&rt, month.encoded_len(), Ok(Length::new(3)));
    same(
        &rt,
        month.header(),
        Ok(Header::new(Tag::OctetString, Length::ONE)),
    );
    Ok(())
}
