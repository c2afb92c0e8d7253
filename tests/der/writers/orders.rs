//! Worked cases of orders. The expected results are worked out by hand from X.690 11.6.
use der::example::{BorrowedOctets, JoinedOctets, MyByteMonth, OwnedText};
use der::{
    BytesOwned, BytesRef, DerOrd, EncodeValue, EncodeValueRef, Error, ErrorKind, FixedTag, Header,
    Length, OrdIsValueOrd, StringOwned, Tag, TagNumber, Tagged, ValueOrd, Writer, WrittenValue,
    iter_cmp, iter_cmp_owned,
};
use std::alloc::Global;
use std::cmp::Ordering;
use std::marker::PhantomData;
use std::test::Fail;

mod days;
mod headers;
mod items;
mod lengths;
mod refused;
mod tags;
mod values;

// An OCTET STRING of these octets.
fn borrowed(octets: &[u8]) -> Result<BorrowedOctets<'_>, Error> {
    let octets = BytesRef::new(octets)?;
    Ok(BorrowedOctets { octets })
}
