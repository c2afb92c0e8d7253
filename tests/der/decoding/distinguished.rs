//! Worked cases of values that are decoded and encoded. The expected results are worked out by hand
//! from X.690 and the rules for errors.
use der::example::MyByteMonth;
use der::{
    Decode, DecodeBytes, Encode, Error, ErrorKind, Header, Length, Reader, ReaderExt, SliceReader,
    Tag,
};
use crate::fixtures::errors::{incomplete, trailing, unexpected};
use crate::fixtures::readers::{Placed, der_reader, der_not_borrowed};
use std::alloc::Global;
use std::test::Fail;

mod beginnings;
mod boxed;
mod careless;
mod constants;
mod copying;
mod depth;
mod errors;
mod forms;
mod headers;
mod identifiers;
mod keys;
mod lengths;
mod months;
mod nests;
mod nothing;
mod pairs;
mod readers;
mod rows;
mod sets;
mod tags;
mod tuples;

// Calls that several tests make.

// Reads the octets as exactly one value.
fn value_of<'a, T: Decode<SliceReader<'a>>>(
    alloc: Global,
    octets: &'a [u8],
) -> Result<T, <T as Decode<SliceReader<'a>>>::Error> {
    T::from_der(alloc, octets)
}

// The error of reading the octets as exactly one value.
fn refusal_of<'a, T: Decode<SliceReader<'a>>>(
    alloc: Global,
    octets: &'a [u8],
) -> Option<<T as Decode<SliceReader<'a>>>::Error> {
    T::from_der(alloc, octets).err()
}

// The value at the front of the octets, and the octets after it.
fn front_of<'a, T: Decode<SliceReader<'a>>>(
    alloc: Global,
    octets: &'a [u8],
) -> Result<(T, &'a [u8]), <T as Decode<SliceReader<'a>>>::Error> {
    T::from_der_partial(alloc, octets)
}

// The error of reading the next value as this type.
fn refusal_by<R: Reader, T: Decode<R>>(
    alloc: Global,
    reader: &mut R,
) -> Option<<T as Decode<R>>::Error> {
    T::decode(alloc, reader).err()
}

// The next value of the reader.
fn next_of<R: Reader, T: Decode<R>>(
    alloc: Global,
    reader: &mut R,
) -> Result<T, <T as Decode<R>>::Error> {
    reader.decode(alloc)
}

fn der_of<T: Encode>(alloc: Global, value: &T) -> Result<Vec<u8>, Error> {
    value.to_der(alloc)
}

fn len_of<T: Encode>(value: &T) -> Result<Length, Error> {
    value.encoded_len()
}

fn month_number(month: &MyByteMonth) -> u8 {
    month.month()
}

// The number of the month that its type decodes from the reader.
fn decoded_month(alloc: Global, reader: &mut SliceReader<'_>) -> Result<u8, Error> {
    let month = MyByteMonth::decode(alloc, reader)?;
    Ok(month.month())
}

// The numbers of the two months that their type decodes from the reader.
fn decoded_months<R: Reader>(alloc: Global, reader: &mut R) -> Result<(u8, u8), Error> {
    let (first, second) = <(MyByteMonth, MyByteMonth)>::decode(alloc, reader)?;
    Ok((first.month(), second.month()))
}
