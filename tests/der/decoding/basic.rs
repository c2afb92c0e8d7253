//! Worked cases of values that are decoded under the Basic Encoding Rules. The expected results are
//! worked out by hand from X.690 and the rules for errors.
use der::example::MyByteMonth;
use der::{
    Decode, DecodeBytes, EncodingRules, Error, ErrorKind, Header, Length, Reader, ReaderExt,
    SliceReader, Tag, decode_header,
};
use crate::fixtures::bodies::around_contents;
use crate::fixtures::calls::{
    finished, header_of, next_element, next_header, next_month, peek_header, refused_element,
};
use crate::fixtures::errors::{
    incomplete, incorrect, indefinite, invalid_number, trailing, unexpected, unknown,
};
use crate::fixtures::readers::{Placed, ber_reader, ber_not_borrowed, der_reader, place_of};
use std::alloc::Global;
use std::test::Fail;

mod fields;
mod months;
