//! Worked cases of indefinite-length contents, scanned alone and after headers. The expected
//! results are worked out by hand from X.690 and the rules for errors.
use der::{
    Decode, DecodeBytes, EncodingRules, Error, ErrorKind, Header, Length, Reader, ReaderExt,
    SliceReader, Tag, decode_header,
};
use crate::fixtures::bodies::{SEGMENT_OF_ZEROS, around_contents, around_null, first_octets};
use crate::fixtures::errors::{
    incomplete, incorrect, indefinite, invalid_number, too_deep, trailing, unknown, unsupported,
};
use crate::fixtures::readers::{
    Placed, ber_failing, ber_reader, ber_not_borrowed, der_failing, place_of, ruled_reader,
};
use std::alloc::Global;
use std::test::Fail;

mod cuts;
mod faults;
mod headers;
mod parts;
mod refusals;
mod scans;
