//! Scans and drains of slices, compared with those that read octet by octet.
use der::{EncodingRules, Error, ErrorKind, Length, Reader, ReaderExt, SliceReader, Tag, Turns};
use crate::fixtures::bodies::{SEGMENT_OF_ZEROS, around_contents, around_null, first_octets};
use crate::fixtures::errors::{incomplete, incorrect, indefinite, invalid_number, too_deep, unknown};
use crate::fixtures::readers::{ber_reader, ber_not_borrowed, place_of, ruled_reader};
use std::alloc::Global;
use std::test::Fail;

mod cuts;
mod drains;
mod borrowing;
mod lists;
mod scans;
mod turns;
