//! Worked cases of writing. The expected results are worked out by hand from X.690 and the rules
//! for errors.
use der::{Error, ErrorKind, Header, Length, Tag, TagNumber};
use std::alloc::Global;
use std::test::Fail;

mod before;
mod counter;
mod encoding;
mod memory;
mod month;
mod references;
mod sequences;
mod writers;
mod wrong;
mod zeros;
