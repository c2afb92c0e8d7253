//! A reader that returns a slice of what is left, and fails at each read.
use super::scans::scans;
use super::*;
use crate::checks::same;
use crate::fixtures::constants::reading_slices_agrees;
use test_fixtures::slicing_reader::{SlicingReader, ber_slicing};

#[test]
fn constant_and_function_agree_that_it_reads_slices(rt: HostRuntime) {
    same(&rt, reading_slices_agrees::<SlicingReader>(true), true);
}

// The scan that peeks walks over the returned slice. The one that consumes has to read.
#[test]
fn a_body_that_is_borrowed_is_counted_by_a_peek_and_not_consumed(rt: HostRuntime) -> Result<(), Fail> {
    let mut reader = ber_slicing(&SEGMENT_OF_ZEROS)?;
    reader.drain(Length::new(2))?;
    let (peeks, passed) = scans(&reader);
    same(&rt, peeks, Ok(Length::new_indefinite(10)));
    let unsupported = ErrorKind::Reader.at(Length::new(2));
    same(&rt, passed, Err(unsupported));
    same(&rt, place_of(&reader), (2, 12, false));
    Ok(())
}
