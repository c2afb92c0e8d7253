//! A reader that has failed, and each call on it, in turn.

use super::*;
use crate::checks::same;
use crate::fixtures::readers::place_of;
use std::process::Abort;

fn read_none<R: Reader>(reader: &mut R) -> Result<(), Error>
{
    let _ = reader.position();
    Ok(())
}

fn reads_no_slices<R: Reader>(rt: &impl Abort, alloc: Global, reader: &mut R, failed: Error) {
    same(rt, reader.read_slice(Length::ZERO).err(), Some(failed));
    same(rt, reader.read_byte(), Err(failed));
    same(rt, reader.read_vec(alloc, Length::ZERO).err(), Some(failed));
    same(rt, reader.remaining().err(), Some(failed));
    same(rt, reader.peek_byte(), None);
}

// Reading no octets is not an error.
fn passes_nothing<R: Reader>(rt: &impl Abort, reader: &mut R, failed: Error) {
    same(rt, reader.drain(Length::ONE), Err(failed));
    same(rt, reader.drain(Length::new_indefinite(0)), Err(failed));
    same(rt, reader.drain(Length::ZERO), Ok(()));
    same(rt, reader.read_nested(Length::ZERO, read_none), Ok(()));
}

fn decodes_nothing<R: Reader>(rt: &impl Abort, alloc: Global, reader: &mut R, failed: Error) {
    let tag: Result<Tag, Error> = reader.decode(alloc);
    same(rt, tag, Err(failed));
    same(rt, reader.tlv_bytes().err(), Some(failed));
    same(rt, reader.sequence(read_none), Err(failed));
}

// After all of these calls the reader is where it failed.
fn answers_nothing<R: Reader>(rt: &impl Abort, alloc: Global, mut reader: R) {
    let failed = ErrorKind::Failed.at(Length::ZERO);
    reads_no_slices(rt, alloc, &mut reader, failed);
    passes_nothing(rt, &mut reader, failed);
    decodes_nothing(rt, alloc, &mut reader, failed);
    same(rt, place_of(&reader), (0, 2, true));
    same(rt, reader.finish(), Err(failed));
}

#[test]
fn a_failed_reader_refuses_each_call_that_reads_and_stays(rt: HostRuntime) -> Result<(), Fail> {
    let mut reader = der_reader(&[0x01, 0x02])?;
    let refused = reader.read_slice(Length::new(3)).err();
    same(&rt, refused, Some(incomplete(3, 2, 0)));
    answers_nothing(&rt, rt.alloc(), reader.fork());
    answers_nothing(&rt, rt.alloc(), reader);
    Ok(())
}
