//! A type that writes an octet and then refuses.

use super::*;
use crate::checks::{holds, same};
use der::{Encode, SliceWriter};
use test_fixtures::half_written::HalfWritten;

#[test]
fn an_error_without_a_position_gets_the_writers(rt: HostRuntime) {
    let mut buf = [0; 4];
    let mut writer = SliceWriter::new(&mut buf);
    same(
        &rt,
        writer.encode(&HalfWritten),
        Err(ErrorKind::Overflow.at(Length::ONE)),
    );
    holds(&rt, writer.is_failed());
}

#[test]
fn a_refused_encoding_leaves_the_vector(rt: HostRuntime) -> Result<(), Fail> {
    let mut out = Vec::from_slice(rt.alloc(), &[0xBBu8])?;
    same(
        &rt,
        HalfWritten.encode_to_vec(&mut out),
        Err(ErrorKind::Overflow.to_error()),
    );
    same(&rt, out.as_slice(), [0xBB].as_slice());
    Ok(())
}
