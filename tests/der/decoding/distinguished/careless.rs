//! Careless types: octets that they leave unread and errors that they ignore make `from_der` fail.

use super::*;
use crate::checks::{holds, same};
use test_fixtures::hasty::Hasty;
use test_fixtures::unread::Unread;

#[test]
fn an_error_that_a_type_ignores_is_reported_as_failed(rt: HostRuntime) -> Result<(), Fail> {
    let octets = [0x04, 0x01, 0x09];
    let failed = ErrorKind::Failed.at(Length::new(3));
    same(
        &rt,
        Hasty::from_der(rt.alloc(), &octets).err(),
        Some(failed),
    );
    same(
        &rt,
        Hasty::from_der_partial(rt.alloc(), &octets).err(),
        Some(failed),
    );
    let mut reader = der_reader(&octets)?;
    let hasty = Hasty::decode(rt.alloc(), &mut reader)?;
    same(&rt, hasty.octet, 0x09);
    holds(&rt, reader.is_failed());
    Ok(())
}

#[test]
fn what_follows_an_ignored_error_is_rejected(rt: HostRuntime) {
    let octets = [0x04, 0x01, 0x09, 0x04, 0x01, 0x02];
    let failed = ErrorKind::Failed.at(Length::new(3));
    let refused = <(Hasty, MyByteMonth)>::from_der(rt.alloc(), &octets).err();
    same(&rt, refused, Some(failed));
}

#[test]
fn contents_that_a_type_leaves_are_refused(rt: HostRuntime) {
    let alloc = rt.alloc();
    let refused = Unread::from_der(alloc, &[0x04, 0x01, 0x09]).err();
    same(&rt, refused, Some(trailing(2, 1)));
    holds(&rt, Unread::from_der(alloc, &[0x04, 0x00]).is_ok());
}
