//! A type that reads its contents inside many nested parts, each of which spans all the contents.

use super::*;
use crate::checks::{holds, same};
use crate::fixtures::errors::too_deep;
use test_fixtures::nest::Nest;

#[test]
fn parts_in_contents_are_63_levels_deep_and_no_deeper(rt: HostRuntime) {
    let octets = [0x04, 0x00];
    holds(&rt, Nest::<63>::from_der(rt.alloc(), &octets).is_ok());
    let refused = Nest::<64>::from_der(rt.alloc(), &octets).err();
    same(&rt, refused, Some(too_deep(2)));
}
