//! A user-defined type whose `Ord` is the order of its contents.

use super::*;
use crate::checks::{holds, same};
use crate::fixtures::constants::tags_agree;
use test_fixtures::day::{Day, compare_days};

#[test]
fn constants_and_functions_tell_the_same_tag(rt: HostRuntime) {
    holds(&rt, tags_agree::<Day>(Tag::Integer, false));
}

#[test]
fn days_are_by_their_own_order(rt: HostRuntime) {
    let (first, last) = (Day { number: 1 }, Day { number: 31 });
    same(&rt, compare_days(first, last), Ok(Ordering::Less));
    same(&rt, compare_days(last, first), Ok(Ordering::Greater));
    same(&rt, compare_days(last, last), Ok(Ordering::Equal));
    let (first, last) = (EncodeValueRef(&first), EncodeValueRef(&last));
    same(&rt, last.der_cmp(&first), Ok(Ordering::Greater));
}
