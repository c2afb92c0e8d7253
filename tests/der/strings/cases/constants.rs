//! The constants of types over octets and texts, and the functions that return the same.
use super::*;
use crate::checks::holds;
use der::example::JoinedOctets;
use crate::fixtures::constants::tags_agree;
use test_fixtures::cow_octets::CowOctets;

#[test]
fn constants_and_functions_tell_the_same_tags(rt: HostRuntime) {
    holds(&rt, tags_agree::<BorrowedOctets>(Tag::OctetString, false));
    holds(&rt, tags_agree::<JoinedOctets>(Tag::OctetString, false));
    holds(&rt, tags_agree::<OwnedText>(Tag::Utf8String, false));
    holds(
        &rt,
        tags_agree::<CowOctets>(Tag::OctetString, false),
    );
}
