//! The constants of types, which no clause can name, and the functions that return the same.
use super::*;
use crate::checks::holds;
use crate::fixtures::constants::tags_agree;
use example_calls::algorithm_identifier::AlgorithmIdentifier;
use example_calls::key_info::KeyInfo;
use test_fixtures::hasty::Hasty;
use test_fixtures::nest::Nest;
use test_fixtures::octet::Octet;
use test_fixtures::unread::Unread;
use example_calls::my_octets::MyOctets;

#[test]
fn constants_and_functions_tell_the_same_tags(rt: HostRuntime) {
    holds(&rt, tags_agree::<MyByteMonth>(Tag::OctetString, false));
    holds(&rt, tags_agree::<Box<MyByteMonth>>(Tag::OctetString, false));
    holds(&rt, tags_agree::<MyOctets>(Tag::OctetString, false));
    holds(&rt, tags_agree::<AlgorithmIdentifier>(Tag::Sequence, true));
    holds(&rt, tags_agree::<KeyInfo>(Tag::Sequence, true));
    holds(&rt, tags_agree::<Hasty>(Tag::OctetString, false));
    holds(&rt, tags_agree::<Unread>(Tag::OctetString, false));
    holds(&rt, tags_agree::<Octet>(Tag::OctetString, false));
    holds(&rt, tags_agree::<Nest<1>>(Tag::OctetString, false));
}
