//! The room for the nodes of a depth.
use crate::checks::{same, same_at};
use path_rules::{ANY_POLICY, Mapping, Node, PolicyAnswer, PolicyFacts, PolicyInputs, ValidPolicies, policies_answer};

const P: &[u8] = &[0x2A, 0x01];
const Q: &[u8] = &[0x2A, 0x02];

const INPUTS: PolicyInputs<'static> = PolicyInputs {
    allowed: &[P],
    inhibits_mapping: false,
    requires_explicit: true,
    inhibits_any: false,
};

// A certificate that has a policy, and maps it to two.
const FACTS: PolicyFacts<'static> = PolicyFacts {
    policies: &[P],
    mappings: &[Mapping { issuer: P, subject: P }, Mapping { issuer: P, subject: Q }],
    require_explicit: None,
    inhibit_mapping: None,
    inhibit_any: None,
    is_self_issued: false,
};

// The path has six policies and mappings, so a room for twelve nodes suffices. One node of a depth and two policies that are expected are half of a
// room each, so it takes four.
#[test]
fn a_room_that_is_too_small_has_an_answer_of_its_own(rt: HostRuntime) {
    let mut room = [Node::EMPTY; 12];
    let valid = PolicyAnswer::Valid(ValidPolicies { has_any_policy: false, has_allowed: true });
    for size in 0..13 {
        let wanted = if size < 4 { PolicyAnswer::NoRoom } else { valid };
        same_at(&rt, size, policies_answer(&[FACTS, FACTS], &INPUTS, &mut room[..size]), wanted);
    }
}

#[test]
fn a_path_without_policies_needs_no_room(rt: HostRuntime) {
    let any = PolicyFacts { policies: &[&ANY_POLICY], mappings: &[], ..FACTS };
    let valid = ValidPolicies { has_any_policy: true, has_allowed: false };
    same(&rt, policies_answer(&[any, any], &INPUTS, &mut []), PolicyAnswer::Valid(valid));
    same(&rt, policies_answer(&[], &INPUTS, &mut []), PolicyAnswer::Empty);
}
