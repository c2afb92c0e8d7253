//! Policies of paths: NIST's tests, and random paths that were judged with the tree of RFC 5280.
use super::{pkits, trees};
use crate::checks::{holds_at, same, same_at};
use path_rules::{ANY_POLICY, Mapping, Node, PolicyAnswer, PolicyFacts, PolicyFault, PolicyInputs, ValidPolicies, is_authority_policy, policies_answer};

const P: &[u8] = &[0x2A, 0x01];
const Q: &[u8] = &[0x2A, 0x02];

const NONE: PolicyFacts<'static> = PolicyFacts {
    policies: &[],
    mappings: &[],
    require_explicit: None,
    inhibit_mapping: None,
    inhibit_any: None,
    is_self_issued: false,
};

const ANYTHING: PolicyInputs<'static> = PolicyInputs {
    allowed: &[&ANY_POLICY],
    inhibits_mapping: false,
    requires_explicit: true,
    inhibits_any: false,
};

#[test]
fn nist_calls_the_same_paths_valid(rt: HostRuntime) {
    let mut seen = 0;
    for (name, path, inputs, is_valid) in pkits::cases().iter().flat_map(|part| part.iter()) {
        let mut room = [Node::EMPTY; 64];
        let answer = policies_answer(path, inputs, &mut room);
        let found = match answer {
            PolicyAnswer::Valid(_) => true,
            PolicyAnswer::Broken(_) => false,
            _ => !*is_valid,
        };
        same_at(&rt, *name, found, *is_valid);
        seen += 1;
    }
    same(&rt, seen, 88);
}

#[test]
fn the_tree_of_the_rfc_gives_the_same_answers(rt: HostRuntime) {
    let mut seen = 0;
    for (row, (path, inputs, expected)) in trees::cases().iter().flat_map(|part| part.iter()).enumerate() {
        let mut room = [Node::EMPTY; 128];
        let answer = policies_answer(path, inputs, &mut room);
        let wanted = match expected {
            trees::Expected::Valid { has_any, has_allowed, authority: _ } => {
                let has_any_policy = *has_any;
                let has_allowed = *has_allowed;
                PolicyAnswer::Valid(ValidPolicies { has_any_policy, has_allowed })
            }
            trees::Expected::Broken { at, rule } => PolicyAnswer::Broken(PolicyFault { at: *at, rule: *rule }),
        };
        same_at(&rt, row, answer, wanted);
        seen += 1;
    }
    same(&rt, seen, 210);
}

// RFC 9618, 6.1.5 (g) (4): "authority_constrained_policy_set", for each policy that the paths name.
#[test]
fn the_tree_of_the_rfc_gives_the_same_sets(rt: HostRuntime) {
    let known: [&[u8]; 5] = [&[0x2A, 0x01], &[0x2A, 0x02], &[0x2A, 0x03], &[0x2A, 0x04], &ANY_POLICY];
    let mut seen = 0;
    for (row, (path, inputs, expected)) in trees::cases().iter().flat_map(|part| part.iter()).enumerate() {
        if let trees::Expected::Valid { has_any: _, has_allowed: _, authority } = expected {
            for policy in known.iter() {
                let mut room = [Node::EMPTY; 128];
                let wanted = authority.iter().any(|one| *one == *policy);
                same_at(&rt, row, is_authority_policy(path, inputs, policy, &mut room), Some(wanted));
                seen += 1;
            }
        }
    }
    holds_at(&rt, 0, seen > 400);
    let path = [PolicyFacts { policies: &[P], ..NONE }];
    same(&rt, is_authority_policy(&path, &ANYTHING, P, &mut []), None);
}

// 6.1.4 (b) (1): each certificate maps each of two policies to both. The tree of the RFC has 2 ^ 40 nodes at the end, and the graph two of a depth.
#[test]
fn a_tree_that_grows_exponentially_is_judged(rt: HostRuntime) {
    let crossed = PolicyFacts {
        policies: &[P, Q],
        mappings: &[
            Mapping { issuer: P, subject: P },
            Mapping { issuer: P, subject: Q },
            Mapping { issuer: Q, subject: P },
            Mapping { issuer: Q, subject: Q },
        ],
        ..NONE
    };
    let path = [crossed; 40];
    let mut room = [Node::EMPTY; 512];
    let answer = policies_answer(&path, &ANYTHING, &mut room);
    same(&rt, answer, PolicyAnswer::Valid(ValidPolicies { has_any_policy: false, has_allowed: true }));
}

// 6.1.1 (c): the user-initial-policy-set may be empty; then no policy is allowed at the end (6.1.5 (g)).
#[test]
fn an_empty_set_allows_nothing(rt: HostRuntime) {
    let path = [PolicyFacts { policies: &[P, &ANY_POLICY], ..NONE }];
    let mut room = [Node::EMPTY; 4];
    let inputs = PolicyInputs { allowed: &[], ..ANYTHING };
    holds_at(&rt, 0, matches!(policies_answer(&path, &inputs, &mut room), PolicyAnswer::Broken(_)));
    let inputs = PolicyInputs { requires_explicit: false, ..inputs };
    holds_at(&rt, 1, matches!(policies_answer(&path, &inputs, &mut room), PolicyAnswer::Valid(_)));
}
