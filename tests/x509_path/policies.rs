//! The policies of certificates, read into rooms of the caller. What the certificate says is in the words with which openssl made it.
use crate::checks::{holds, same, same_at};
use crate::x509_path::certificates::POLICIES;
use path_rules::{Mapping, Node, PolicyAnswer, PolicyFault, PolicyInputs, PolicyRule, ValidPolicies};
use std::alloc::Global;
use std::process::Abort;
use x509_path::{PathCertificate, PolicyNote, PolicyReading, judge_policies, no_policy_facts, read_policies};

const NONE: &[u8] = &[];
const FIRST: &[u8] = &[0x2A, 0x03, 0x01];
const THIRD: &[u8] = &[0x2A, 0x03, 0x03];

fn certificate(rt: &impl Abort, alloc: Global) -> PathCertificate<'static> {
    match PathCertificate::from_der(alloc, &POLICIES) {
        Ok(certificate) => certificate,
        Err(_) => panic!(rt; "no certificate"),
    }
}

// What is said of a path of two such certificates, with so many places for policies, mappings and notes.
fn reading(rt: &impl Abort, alloc: Global, places: [usize; 3]) -> PolicyReading {
    let path = [certificate(rt, alloc), certificate(rt, alloc)];
    let mut policies = [NONE; 4];
    let mut mappings = [Mapping { issuer: NONE, subject: NONE }; 2];
    let mut notes = [PolicyNote::EMPTY; 2];
    read_policies(alloc, &path, &mut policies[..places[0]], &mut mappings[..places[1]], &mut notes[..places[2]])
}

// Two certificates have four policies and two mappings.
#[test]
fn a_room_that_lacks_a_place_is_no_room(rt: HostRuntime) {
    let rows = [
        ([4, 2, 2], PolicyReading::Read),
        ([3, 2, 2], PolicyReading::NoRoom),
        ([4, 1, 2], PolicyReading::NoRoom),
        ([4, 2, 1], PolicyReading::NoRoom),
    ];
    for (at, (places, expected)) in rows.iter().enumerate() {
        same_at(&rt, at, reading(&rt, rt.alloc(), *places), *expected);
    }
}

// The answer for a path of one certificate, if the caller allows a policy, with so many places for facts.
fn answer(rt: &impl Abort, alloc: Global, allowed: &[u8], places: usize) -> Option<PolicyAnswer> {
    let path = [certificate(rt, alloc)];
    let mut policies = [NONE; 2];
    let mut mappings = [Mapping { issuer: NONE, subject: NONE }; 1];
    let mut notes = [PolicyNote::EMPTY; 1];
    let read = read_policies(alloc, &path, &mut policies, &mut mappings, &mut notes);
    same(rt, read, PolicyReading::Read);
    let inputs = PolicyInputs {
        allowed: &[allowed],
        inhibits_mapping: false,
        requires_explicit: false,
        inhibits_any: false,
    };
    let mut facts = [no_policy_facts(); 1];
    let mut nodes = [Node::EMPTY; 6];
    judge_policies(&inputs, &policies, &mappings, &notes, &mut facts[..places], &mut nodes)
}

// RFC 5280, 6.1.5 (g): the certificate requires a policy that the caller allows.
#[test]
fn a_policy_of_the_certificate_has_to_be_allowed(rt: HostRuntime) {
    let valid = PolicyAnswer::Valid(ValidPolicies {
        has_any_policy: false,
        has_allowed: true,
    });
    same(&rt, answer(&rt, rt.alloc(), FIRST, 1), Some(valid));
    let broken = PolicyAnswer::Broken(PolicyFault {
        at: 0,
        rule: PolicyRule::Allowed,
    });
    same(&rt, answer(&rt, rt.alloc(), THIRD, 1), Some(broken));
    holds(&rt, answer(&rt, rt.alloc(), FIRST, 0).is_none());
}
