//! The functions of `x509_path` and `path_rules` whose speed `bench/paths` measures.
#![tactic(auto)]

use der_asn1::DateTime;
use path_rules::{Answer, Mapping, Node, PolicyAnswer, PolicyFacts, PolicyInputs, policies_answer};
use std::alloc::Global;
use x509_path::{Anchor, Inputs, PathCertificate, judge, no_facts};

const FIRST: &[u8] = &[0x2A, 0x03, 0x01];

const SECOND: &[u8] = &[0x2A, 0x03, 0x02];
// A certificate that maps each of its two policies to both: each node of the tree of RFC 5280, 6.1
// has two children, so that a depth has twice the nodes of the one before.
const DOUBLING: PolicyFacts<'static> = PolicyFacts {
    policies: &[FIRST, SECOND],
    mappings: &[
        Mapping {
            issuer: FIRST,
            subject: FIRST,
        },
        Mapping {
            issuer: FIRST,
            subject: SECOND,
        },
        Mapping {
            issuer: SECOND,
            subject: FIRST,
        },
        Mapping {
            issuer: SECOND,
            subject: SECOND,
        },
    ],
    require_explicit: None,
    inhibit_mapping: None,
    inhibit_any: None,
    is_self_issued: false,
};

/// Judges the policies of a path of so many certificates, at most 64, whose tree doubles at each.
/// Returns 1 if they are valid.
#[unsafe(no_mangle)]
pub extern "C" fn path_bench_policies(length: usize) -> usize {
    let path = [DOUBLING; 64];
    let inputs = PolicyInputs {
        allowed: &[FIRST],
        inhibits_mapping: false,
        requires_explicit: true,
        inhibits_any: false,
    };
    let mut room = [Node::EMPTY; 768];
    let Some((path, _)) = path.split_at_checked(length) else {
        return 0;
    };
    match policies_answer(path, &inputs, &mut room) {
        PolicyAnswer::Valid(_) => 1,
        _ => 0,
    }
}

/// Reads a path of ten certificates and that of its trust anchor, each of which is a slice, and
/// judges it. Returns the number of signatures to verify, or 0 if it is refused.
#[unsafe(no_mangle)]
pub extern "C" fn path_bench_judge(alloc: Global, slices: &[&[u8]]) -> usize {
    let [anchor, a, b, c, d, e, f, g, h, i, j] = slices else {
        return 0;
    };
    let read = |octets| PathCertificate::from_der(alloc, octets);
    let (Ok(root), Ok(a), Ok(b), Ok(c), Ok(d), Ok(e)) = (
        read(anchor),
        read(a),
        read(b),
        read(c),
        read(d),
        read(e),
    ) else {
        return 0;
    };
    let (Ok(f), Ok(g), Ok(h), Ok(i), Ok(j)) = (read(f), read(g), read(h), read(i), read(j)) else {
        return 0;
    };
    judged(alloc, &root, &[a, b, c, d, e, f, g, h, i, j])
}

// The number of signatures, or 0.
fn judged(alloc: Global, root: &PathCertificate<'_>, path: &[PathCertificate<'_>]) -> usize {
    let signed = &root.certificate().tbs_certificate;
    let anchor = Anchor {
        name: signed.subject,
        key: signed.subject_public_key_info,
    };
    let time = DateTime {
        year: 2030,
        month: 1,
        day: 1,
        hour: 0,
        minute: 0,
        second: 0,
    };
    let inputs = Inputs {
        time,
        anchor,
        judges_policies: true,
    };
    let mut room = [no_facts(); 10];
    match judge(alloc, &inputs, path, &mut room) {
        Some(Answer::Valid) => path.len(),
        _ => 0,
    }
}
