//! The judgement on a path.
use crate::case::Case;
use der::Encode;
use der_asn1::ObjectIdentifierRef;
use path_rules::{Answer, Mapping, Node, PolicyAnswer, PolicyInputs};
use std::alloc::Global;
use x509_path::{
    Anchor, Inputs, PathCertificate, PolicyNote, PolicyReading, judge, judge_policies, no_facts,
    no_policy_facts, obligation_of, purpose_allows, read_policies,
};

/// Prints a line for the path, and adds its obligations, if it is valid where these verify.
pub fn print_judgement<R: Print>(
    rt: &R,
    alloc: Global,
    case: &Case<'_>,
    obligations: &mut Vec<u8>,
) -> anyhow::Result<()> {
    let mut certificates = Vec::new(alloc);
    for octets in case.certificates.iter() {
        match PathCertificate::from_der(alloc, octets) {
            Ok(certificate) => certificates.push(certificate)?,
            Err(_) if certificates.is_empty() => return Ok(println!(rt; "no anchor")?),
            Err(_) => return Ok(println!(rt; "refused Decoding {}", certificates.len() - 1)?),
        }
    }
    match certificates.as_slice() {
        [root, path @ ..] => print_answer(rt, alloc, case, root, path, obligations),
        [] => Ok(println!(rt; "no anchor")?),
    }
}

// Prints the answer for a path after the certificate of its trust anchor.
fn print_answer<R: Print>(
    rt: &R,
    alloc: Global,
    case: &Case<'_>,
    root: &PathCertificate<'_>,
    path: &[PathCertificate<'_>],
    obligations: &mut Vec<u8>,
) -> anyhow::Result<()> {
    let root = &root.certificate().tbs_certificate;
    let anchor = Anchor {
        name: root.subject,
        key: root.subject_public_key_info,
    };
    let inputs = Inputs {
        time: case.time,
        anchor,
        judges_policies: true,
    };
    let mut room = [no_facts(); 20];
    match judge(alloc, &inputs, path, &mut room) {
        Some(Answer::Valid) => {
            if print_policies(rt, alloc, case, path)? && print_purposes(rt, alloc, case, path)? {
                println!(rt; "signed {}", path.len())?;
                add_obligations(alloc, &inputs, path, obligations)?;
            }
        }
        Some(Answer::Empty) => println!(rt; "empty")?,
        Some(Answer::Broken(fault)) => println!(rt; "refused {:?} {}", fault.rule, fault.at)?,
        None => println!(rt; "no room")?,
    }
    Ok(())
}

// Whether the policies of the path are as the caller asks. Otherwise it prints the refusal.
fn print_policies<R: Print>(
    rt: &R,
    alloc: Global,
    case: &Case<'_>,
    path: &[PathCertificate<'_>],
) -> anyhow::Result<bool> {
    let none: &[u8] = &[];
    let mut policies = [none; 200];
    let mut mappings = [Mapping { issuer: none, subject: none }; 200];
    let mut notes = [PolicyNote::EMPTY; 20];
    match read_policies(alloc, path, &mut policies, &mut mappings, &mut notes) {
        PolicyReading::Read => {}
        PolicyReading::NoRoom => {
            println!(rt; "no room")?;
            return Ok(false);
        }
        PolicyReading::Unreadable(at) => {
            println!(rt; "refused Policies {at}")?;
            return Ok(false);
        }
    }
    let [requires_explicit, inhibits_mapping, inhibits_any] = case.flags;
    let inputs = PolicyInputs {
        allowed: case.allowed.as_slice(),
        inhibits_mapping,
        requires_explicit,
        inhibits_any,
    };
    let notes = &notes[..path.len()];
    let mut facts = [no_policy_facts(); 20];
    let mut nodes = [Node::EMPTY; 800];
    match judge_policies(&inputs, &policies, &mappings, notes, &mut facts, &mut nodes) {
        Some(PolicyAnswer::Valid(_)) => return Ok(true),
        Some(PolicyAnswer::Empty) => println!(rt; "empty")?,
        Some(PolicyAnswer::Broken(fault)) => println!(rt; "refused {:?} {}", fault.rule, fault.at)?,
        Some(PolicyAnswer::NoRoom) => println!(rt; "no room")?,
        None => println!(rt; "no room")?,
    }
    Ok(false)
}

// Whether the keys have the purpose that the caller asks for. Otherwise it prints the refusal.
fn print_purposes<R: Print>(
    rt: &R,
    alloc: Global,
    case: &Case<'_>,
    path: &[PathCertificate<'_>],
) -> anyhow::Result<bool> {
    let Some(purpose) = ObjectIdentifierRef::new(case.purpose) else {
        return Ok(true);
    };
    for (at, it) in path.iter().enumerate() {
        let is_asked = case.is_purpose_of_all || at + 1 == path.len();
        if is_asked && !purpose_allows(alloc, &it.certificate().tbs_certificate, &purpose, true) {
            println!(rt; "refused Purpose {at}")?;
            return Ok(false);
        }
    }
    Ok(true)
}

// Adds the key, the algorithm, the signed octets and the signature of each obligation.
fn add_obligations(
    alloc: Global,
    inputs: &Inputs<'_>,
    path: &[PathCertificate<'_>],
    obligations: &mut Vec<u8>,
) -> anyhow::Result<()> {
    for (at, it) in path.iter().enumerate() {
        let obligation = obligation_of(inputs, &path[..at], it);
        let key = obligation.key.to_der(alloc);
        let algorithm = obligation.algorithm.to_der(alloc);
        add(obligations, &key.unwrap_or(Vec::new(alloc)))?;
        add(obligations, &algorithm.unwrap_or(Vec::new(alloc)))?;
        add(obligations, obligation.signed)?;
        add(obligations, obligation.signature)?;
    }
    Ok(())
}

// Adds octets, after their number.
fn add(obligations: &mut Vec<u8>, octets: &[u8]) -> anyhow::Result<()> {
    obligations.extend_from_slice(&(octets.len() as u32).to_be_bytes())?;
    obligations.extend_from_slice(octets)?;
    Ok(())
}
