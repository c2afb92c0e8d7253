//! Judgements on paths of a certificate of openssl and that of an authority, and verdicts on their signatures.
use crate::checks::{holds, holds_at, same, same_at, same_octets};
use crate::x509_path::certificates::{AUTHORITY, NONE};
use der_asn1::DateTime;
use path_rules::{Fault, Rule};
use std::alloc::Global;
use std::process::Abort;
use x509_path::{Anchor, Inputs, Judgement, PathCertificate, Refusal, Unsigned, judge_path, no_facts};

fn certificate(rt: &impl Abort, alloc: Global, octets: &'static [u8]) -> PathCertificate<'static> {
    match PathCertificate::from_der(alloc, octets) {
        Ok(certificate) => certificate,
        Err(_) => panic!(rt; "no certificate"),
    }
}

// The trust anchor has the name and the key of the certificate.
fn inputs_of<'a>(certificate: &PathCertificate<'a>, year: u16) -> Inputs<'a> {
    let signed = &certificate.certificate().tbs_certificate;
    let anchor = Anchor {
        name: signed.subject,
        key: signed.subject_public_key_info,
    };
    let time = DateTime {
        year,
        month: 1,
        day: 1,
        hour: 0,
        minute: 0,
        second: 0,
    };
    Inputs {
        time,
        anchor,
        judges_policies: false,
    }
}

// The reason why these verdicts make no valid path of two certificates; none if they make one.
fn unsigned(rt: &impl Abort, alloc: Global, verdicts: &[bool]) -> Option<Unsigned> {
    let path = [certificate(rt, alloc, &AUTHORITY), certificate(rt, alloc, &NONE)];
    let inputs = inputs_of(&path[0], 2030);
    match judge_path(alloc, &inputs, &path, &mut [no_facts(); 2]) {
        Judgement::IfSigned(found) => match found.with_verdicts(verdicts) {
            Ok(_) => None,
            Err(error) => Some(error),
        },
        Judgement::Refused(_) => panic!(rt; "refused"),
        Judgement::NoRoom => panic!(rt; "no room"),
    }
}

#[test]
fn one_true_verdict_for_each_signature_makes_a_valid_path(rt: HostRuntime) {
    let alloc = rt.alloc();
    same_at(&rt, "none", unsigned(&rt, alloc, &[]), Some(Unsigned::TooFew));
    same_at(&rt, "one", unsigned(&rt, alloc, &[true]), Some(Unsigned::TooFew));
    same_at(&rt, "both", unsigned(&rt, alloc, &[true, true]), None);
    same_at(&rt, "three", unsigned(&rt, alloc, &[true, true, true]), Some(Unsigned::TooMany));
    same_at(&rt, "first", unsigned(&rt, alloc, &[false, true]), Some(Unsigned::Failed(0)));
    same_at(&rt, "last", unsigned(&rt, alloc, &[true, false]), Some(Unsigned::Failed(1)));
    same_at(&rt, "neither", unsigned(&rt, alloc, &[false, false]), Some(Unsigned::Failed(0)));
}

// A valid path has its inputs, its certificates, and the last of them with its key.
#[test]
fn a_valid_path_has_the_outputs(rt: HostRuntime) {
    let alloc = rt.alloc();
    let path = [certificate(&rt, alloc, &AUTHORITY), certificate(&rt, alloc, &NONE)];
    let inputs = inputs_of(&path[0], 2030);
    let found = match judge_path(alloc, &inputs, &path, &mut [no_facts(); 4]) {
        Judgement::IfSigned(found) => found,
        Judgement::Refused(_) => panic!(rt; "refused"),
        Judgement::NoRoom => panic!(rt; "no room"),
    };
    same_at(&rt, "count", found.count(), 2);
    for at in 0..2 {
        match found.obligation(at) {
            Some(obligation) => {
                same_octets(&rt, obligation.signed, path[at].signed_octets());
                holds_at(&rt, at, *obligation.key == inputs.anchor.key);
            }
            None => panic!(rt; "no obligation"),
        }
    }
    same_at(&rt, "obligations", found.obligation(2).is_some(), false);
    match found.with_verdicts(&[true, true]) {
        Ok(valid) => {
            same_octets(&rt, valid.certificate().octets(), &NONE);
            same(&rt, valid.path().len(), 2);
            same(&rt, valid.inputs().time.year, 2030);
            holds(&rt, *valid.key() == path[1].certificate().tbs_certificate.subject_public_key_info);
        }
        Err(_) => panic!(rt; "not valid"),
    }
}

// What a path is refused for, or whether the room is too small for it; none if it is valid where its signatures verify.
fn refusal(rt: &impl Abort, alloc: Global, count: usize, year: u16) -> Option<Option<Refusal>> {
    let path = [certificate(rt, alloc, &AUTHORITY), certificate(rt, alloc, &NONE)];
    let inputs = inputs_of(&path[0], year);
    match judge_path(alloc, &inputs, &path[..count], &mut [no_facts(); 1]) {
        Judgement::IfSigned(_) => None,
        Judgement::Refused(why) => Some(Some(why)),
        Judgement::NoRoom => Some(None),
    }
}

#[test]
fn a_refusal_names_the_certificate_and_the_rule(rt: HostRuntime) {
    let alloc = rt.alloc();
    let late = Refusal::Broken(Fault { at: 0, rule: Rule::Validity });
    same_at(&rt, "kept", refusal(&rt, alloc, 1, 2030), None);
    same_at(&rt, "late", refusal(&rt, alloc, 1, 2040), Some(Some(late)));
    same_at(&rt, "early", refusal(&rt, alloc, 1, 2020), Some(Some(late)));
    same_at(&rt, "empty", refusal(&rt, alloc, 0, 2030), Some(Some(Refusal::Empty)));
    same_at(&rt, "no room", refusal(&rt, alloc, 2, 2030), Some(None));
}

#[test]
fn refusals_and_errors_are_printed(rt: HostRuntime) -> anyhow::Result<()> {
    let alloc = rt.alloc();
    let late = Refusal::Broken(Fault { at: 1, rule: Rule::Validity });
    let text = format!(in alloc; "{late}; {}", Refusal::Empty)?;
    same(&rt, text.as_str(), "certificate 1: the time is outside the validity period (RFC 5280, 6.1.3 (a) (2)); the path has no certificate");
    let text = format!(in alloc; "{}; {}", Unsigned::TooFew, Unsigned::TooMany)?;
    same(&rt, text.as_str(), "there are fewer verdicts than signatures; there are more verdicts than signatures");
    let text = format!(in alloc; "{}", Unsigned::Failed(1))?;
    same(&rt, text.as_str(), "the signature of certificate 1 does not verify");
    Ok(())
}
