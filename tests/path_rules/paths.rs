//! The rules for paths, each broken by one certificate and kept by the others. The expected answers follow from the sentences of RFC 5280 that stand
//! beside them.
use crate::checks::{same, same_at};
use path_rules::{Answer, Facts, Fault, Rule, Version, path_answer};

// A certificate that keeps all rules, wherever it stands.
const GOOD: Facts = Facts {
    has_same_algorithms: true,
    version: Version::V3,
    has_unique_identifiers: false,
    has_extensions: true,
    has_distinct_extensions: true,
    is_current: true,
    is_chained: true,
    is_permitted: true,
    is_self_issued: false,
    is_authority: true,
    is_known_authority: false,
    path_limit: None,
    may_sign: true,
    is_understood: true,
};

// The last certificate: none that issues others.
const LAST: Facts = Facts { is_authority: false, may_sign: false, ..GOOD };

// A certificate of version 1, of which the caller knows that it is that of an authority.
const OLD: Facts = Facts { version: Version::V1, has_extensions: false, is_authority: false, is_known_authority: true, ..GOOD };

const fn broken(at: usize, rule: Rule) -> Answer {
    Answer::Broken(Fault { at, rule })
}

// What is wrong, as the first of two certificates and as the second, and the answers.
static CASES: [(Facts, Option<Rule>, Option<Rule>); 21] = [
    (GOOD, None, None),
    // 4.1.1.2: "This field MUST contain the same algorithm identifier as the signature field in the sequence tbsCertificate"
    (Facts { has_same_algorithms: false, ..GOOD }, Some(Rule::SignatureAlgorithm), Some(Rule::SignatureAlgorithm)),
    // 4.1.2.8: "These fields MUST only appear if the version is 2 or 3"
    (Facts { has_unique_identifiers: true, ..OLD }, Some(Rule::UniqueIdentifiers), Some(Rule::UniqueIdentifiers)),
    (Facts { has_unique_identifiers: true, version: Version::V2, ..OLD }, None, None),
    (Facts { has_unique_identifiers: true, ..GOOD }, None, None),
    // 4.1.2.9: "This field MUST only appear if the version is 3"
    (Facts { has_extensions: true, ..OLD }, Some(Rule::ExtensionVersion), Some(Rule::ExtensionVersion)),
    (Facts { has_extensions: true, version: Version::V2, ..OLD }, Some(Rule::ExtensionVersion), Some(Rule::ExtensionVersion)),
    // 4.2: "A certificate MUST NOT include more than one instance of a particular extension"
    (Facts { has_distinct_extensions: false, ..GOOD }, Some(Rule::DistinctExtensions), Some(Rule::DistinctExtensions)),
    // 6.1.3 (a) (2): "The certificate validity period includes the current time"
    (Facts { is_current: false, ..GOOD }, Some(Rule::Validity), Some(Rule::Validity)),
    // 6.1.3 (a) (4): "The certificate issuer name is the working_issuer_name"
    (Facts { is_chained: false, ..GOOD }, Some(Rule::Chain), Some(Rule::Chain)),
    // 6.1.3 (b): "If certificate i is self-issued and it is not the final certificate in the path, skip this step"
    (Facts { is_permitted: false, ..GOOD }, Some(Rule::Names), Some(Rule::Names)),
    (Facts { is_permitted: false, is_self_issued: true, ..GOOD }, None, Some(Rule::Names)),
    // 6.1.4 (k): "If certificate i is a version 3 certificate, verify that the basicConstraints extension is present and that cA is set to TRUE"
    (Facts { is_authority: false, ..GOOD }, Some(Rule::Authority), None),
    (Facts { is_authority: false, is_known_authority: true, ..GOOD }, Some(Rule::Authority), None),
    // "(If certificate i is a version 1 or version 2 certificate, then the application MUST either verify that certificate i is a CA certificate through
    // out-of-band means or reject the certificate"
    (OLD, None, None),
    (Facts { is_known_authority: false, ..OLD }, Some(Rule::Authority), None),
    (Facts { is_known_authority: false, is_authority: true, ..OLD }, Some(Rule::Authority), None),
    // 6.1.4 (n): "If a key usage extension is present, verify that the keyCertSign bit is set"
    (Facts { may_sign: false, ..GOOD }, Some(Rule::Usage), None),
    // 6.1.4 (o) and 6.1.5 (f): "Recognize and process any other critical extension"
    (Facts { is_understood: false, ..GOOD }, Some(Rule::Extensions), Some(Rule::Extensions)),
    // 6.1.4 (m): a limit of 0 allows no intermediate certificate after this one, and the last one is none
    (Facts { path_limit: Some(0), ..GOOD }, None, None),
    (Facts { path_limit: Some(0), is_self_issued: true, ..GOOD }, None, None),
];

#[test]
fn each_rule_is_asked_of_each_certificate(rt: HostRuntime) {
    for (row, (facts, first, second)) in CASES.iter().enumerate() {
        let as_first = match first {
            Some(rule) => broken(0, *rule),
            None => Answer::Valid,
        };
        let as_second = match second {
            Some(rule) => broken(1, *rule),
            None => Answer::Valid,
        };
        same_at(&rt, row, path_answer(&[*facts, LAST]), as_first);
        same_at(&rt, row, path_answer(&[GOOD, *facts]), as_second);
    }
}

#[test]
fn a_path_has_a_certificate(rt: HostRuntime) {
    same(&rt, path_answer(&[]), Answer::Empty);
    same(&rt, path_answer(&[LAST]), Answer::Valid);
}

#[test]
fn the_first_certificate_and_its_first_rule_are_named(rt: HostRuntime) {
    let bad = Facts { is_understood: false, is_chained: false, ..GOOD };
    same(&rt, path_answer(&[GOOD, bad, bad]), broken(1, Rule::Chain));
}

// 4.2.1.9: pathLenConstraint "gives the maximum number of non-self-issued intermediate certificates that may follow this certificate in a valid
// certification path. (Note: The last certificate in the certification path is not an intermediate certificate"
#[test]
fn a_path_is_as_long_as_allowed(rt: HostRuntime) {
    let own = Facts { is_self_issued: true, ..GOOD };
    let none = Facts { path_limit: Some(0), ..GOOD };
    let one = Facts { path_limit: Some(1), ..GOOD };
    same(&rt, path_answer(&[none, GOOD, LAST]), broken(0, Rule::PathLength));
    same(&rt, path_answer(&[none, own, LAST]), Answer::Valid);
    same(&rt, path_answer(&[none, own, GOOD, LAST]), broken(0, Rule::PathLength));
    same(&rt, path_answer(&[one, GOOD, LAST]), Answer::Valid);
    same(&rt, path_answer(&[one, GOOD, GOOD, LAST]), broken(0, Rule::PathLength));
    same(&rt, path_answer(&[GOOD, one, GOOD, GOOD, LAST]), broken(1, Rule::PathLength));
    same(&rt, path_answer(&[one, GOOD, none, own, LAST]), broken(0, Rule::PathLength));
    same(&rt, path_answer(&[one, own, none, own, LAST]), Answer::Valid);
}
