//! The texts of the rules: each is a sentence, and its section of RFC 5280.
use crate::checks::{same, same_at};
use path_rules::{POLICY_RULES, PolicyRule, RULES, Rule};
use std::test::Fail;

// Each rule, its section, and its text. The order is that of the list.
static TEXTS: [(Rule, &str, &str); 11] = [
    (Rule::SignatureAlgorithm, "4.1.1.2", "signatureAlgorithm differs from the signature field (RFC 5280, 4.1.1.2)"),
    (Rule::UniqueIdentifiers, "4.1.2.8", "unique identifiers in a certificate of version 1 (RFC 5280, 4.1.2.8)"),
    (Rule::ExtensionVersion, "4.1.2.9", "extensions in a certificate that is not of version 3 (RFC 5280, 4.1.2.9)"),
    (Rule::DistinctExtensions, "4.2", "an extension occurs twice (RFC 5280, 4.2)"),
    (Rule::Validity, "6.1.3 (a) (2)", "the time is outside the validity period (RFC 5280, 6.1.3 (a) (2))"),
    (Rule::Chain, "6.1.3 (a) (4)", "the issuer is not the subject of the certificate before (RFC 5280, 6.1.3 (a) (4))"),
    (Rule::Names, "6.1.3 (b), (c)", "a name is not permitted by the name constraints (RFC 5280, 6.1.3 (b), (c))"),
    (Rule::Authority, "6.1.4 (k)", "it issues a certificate, but is not that of an authority (RFC 5280, 6.1.4 (k))"),
    (Rule::PathLength, "6.1.4 (m)", "more intermediate certificates follow than pathLenConstraint allows (RFC 5280, 6.1.4 (m))"),
    (Rule::Usage, "6.1.4 (n)", "it issues a certificate, but its keyUsage has no keyCertSign (RFC 5280, 6.1.4 (n))"),
    (Rule::Extensions, "6.1.4 (o)", "a critical extension is not processed (RFC 5280, 6.1.4 (o))"),
];

static POLICY_TEXTS: [(PolicyRule, &str, &str); 3] = [
    (PolicyRule::Explicit, "6.1.3 (f)", "a policy is required, and the path has none (RFC 5280, 6.1.3 (f))"),
    (PolicyRule::Mapping, "6.1.4 (a)", "anyPolicy is mapped (RFC 5280, 6.1.4 (a))"),
    (PolicyRule::Allowed, "6.1.5 (g)", "a policy is required, and the path has none that is allowed (RFC 5280, 6.1.5 (g))"),
];

#[test]
fn rules_are_printed_with_their_section(rt: HostRuntime) -> Result<(), Fail> {
    same(&rt, RULES.len(), TEXTS.len());
    for (row, (rule, section, text)) in TEXTS.iter().enumerate() {
        same_at(&rt, row, RULES[row], *rule);
        same_at(&rt, row, rule.section(), *section);
        let printed = format!(in rt.alloc(); "{rule}")?;
        same_at(&rt, row, printed.as_str(), *text);
    }
    Ok(())
}

#[test]
fn rules_for_policies_are_printed_with_their_section(rt: HostRuntime) -> Result<(), Fail> {
    same(&rt, POLICY_RULES.len(), POLICY_TEXTS.len());
    for (row, (rule, section, text)) in POLICY_TEXTS.iter().enumerate() {
        same_at(&rt, row, POLICY_RULES[row], *rule);
        same_at(&rt, row, rule.section(), *section);
        let printed = format!(in rt.alloc(); "{rule}")?;
        same_at(&rt, row, printed.as_str(), *text);
    }
    Ok(())
}
